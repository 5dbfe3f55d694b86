//! Finds libtempolemon.a: below TEMPOLEMON_PREFIX if that is set, else by pkg-config, else in the clone or the
//! installation that has this crate.

use std::path::PathBuf;
use std::process::Command;
use std::{env, fs};

fn main() {
    for name in ["TEMPOLEMON_PREFIX", "PKG_CONFIG_PATH", "PKG_CONFIG_LIBDIR"] {
        println!("cargo:rerun-if-env-changed={name}");
    }
    let Some(folder) = places().into_iter().find(|it| it.join("libtempolemon.a").exists()) else {
        panic!("no libtempolemon.a: run ./memcg lib in the clone, or set TEMPOLEMON_PREFIX to an installation");
    };
    println!("cargo:rerun-if-changed={}", folder.join("libtempolemon.a").display());
    println!("cargo:rustc-link-search=native={}", folder.display());
    println!("cargo:rustc-link-lib=static=tempolemon");
}

/// The folders that may have the archive, the first choice first.
fn places() -> Vec<PathBuf> {
    if let Some(prefix) = env::var_os("TEMPOLEMON_PREFIX") {
        return vec![fs::canonicalize(&prefix).unwrap_or(prefix.into()).join("lib")];
    }
    let here = PathBuf::from(env::var_os("CARGO_MANIFEST_DIR").expect("cargo sets it"));
    let of_clone = here.join("../../out/lib");
    let of_installation = here.join("../../../../lib");
    described().into_iter().chain([of_clone, of_installation]).collect()
}

/// The folder that pkg-config names.
fn described() -> Option<PathBuf> {
    let program = env::var_os("PKG_CONFIG").unwrap_or("pkg-config".into());
    let asked = Command::new(program).args(["--variable=libdir", "tempolemon"]).output().ok()?;
    let folder = String::from_utf8(asked.stdout).ok()?;
    asked.status.success().then(|| folder.trim_end().into())
}
