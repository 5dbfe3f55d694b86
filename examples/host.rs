//! Boots a zone of 64 frames, fills a group up to its limit, and prints what it uses: see docs/EMBED.md, "From Rust".
//!
//!     cargo run --manifest-path bindings/rust/Cargo.toml --example host

use tempolemon::{Error, Sizes, Zone};

fn main() -> Result<(), Error> {
    let zone = Zone::boot(&Sizes { frames: 64, cpus: 2, batch: 4, high: 8, stock: 4, ..Sizes::default() })?;
    let cpu = zone.take(1)?;
    let web = cpu.mkdir("/web")?;
    cpu.write("/web", "memory.max", "128K")?;
    let refused = loop {
        match cpu.alloc_dirty(web, 4) {
            Ok(frame) => println!("frame {}", frame.0), // (dirty, so that it isn't reclaimed)
            Err(error) => break error,
        }
    };
    println!("refused {}", refused.status());
    print!("{}", cpu.read("/web", "memory.current")?);
    drop(cpu);
    let report = zone.end()?;
    println!("{} of {} frames were charged", report.charged, report.frames);
    Ok(())
}
