//! Threads that share a pool of pages: see docs/EMBED.md, "From Rust".
//!
//!     cargo run --release --manifest-path bindings/rust/Cargo.toml --example host_threads
//!
//! The word is the number of threads (4).

use std::sync::atomic::{AtomicU32, Ordering};
use std::{env, thread};
use tempolemon::{Cpu, Error, Frame, Group, Sizes, Zone};

const ROUNDS: u32 = 20_000;

/// Releases a page. One whose group was killed is gone. (No limit is lowered here: else another group might have its frame
/// by now, and the host would pin the page first and ask for its owner, as host_threads.c does.)
fn release(cpu: &Cpu, frame: Frame) -> Result<(), Error> {
    match cpu.release(frame) {
        Err(Error::NotKept) => Ok(()),
        released => released.map(drop),
    }
}

/// Allocates pages, publishes some, and reads what others published. A shelf's place has a frame + 1, or 0.
fn work(cpu: Cpu, group: Group, shelf: &[AtomicU32]) -> Result<u64, Error> {
    let mut read = 0;
    for round in 0..ROUNDS {
        let place = &shelf[(round * 7 + group.0) as usize % shelf.len()];
        let seen = place.load(Ordering::SeqCst);
        if seen != 0 {
            if let Ok(page) = cpu.get(Frame(seen - 1)) {
                read += u64::from(place.load(Ordering::SeqCst) == page.frame().0 + 1);
            }
        }
        if round % 16 != 0 {
            let frame = cpu.alloc(group, 0)?;
            release(&cpu, frame)?;
            continue;
        }
        // Dirty from the first, so that it isn't reclaimed, and others may pin it.
        let frame = cpu.alloc_dirty(group, 0)?;
        match place.swap(frame.0 + 1, Ordering::SeqCst) {
            0 => {}
            before => release(&cpu, Frame(before - 1))?,
        }
    }
    Ok(read)
}

fn main() -> Result<(), Error> {
    let threads = env::args().nth(1).map_or(4, |word| word.parse().expect("a number of threads"));
    let zone = Zone::boot(&Sizes { frames: 4096, cpus: threads, batch: 32, high: 128, stock: 32, ..Sizes::default() })?;
    let shelf: Vec<AtomicU32> = (0..64).map(|_| AtomicU32::new(0)).collect();
    let read = thread::scope(|scope| {
        let mut running = Vec::new();
        for number in 1..=threads {
            let cpu = zone.take(number)?;
            let group = cpu.mkdir(&format!("/t{number}"))?;
            let shelf = &shelf;
            running.push(scope.spawn(move || work(cpu, group, shelf)));
        }
        running.into_iter().try_fold(0, |read, it| Ok::<u64, Error>(read + it.join().expect("a thread panicked")?))
    })?;
    let report = zone.end()?;
    eprintln!("{read} pages were read");
    println!("{} frames, {} pins held", report.frames, report.held);
    assert_eq!(report.free + report.charged, report.frames);
    Ok(())
}
