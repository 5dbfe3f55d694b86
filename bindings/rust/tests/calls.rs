//! Each call of the crate, what it returns and how it is refused.

use std::mem::forget;
use std::sync::{Arc, Mutex};
use std::thread;
use tempolemon::{Error, Frame, Group, Owner, Released, Sizes, Touched, Zone, PROOF};

const SIZES: Sizes = Sizes {
    frames: 64,
    cpus: 2,
    batch: 4,
    high: 8,
    stock: 4,
    reclaim_batch: 0,
    no_kill: 0,
    proportional: 0,
    groups: 0,
};

fn boot() -> Zone {
    Zone::boot(&SIZES).unwrap()
}

#[test]
fn each_call_is_answered() -> Result<(), Error> {
    let zone = boot();
    let cpu = zone.take(1)?;
    let a = cpu.mkdir("/a")?;
    cpu.write("/a", "memory.max", "128K")?;
    assert_eq!(cpu.read("/a", "memory.max")?, "131072\n");
    assert_eq!((cpu.max(a)?, cpu.high(a)?, cpu.usage(a)?), (Some(32), None, 0));
    cpu.set_max(a, None)?;
    cpu.set_high(a, Some(16))?;
    assert_eq!((cpu.max(a)?, cpu.high(a)?), (None, Some(16)));
    cpu.set_low(a, Some(2))?;
    cpu.set_min(a, None)?;
    assert_eq!((cpu.read("/a", "memory.low")?, cpu.read("/a", "memory.min")?), ("8192\n".into(), "max\n".into()));
    cpu.set_min(a, Some(0))?;
    assert_eq!(cpu.reclaim(a, 1), Err(Error::Again));
    assert_eq!(cpu.usage(Group(63)), Err(Error::BadGroup));
    let frame = cpu.alloc(a, 0)?;
    assert_eq!(cpu.release(frame)?, Released::Listed);
    assert_eq!(cpu.owner(frame)?, Owner::Cpu(1));
    let unit = cpu.alloc_dirty(a, 1)?;
    assert_eq!(cpu.owner(unit)?, Owner::Group(a));
    assert_eq!(cpu.owner(Frame(60))?, Owner::Free);
    assert_eq!((cpu.touch(unit)?, cpu.touch(unit)?), (Touched::Marked, Touched::Active));
    cpu.clean(unit)?;
    cpu.dirty(unit)?;
    let pin = cpu.get(unit)?;
    assert_eq!(cpu.release(unit)?, Released::Left(1));
    assert_eq!((pin.frame(), pin.put()?), (unit, 0));
    assert_eq!(cpu.get(unit).err(), Some(Error::Zero));
    cpu.settle()?;
    let unit = cpu.alloc_dirty(a, 1)?;
    assert_eq!(cpu.release(unit)?, Released::Returned);
    let pin = cpu.alloc_pinned(a, 1)?;
    assert_eq!(cpu.release(pin.frame())?, Released::Left(1));
    assert_eq!(pin.put()?, 0);
    assert_eq!(cpu.alloc_pinned(a, 0).err(), Some(Error::BadOrder));
    for text in [cpu.show()?, cpu.blocks()?, cpu.stock()?] {
        assert!(text.ends_with('\n'), "{text}");
    }
    assert_eq!(cpu.units("/a")?, "none\n");
    assert!(cpu.peak(a)? >= 2, "{}", cpu.peak(a)?);
    cpu.rmdir("/a")?;
    drop(cpu);
    let report = zone.end()?;
    assert_eq!((report.held, report.frames, report.free), (0, 64, 64));
    Ok(())
}

#[test]
fn refusals_are_errors() {
    let zone = boot();
    let cpu = zone.take(1).unwrap();
    assert_eq!(Zone::boot(&Sizes { high: 1, ..SIZES }).err(), Some(Error::BadConfig));
    assert_eq!(Zone::boot(&Sizes { reclaim_batch: 65, ..SIZES }).err(), Some(Error::BadConfig));
    assert_eq!(Zone::boot(&Sizes { groups: 1025, ..SIZES }).err(), Some(Error::BadConfig));
    let few = Zone::boot(&Sizes { groups: 2, ..SIZES }).unwrap();
    let one = few.take(1).unwrap();
    one.mkdir("/a").unwrap();
    assert_eq!(one.mkdir("/b"), Err(Error::TreeFull));
    drop(one);
    assert_eq!(zone.take(1).err(), Some(Error::CpuOut));
    assert_eq!(zone.take(3).err(), Some(Error::BadCpu));
    assert_eq!(cpu.mkdir("/a/b"), Err(Error::NoParent));
    let a = cpu.mkdir("/a").unwrap();
    assert_eq!(cpu.mkdir("/a"), Err(Error::Exists));
    assert_eq!(cpu.mkdir("a"), Err(Error::BadName));
    assert_eq!(cpu.rmdir("/b"), Err(Error::NoGroup));
    assert_eq!(cpu.units("/b"), Err(Error::NoGroup));
    assert_eq!(cpu.read("/a", "memory.swap.max"), Err(Error::NoFile));
    assert_eq!(cpu.write("/a", "memory.max", "much"), Err(Error::BadLimit));
    cpu.write("/a", "memory.max", "4K").unwrap();
    assert_eq!(cpu.alloc(a, 1), Err(Error::OverLimit { group: a }));
    assert_eq!(cpu.alloc(Group(9), 0), Err(Error::BadGroup));
    assert_eq!(cpu.alloc(a, 11), Err(Error::BadOrder));
    assert_eq!(cpu.release(Frame(9)), Err(Error::NotKept));
    assert_eq!(cpu.release(Frame(64)), Err(Error::BadFrame));
    let error = Error::OverLimit { group: a };
    assert_eq!(
        (error.status(), error.to_string()),
        (15, "refused 15: the charge goes over the limit of a group".into())
    );
}

#[test]
fn many_pins_live_and_put_themselves() {
    let zone = boot();
    let cpu = zone.take(1).unwrap();
    let group = cpu.mkdir("/a").unwrap();
    let frame = cpu.alloc_dirty(group, 0).unwrap();
    let pins: Vec<_> = (0..200).map(|_| cpu.get(frame).unwrap()).collect();
    assert_eq!(cpu.release(frame), Ok(Released::Left(200)));
    drop(pins);
    assert_eq!(cpu.get(frame).err(), Some(Error::Zero));
    drop(cpu);
    assert_eq!(zone.end().unwrap().held, 0);
}

#[test]
fn a_leaked_pin_is_put_at_the_end() {
    let zone = boot();
    let cpu = zone.take(1).unwrap();
    let group = cpu.mkdir("/a").unwrap();
    let frame = cpu.alloc_dirty(group, 0).unwrap();
    forget(cpu.get(frame).unwrap());
    drop(cpu);
    assert_eq!(zone.end().unwrap().held, 1);
}

#[test]
fn a_leaked_cpu_refuses_the_end() {
    let zone = boot();
    forget(zone.take(2).unwrap());
    assert_eq!(zone.end(), Err(Error::CpusOut));
}

#[test]
fn one_text_may_be_path_file_and_value() {
    let zone = boot();
    let cpu = zone.take(1).unwrap();
    let text = "/a";
    cpu.mkdir(text).unwrap();
    assert_eq!(cpu.write(text, text, text), Err(Error::NoFile));
    assert_eq!(cpu.write(text, &text[1..], text), Err(Error::NoFile));
    assert_eq!(cpu.read(text, text), Err(Error::NoFile));
}

#[test]
fn a_cpu_goes_from_thread_to_thread() {
    let zone = boot();
    let cpu = zone.take(1).unwrap();
    let group = cpu.mkdir("/a").unwrap();
    let cpu = thread::scope(|scope| scope.spawn(move || cpu.alloc(group, 0).map(|_| cpu)).join().unwrap()).unwrap();
    cpu.settle().unwrap();
    assert_eq!(cpu.owner(Frame(0)), Ok(Owner::Group(group)));
}

#[test]
fn owned_cpus_go_to_any_thread_and_keep_their_zone() {
    let zone = Arc::new(boot());
    let pool = Arc::new(Mutex::new(vec![zone.take_owned(1).unwrap()]));
    let cpu = zone.take_owned(2).unwrap();
    assert_eq!(zone.take_owned(2).err(), Some(Error::CpuOut));
    assert!(Arc::into_inner(zone).is_none());
    let pooled = pool.clone();
    let group = thread::spawn(move || pooled.lock().unwrap()[0].mkdir("/a").unwrap()).join().unwrap();
    let frame = thread::spawn(move || cpu.alloc_dirty(group, 0).unwrap()).join().unwrap();
    let pooled = Arc::into_inner(pool).unwrap().into_inner().unwrap();
    assert_eq!(pooled[0].owner(frame), Ok(Owner::Group(group)));
}

#[test]
fn each_type_shows_what_it_is() {
    let zone = boot();
    let cpu = zone.take(2).unwrap();
    let frame = cpu.alloc_dirty(cpu.mkdir("/a").unwrap(), 0).unwrap();
    let shown = format!("{zone:?} {:?}", cpu.get(frame).unwrap());
    assert_eq!(shown, "Zone { .. } Pin { cpu: Cpu { number: 2, .. }, frame: Frame(0) }");
}

#[test]
fn threads_wait_for_the_lock() {
    let zone = boot();
    thread::scope(|scope| {
        for number in 1..=2 {
            let cpu = zone.take(number).unwrap();
            scope.spawn(move || (0..5000).for_each(|_| cpu.settle().unwrap()));
        }
    });
    assert_eq!(zone.end().unwrap().free, 64);
}

#[test]
fn the_library_says_what_is_known_of_its_proof() {
    assert!(PROOF.ends_with("proved") || PROOF.starts_with("unproved: "), "{}", *PROOF);
    if let Ok(noted) = std::env::var("NOTED_PROOF") {
        assert_eq!(*PROOF, noted); // tests/gate/bindings says what was noted
    }
}
