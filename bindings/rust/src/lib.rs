#![doc = include_str!("../README.md")]
#![warn(missing_docs, missing_debug_implementations)]

mod error;
mod raw;

pub use error::Error;
use raw::{kind, Handle, TypedResult};
use std::borrow::Cow;
use std::cell::UnsafeCell;
use std::ffi::CStr;
use std::fmt;
use std::hint::spin_loop;
use std::marker::PhantomData;
use std::mem::ManuallyDrop;
use std::sync::{Arc, LazyLock, Mutex, PoisonError};
use std::thread::yield_now;

/// What `./memcg lib` noted in the library of its proof: a line with the kit and its logic, a line with the hash of the
/// sources, and `proved`; or one line that begins with `unproved: `. `memcg --version` says the same of the program.
pub static PROOF: LazyLock<&str> = LazyLock::new(|| {
    // (the text is a constant of the archive, and ends with a null byte)
    unsafe { CStr::from_ptr(raw::tempolemon_proof()) }.to_str().unwrap_or("unproved: the text isn't UTF-8")
});

/// The sizes of a zone, and its choices. `..Sizes::default()` makes none.
#[repr(C)]
#[derive(Clone, Copy, Debug, Default, PartialEq, Eq)]
pub struct Sizes {
    /// Frames of the zone, numbered from 0: 1 to 1,048,576.
    pub frames: u32,
    /// CPUs, numbered from 1: 1 to 64.
    pub cpus: u32,
    /// Frames by which a CPU's list is refilled or cut: 1 to 64.
    pub batch: u32,
    /// Frames at which a CPU's list is cut: batch to 256.
    pub high: u32,
    /// Pages that a CPU prepays at once: 1 to 64.
    pub stock: u32,
    /// Pages that a round of reclaim for a charge wants at least: 0 to 64; 0 is 1.
    pub reclaim_batch: u32,
    /// 0, or 1: nobody is killed, and a charge without room is refused.
    pub no_kill: u32,
    /// 0, or 1: reclaim first takes of each group in proportion to its clean pages.
    pub proportional: u32,
    /// Groups that may exist at once, the root included: 0 to 1,024; 0 is 64.
    pub groups: u32,
}

/// What a zone reports at its end, in the words of docs/MANUAL.md, "The end, and --audit".
#[repr(C)]
#[derive(Clone, Copy, Debug, Default, PartialEq, Eq)]
pub struct Report {
    /// Pins that were still held, and were put then.
    pub held: u64,
    /// Uses of units that ended by a last put.
    pub last_puts: u64,
    /// Uses that reclaim ended.
    pub freezes: u64,
    /// Uses that a drop of a fresh frame ended.
    pub drops: u64,
    /// Units that were freed.
    pub returns: u64,
    /// Frames of the zone.
    pub frames: u32,
    /// Those that are free.
    pub free: u32,
    /// Those that are charged to a group.
    pub charged: u32,
}

/// The number of a frame, from 0. Of a pool at `base` it is the page at `base + frame.offset()`.
///
/// ```
/// assert_eq!(tempolemon::Frame(3).offset(), 3 * 4096);
/// ```
#[derive(Clone, Copy, Debug, PartialEq, Eq, PartialOrd, Ord, Hash)]
pub struct Frame(pub u32);

impl Frame {
    /// How many bytes lie before the frame's page.
    #[must_use]
    pub fn offset(self) -> usize {
        self.0 as usize * 4096
    }
}

/// The number of a group. It is free after [`Cpu::rmdir`], and a later group may get it.
#[derive(Clone, Copy, Debug, PartialEq, Eq, PartialOrd, Ord, Hash)]
pub struct Group(pub u32);

/// What became of a unit that was released.
#[derive(Clone, Copy, Debug, PartialEq, Eq)]
pub enum Released {
    /// A fresh frame is on the CPU's list again.
    Listed,
    /// The unit was freed.
    Returned,
    /// So many references are left. The unit is freed once the last is put.
    Left(u64),
}

/// What the note of a use did to a unit.
#[derive(Clone, Copy, Debug, PartialEq, Eq)]
pub enum Touched {
    /// It is marked now.
    Marked,
    /// It is the newest active one.
    Active,
}

/// The place of a frame.
#[derive(Clone, Copy, Debug, PartialEq, Eq)]
pub enum Owner {
    /// It is free.
    Free,
    /// It is lent to the CPU of this number.
    Cpu(u32),
    /// It is charged to this group.
    Group(Group),
}

/// A zone of page frames, which all threads share. Each takes a [`Cpu`] of it.
///
/// ```
/// # use tempolemon::{Error, Sizes, Zone};
/// let zone = Zone::boot(&Sizes { frames: 64, cpus: 2, batch: 4, high: 8, stock: 4, ..Sizes::default() })?;
/// zone.take(1)?.mkdir("/a")?;
/// assert_eq!(zone.end()?.free, 64);
/// # Ok::<(), Error>(())
/// ```
///
/// It ends when it is dropped, or by [`Zone::end`], which reports. Neither compiles while a CPU that borrows it is out:
///
/// ```compile_fail,E0505
/// # use tempolemon::{Sizes, Zone};
/// # let zone = Zone::boot(&Sizes { frames: 64, cpus: 2, batch: 4, high: 8, stock: 4, ..Sizes::default() }).unwrap();
/// let cpu = zone.take(1).unwrap();
/// zone.end().unwrap();
/// cpu.settle().unwrap();
/// ```
///
/// A program that leaks a CPU has none of this: the end is then refused with [`Error::CpusOut`], and the memory stays.
#[must_use = "a zone ends when it is dropped"]
pub struct Zone(Mutex<Handle>);

impl Zone {
    /// Boots a zone of these sizes, with all its CPUs returned. It takes all memory that the zone ever needs, except for a
    /// small block of each [`Cpu`] and for the texts of [`Cpu::show`], `blocks`, `stock` and `units`.
    ///
    /// Errors: `BadVersion`, `BadConfig`, `NoMemory`.
    pub fn boot(sizes: &Sizes) -> Result<Zone, Error> {
        let mut zone = Handle::NONE;
        done(unsafe { raw::tempolemon_zone_boot_as(raw::VERSION, sizes, &mut zone) }).map(|()| Zone(Mutex::new(zone)))
    }

    /// Takes the CPU of this number, from 1, with the list, the stock and the pins that it was returned with.
    ///
    /// Errors: `BadCpu`, `CpuOut` if it is taken, `NoMemory`.
    pub fn take(&self, number: u32) -> Result<Cpu<'_>, Error> {
        self.take_for(number, None)
    }

    /// Takes the CPU of this number, as [`Zone::take`] does, with a share of the zone in place of a borrow: for threads that
    /// aren't scoped, and pools.
    ///
    /// ```
    /// # use std::{sync::{Arc, Mutex}, thread};
    /// # use tempolemon::{Error, Sizes, Zone};
    /// let zone = Arc::new(Zone::boot(&Sizes { frames: 64, cpus: 2, batch: 4, high: 8, stock: 4, ..Sizes::default() })?);
    /// let pool = Arc::new(Mutex::new(vec![zone.take_owned(1)?, zone.take_owned(2)?]));
    /// let workers = [1, 2].map(|_| {
    ///     let pool = pool.clone();
    ///     thread::spawn(move || {
    ///         let cpu = pool.lock().unwrap().pop().unwrap();
    ///         let settled = cpu.settle();
    ///         pool.lock().unwrap().push(cpu);
    ///         settled
    ///     })
    /// });
    /// workers.into_iter().try_for_each(|it| it.join().unwrap())?;
    /// drop(pool); // the CPUs are returned
    /// let report = Arc::into_inner(zone).expect("no CPU is out").end()?;
    /// # assert_eq!(report.free, 64);
    /// # Ok::<(), Error>(())
    /// ```
    ///
    /// Errors: those of [`Zone::take`].
    pub fn take_owned(self: &Arc<Self>, number: u32) -> Result<Cpu<'static>, Error> {
        self.take_for(number, Some(self.clone()))
    }

    /// Takes a CPU. That the zone lives as long is for the caller: by a borrow, or by the owner.
    fn take_for<'zone>(&self, number: u32, owner: Option<Arc<Zone>>) -> Result<Cpu<'zone>, Error> {
        // The header asks that takes are made one at a time.
        let mut zone = self.0.lock().unwrap_or_else(PoisonError::into_inner);
        let mut part = Handle::NONE;
        done(wait(|| unsafe { raw::tempolemon_try_take(&mut *zone, number, &mut part) }))?;
        Ok(Cpu { part: UnsafeCell::new(part), number, _owner: owner, zone: PhantomData })
    }

    /// Ends the zone and frees its memory. Pins that are still held are put first.
    ///
    /// Errors: `CpusOut` if a CPU was leaked; `NoMemory`, `Lost`. The memory stays then.
    pub fn end(self) -> Result<Report, Error> {
        ManuallyDrop::new(self).close()
    }

    fn close(&mut self) -> Result<Report, Error> {
        let mut report = Report::default();
        let zone = self.0.get_mut().unwrap_or_else(PoisonError::into_inner);
        done(unsafe { raw::tempolemon_zone_end(zone, &mut report) }).map(|()| report)
    }
}

impl fmt::Debug for Zone {
    fn fmt(&self, to: &mut fmt::Formatter<'_>) -> fmt::Result {
        to.debug_struct("Zone").finish_non_exhaustive()
    }
}

impl Drop for Zone {
    fn drop(&mut self) {
        let _ = self.close();
    }
}

/// A CPU of a zone. It is returned when it is dropped, with its list, stock and pins: who takes it next goes on with them.
/// One by [`Zone::take`] borrows its zone, one by [`Zone::take_owned`] has a share of it.
///
/// ```
/// # use tempolemon::{Error, Released, Sizes, Zone};
/// # let zone = Zone::boot(&Sizes { frames: 64, cpus: 2, batch: 4, high: 8, stock: 4, ..Sizes::default() })?;
/// let cpu = zone.take(1)?;
/// let group = cpu.mkdir("/a")?;
/// cpu.set_max(group, Some(1))?;
/// let frame = cpu.alloc(group, 0)?;
/// assert_eq!(cpu.release(frame)?, Released::Listed);
/// # Ok::<(), Error>(())
/// ```
///
/// It may go to another thread, but two threads can't use it at once: it is `Send` and not `Sync`.
///
/// ```compile_fail,E0277
/// # use tempolemon::{Sizes, Zone};
/// # let zone = Zone::boot(&Sizes { frames: 64, cpus: 2, batch: 4, high: 8, stock: 4, ..Sizes::default() }).unwrap();
/// let cpu = zone.take(1).unwrap();
/// std::thread::scope(|scope| {
///     scope.spawn(|| cpu.settle());
///     cpu.settle()
/// });
/// ```
///
/// It can't outlive a zone that it borrows:
///
/// ```compile_fail,E0597
/// # use tempolemon::{Sizes, Zone};
/// # let sizes = Sizes { frames: 64, cpus: 2, batch: 4, high: 8, stock: 4, ..Sizes::default() };
/// let cpu = {
///     let zone = Zone::boot(&sizes).unwrap();
///     zone.take(1).unwrap()
/// };
/// cpu.settle().unwrap();
/// ```
///
/// Each call is answered as the command of its name is in a script (docs/MANUAL.md, "Commands").
#[must_use = "a CPU is returned when it is dropped"]
#[repr(align(128))] // Each call writes it, so it has its cache lines for itself.
pub struct Cpu<'zone> {
    part: UnsafeCell<Handle>,
    number: u32,
    _owner: Option<Arc<Zone>>, // (is dropped after the CPU was returned)
    zone: PhantomData<&'zone Zone>,
}

// Each call is sound: the pointers lead to as many bytes as are said, none to those of another, and only one thread has `self`.
impl Cpu<'_> {
    /// Makes the group of this path. It has the least number that is free.
    ///
    /// Errors: `NoParent`, `Exists`, `BadName`, `TreeFull`, `TooDeep`.
    pub fn mkdir(&self, path: &str) -> Result<Group, Error> {
        let made = self.call(|cpu, out| unsafe { raw::tempolemon_try_mkdir(cpu, path.as_ptr(), path.len(), out) })?;
        Ok(Group(made.number as u32))
    }

    /// Removes the group of this path. A group that is made later may get its number.
    ///
    /// Errors: `BadName`, `NoGroup`, `HasChildren`, `Busy`.
    pub fn rmdir(&self, path: &str) -> Result<(), Error> {
        self.call(|cpu, out| unsafe { raw::tempolemon_try_rmdir(cpu, path.as_ptr(), path.len(), out) }).map(drop)
    }

    /// Writes a value to a file of the group of this path.
    ///
    /// Errors: `NoGroup`, `NoFile`, `ReadOnly`, `BadLimit`, `BadNumber`, `Again`.
    pub fn write(&self, path: &str, file: &str, value: &str) -> Result<(), Error> {
        let (file, value) = (apart(file, &[path]), apart(value, &[path, file]));
        self.call(|cpu, out| unsafe {
            let (path, length) = (path.as_ptr(), path.len());
            raw::tempolemon_try_write(cpu, path, length, file.as_ptr(), file.len(), value.as_ptr(), value.len(), out)
        })
        .map(drop)
    }

    /// Reads a file of the group of this path.
    ///
    /// Errors: `NoGroup`, `NoFile`, `WriteOnly`.
    pub fn read(&self, path: &str, file: &str) -> Result<String, Error> {
        let file = apart(file, &[path]);
        let mut text = [0; 256]; // the most that a file's text has
        let read = self.call(|cpu, out| unsafe {
            let (path, length) = (path.as_ptr(), path.len());
            raw::tempolemon_try_read(cpu, path, length, file.as_ptr(), file.len(), text.as_mut_ptr(), text.len(), out)
        })?;
        Ok(String::from_utf8_lossy(&text[..read.number as usize]).into_owned())
    }

    /// The usage of the group and those below it, in pages, as memory.current has it in bytes. It takes the lock, and doesn't
    /// settle the CPU; nor do the next three calls.
    ///
    /// Errors: `BadGroup`.
    pub fn usage(&self, group: Group) -> Result<u32, Error> {
        let usage = self.call(|cpu, out| unsafe { raw::tempolemon_try_usage(cpu, group.0, out) })?;
        Ok(usage.number as u32)
    }

    /// The greatest usage since the group was made, in pages.
    ///
    /// Errors: `BadGroup`.
    pub fn peak(&self, group: Group) -> Result<u32, Error> {
        let peak = self.call(|cpu, out| unsafe { raw::tempolemon_try_peak(cpu, group.0, out) })?;
        Ok(peak.number as u32)
    }

    /// The group's memory.max in pages, or `None` for `max`.
    ///
    /// Errors: `BadGroup`.
    pub fn max(&self, group: Group) -> Result<Option<u32>, Error> {
        let max = self.call(|cpu, out| unsafe { raw::tempolemon_try_max(cpu, group.0, out) })?;
        Ok((max.kind == kind::PAGES).then_some(max.number as u32))
    }

    /// The group's memory.high in pages, or `None` for `max`.
    ///
    /// Errors: `BadGroup`.
    pub fn high(&self, group: Group) -> Result<Option<u32>, Error> {
        let high = self.call(|cpu, out| unsafe { raw::tempolemon_try_high(cpu, group.0, out) })?;
        Ok((high.kind == kind::PAGES).then_some(high.number as u32))
    }

    /// Writes the group's memory.max: so many pages, or `None` for `max`.
    ///
    /// Errors: `BadGroup`, `NoFile` of the root.
    pub fn set_max(&self, group: Group, pages: Option<u32>) -> Result<(), Error> {
        let pages = pages.map_or(u64::MAX, u64::from);
        self.call(|cpu, out| unsafe { raw::tempolemon_try_set_max(cpu, group.0, pages, out) }).map(drop)
    }

    /// Writes the group's memory.high: so many pages, or `None` for `max`.
    ///
    /// Errors: those of [`Cpu::set_max`].
    pub fn set_high(&self, group: Group, pages: Option<u32>) -> Result<(), Error> {
        let pages = pages.map_or(u64::MAX, u64::from);
        self.call(|cpu, out| unsafe { raw::tempolemon_try_set_high(cpu, group.0, pages, out) }).map(drop)
    }

    /// Writes the group's memory.low: so many pages, or `None` for `max`.
    ///
    /// Errors: those of [`Cpu::set_max`].
    pub fn set_low(&self, group: Group, pages: Option<u32>) -> Result<(), Error> {
        let pages = pages.map_or(u64::MAX, u64::from);
        self.call(|cpu, out| unsafe { raw::tempolemon_try_set_low(cpu, group.0, pages, out) }).map(drop)
    }

    /// Writes the group's memory.min: so many pages, or `None` for `max`.
    ///
    /// Errors: those of [`Cpu::set_max`].
    pub fn set_min(&self, group: Group, pages: Option<u32>) -> Result<(), Error> {
        let pages = pages.map_or(u64::MAX, u64::from);
        self.call(|cpu, out| unsafe { raw::tempolemon_try_set_min(cpu, group.0, pages, out) }).map(drop)
    }

    /// Reclaims so many pages from the group and those below it, as a write of memory.reclaim does.
    ///
    /// Errors: `Again` if fewer came back; those of [`Cpu::set_max`].
    pub fn reclaim(&self, group: Group, pages: u32) -> Result<(), Error> {
        let pages = u64::from(pages);
        self.call(|cpu, out| unsafe { raw::tempolemon_try_reclaim(cpu, group.0, pages, out) }).map(drop)
    }

    /// Allocates 2^order frames for the group, and returns the first one. It takes the lock only if the order isn't 0, or
    /// the CPU's list and stock can't serve.
    ///
    /// Reclaim may take a block as soon as it is allocated, and a frame of order 0 once the CPU settles, unless the unit is
    /// dirty or has a reference.
    ///
    /// Errors: `OverLimit`, `NoFrames`, `Killed`, `BadOrder`, `BadGroup`.
    #[inline]
    pub fn alloc(&self, group: Group, order: u32) -> Result<Frame, Error> {
        let taken = self.call(|cpu, out| unsafe { raw::tempolemon_try_alloc(cpu, group.0, order, out) })?;
        Ok(Frame(taken.number as u32))
    }

    /// Allocates a unit and notes it as dirty before another thread gets the lock: it is kept and dirty, whatever its order.
    /// It takes the lock.
    ///
    /// Errors: those of [`Cpu::alloc`].
    #[inline]
    pub fn alloc_dirty(&self, group: Group, order: u32) -> Result<Frame, Error> {
        let taken = self.call(|cpu, out| unsafe { raw::tempolemon_try_alloc_dirty(cpu, group.0, order, out) })?;
        Ok(Frame(taken.number as u32))
    }

    /// Allocates a block of order 1 to 10 and pins it before another thread gets the lock. It takes the lock.
    ///
    /// Errors: `PinsFull` first, then `BadOrder`, both before anything is done; `NotPinned` if other CPUs' gets of the
    /// frame came between, and the block was released again; those of [`Cpu::alloc`].
    #[inline]
    pub fn alloc_pinned(&self, group: Group, order: u32) -> Result<Pin<'_>, Error> {
        let taken = self.call(|cpu, out| unsafe { raw::tempolemon_try_alloc_pinned(cpu, group.0, order, out) })?;
        Ok(Pin { cpu: self, frame: Frame(taken.number as u32) })
    }

    /// Releases the unit that this frame heads, or a fresh frame of the CPU, which alone takes no lock.
    ///
    /// A kill frees all units of its group, and another group may get their frames. So if limits are lowered or groups are
    /// killed, pin the unit first, and ask whose it is.
    ///
    /// Errors: `NotKept`, `BadFrame`.
    #[inline]
    pub fn release(&self, frame: Frame) -> Result<Released, Error> {
        let released = self.call(|cpu, out| unsafe { raw::tempolemon_try_release(cpu, frame.0, out) })?;
        Ok(match released.kind {
            kind::LEFT => Released::Left(released.number),
            kind::RETURNED => Released::Returned,
            _ => Released::Listed,
        })
    }

    /// Pins this frame. It takes no lock.
    ///
    /// Errors: `Zero` if the frame has no reference, `Full` if it has 255, `Raced` if they changed meanwhile; `PinsFull`,
    /// `BadFrame`.
    #[inline]
    pub fn get(&self, frame: Frame) -> Result<Pin<'_>, Error> {
        let got = self.call(|cpu, out| unsafe { raw::tempolemon_cpu_get(cpu, frame.0, out) })?;
        match got.kind {
            kind::HELD => Ok(Pin { cpu: self, frame }),
            kind::ZERO => Err(Error::Zero),
            kind::RACED => Err(Error::Raced),
            _ => Err(Error::Full),
        }
    }

    /// Puts a pin of the CPU on this frame, and says how many references are left.
    #[inline]
    fn put(&self, frame: Frame) -> Result<u64, Error> {
        let put = self.call(|cpu, out| unsafe { raw::tempolemon_cpu_put(cpu, frame.0, out) })?;
        Ok(put.number)
    }

    /// Notes that the unit that this frame heads was used. It takes the lock.
    ///
    /// Errors: `NotKept`, `BadFrame`.
    pub fn touch(&self, frame: Frame) -> Result<Touched, Error> {
        let touched = self.call(|cpu, out| unsafe { raw::tempolemon_try_touch(cpu, frame.0, out) })?;
        Ok(if touched.kind == kind::MARKED { Touched::Marked } else { Touched::Active })
    }

    /// Notes that the unit that this frame heads is dirty, so that it isn't reclaimed. It takes the lock.
    ///
    /// Errors: `NotKept`, `BadFrame`.
    pub fn dirty(&self, frame: Frame) -> Result<(), Error> {
        self.call(|cpu, out| unsafe { raw::tempolemon_try_dirty(cpu, frame.0, out) }).map(drop)
    }

    /// Notes that the unit that this frame heads is clean. It takes the lock.
    ///
    /// Errors: `NotKept`, `BadFrame`.
    pub fn clean(&self, frame: Frame) -> Result<(), Error> {
        self.call(|cpu, out| unsafe { raw::tempolemon_try_clean(cpu, frame.0, out) }).map(drop)
    }

    /// The place of this frame. It takes the lock.
    ///
    /// Errors: `BadFrame`.
    pub fn owner(&self, frame: Frame) -> Result<Owner, Error> {
        let owner = self.call(|cpu, out| unsafe { raw::tempolemon_try_owner(cpu, frame.0, out) })?;
        Ok(match owner.kind {
            kind::FREE => Owner::Free,
            kind::CPU => Owner::Cpu(owner.number as u32),
            _ => Owner::Group(Group(owner.number as u32)),
        })
    }

    /// Settles the CPU, so that other threads may reference its pages. It takes the lock.
    pub fn settle(&self) -> Result<(), Error> {
        self.call(|cpu, out| unsafe { raw::tempolemon_try_settle(cpu, out) }).map(drop)
    }

    /// The text of the command `show`. The CPU is settled, and memory is taken for the text; so do the next three calls.
    ///
    /// Errors: `NoMemory`.
    pub fn show(&self) -> Result<String, Error> {
        self.text(|cpu, text, room, written| unsafe { raw::tempolemon_try_show(cpu, text, room, written) })
    }

    /// The text of the command `blocks`.
    ///
    /// Errors: `NoMemory`.
    pub fn blocks(&self) -> Result<String, Error> {
        self.text(|cpu, text, room, written| unsafe { raw::tempolemon_try_blocks(cpu, text, room, written) })
    }

    /// The text of the command `stock`.
    ///
    /// Errors: `NoMemory`.
    pub fn stock(&self) -> Result<String, Error> {
        self.text(|cpu, text, room, written| unsafe { raw::tempolemon_try_stock(cpu, text, room, written) })
    }

    /// The text of the command `units`, of the group of this path.
    ///
    /// Errors: `NoGroup`, `NoMemory`.
    pub fn units(&self, path: &str) -> Result<String, Error> {
        self.text(|cpu, text, room, written| unsafe {
            raw::tempolemon_try_units(cpu, path.as_ptr(), path.len(), text, room, written)
        })
    }

    #[inline]
    fn call(&self, mut call: impl FnMut(*mut Handle, *mut TypedResult) -> u8) -> Result<TypedResult, Error> {
        let mut result = TypedResult::default();
        match wait(|| call(self.part.get(), &mut result)) {
            raw::DONE => Ok(result),
            status => Err(Error::of(status, result.number)),
        }
    }

    /// The text that a call writes into a buffer, which grows until it is long enough.
    fn text(&self, mut call: impl FnMut(*mut Handle, *mut u8, usize, *mut usize) -> u8) -> Result<String, Error> {
        let (mut text, mut written) = (vec![0; 1024], 0);
        loop {
            match wait(|| call(self.part.get(), text.as_mut_ptr(), text.len(), &mut written)) {
                raw::SMALL_BUFFER => text.resize(written, 0),
                raw::DONE => return Ok(String::from_utf8_lossy(&text[..written]).into_owned()),
                status => return Err(Error::of(status, 0)),
            }
        }
    }
}

impl fmt::Debug for Cpu<'_> {
    fn fmt(&self, to: &mut fmt::Formatter<'_>) -> fmt::Result {
        to.debug_struct("Cpu").field("number", &self.number).finish_non_exhaustive()
    }
}

impl Drop for Cpu<'_> {
    fn drop(&mut self) {
        wait(|| unsafe { raw::tempolemon_try_return(self.part.get()) });
    }
}

/// A reference of a CPU on a frame: the unit isn't reclaimed or reused while it is held. It is put when it is dropped, or
/// by [`Pin::put`].
///
/// ```
/// # use tempolemon::{Error, Released, Sizes, Zone};
/// # let zone = Zone::boot(&Sizes { frames: 64, cpus: 2, batch: 4, high: 8, stock: 4, ..Sizes::default() })?;
/// # let cpu = zone.take(1)?;
/// # let group = cpu.mkdir("/a")?;
/// let frame = cpu.alloc_dirty(group, 0)?;
/// let pin = cpu.get(frame)?;
/// assert_eq!(cpu.release(frame)?, Released::Left(1)); // the pin keeps the unit
/// assert_eq!(pin.put()?, 0);
/// # Ok::<(), Error>(())
/// ```
///
/// A pin that isn't bound is put at once, which the compiler says:
///
/// ```compile_fail
/// #![deny(unused_must_use)]
/// # use tempolemon::{Error, Frame, Sizes, Zone};
/// # let zone = Zone::boot(&Sizes { frames: 64, cpus: 2, batch: 4, high: 8, stock: 4, ..Sizes::default() })?;
/// # let cpu = zone.take(1)?;
/// cpu.get(Frame(0))?;
/// # Ok::<(), Error>(())
/// ```
///
/// It can't outlive its CPU, and so not its zone:
///
/// ```compile_fail,E0597
/// # use tempolemon::{Frame, Sizes, Zone};
/// # let zone = Zone::boot(&Sizes { frames: 64, cpus: 2, batch: 4, high: 8, stock: 4, ..Sizes::default() }).unwrap();
/// let pin = {
///     let cpu = zone.take(1).unwrap();
///     cpu.get(Frame(0))
/// };
/// drop(pin);
/// ```
///
/// ```compile_fail,E0505
/// # use tempolemon::{Frame, Sizes, Zone};
/// # let zone = Zone::boot(&Sizes { frames: 64, cpus: 2, batch: 4, high: 8, stock: 4, ..Sizes::default() }).unwrap();
/// let cpu = zone.take(1).unwrap();
/// let pin = cpu.get(Frame(0));
/// drop(zone);
/// drop(pin);
/// ```
///
/// A pin that is leaked stays with its CPU, until the zone ends.
#[derive(Debug)]
#[must_use = "a pin is put when it is dropped"]
pub struct Pin<'cpu> {
    cpu: &'cpu Cpu<'cpu>,
    frame: Frame,
}

impl Pin<'_> {
    /// The frame.
    #[must_use]
    pub fn frame(&self) -> Frame {
        self.frame
    }

    /// Puts the pin, and says how many references are left: 0 if it was the last.
    pub fn put(self) -> Result<u64, Error> {
        let pin = ManuallyDrop::new(self);
        pin.cpu.put(pin.frame)
    }
}

impl Drop for Pin<'_> {
    fn drop(&mut self) {
        // (refused if the CPU lacks the pin, which no call of this crate leaves so; it is never busy)
        unsafe { raw::tempolemon_cpu_put(self.cpu.part.get(), self.frame.0, &mut TypedResult::default()) };
    }
}

fn done(status: u8) -> Result<(), Error> {
    match status {
        raw::DONE => Ok(()),
        status => Err(Error::of(status, 0)),
    }
}

/// Tries until no other thread has the lock.
#[inline]
fn wait(mut call: impl FnMut() -> u8) -> u8 {
    let mut tries = 0;
    loop {
        let status = call();
        if status != raw::BUSY {
            return status;
        }
        pause(&mut tries);
    }
}

/// Waits as the header does: pauses 1 to 1,024 times, twice as often after each try, so that the lock's cache line stays
/// with its holder, and gives up the processor from the twelfth try on.
#[cold]
fn pause(tries: &mut u32) {
    if *tries < 11 {
        (0..1 << *tries).for_each(|_| spin_loop());
        *tries += 1;
    } else {
        yield_now();
    }
}

/// The text, in memory of its own if some byte of it is one of the others': no two pointers of a call may lead to the same.
fn apart<'a>(text: &'a str, others: &[&str]) -> Cow<'a, str> {
    let of = text.as_bytes().as_ptr_range();
    let meets = |other: &&str| {
        let it = other.as_bytes().as_ptr_range();
        of.start < it.end && it.start < of.end
    };
    if others.iter().any(meets) {
        text.to_owned().into()
    } else {
        text.into()
    }
}
