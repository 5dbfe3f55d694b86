"""Tempolemon: the memory controller of Linux cgroup v2 over a zone of page frames.

Boot a Zone, take a Cpu of it for each thread, and use both in `with`. Each call is answered as the command of its name is
in a script (docs/MANUAL.md). A refusal is an exception, below Error.
"""
import ctypes
import enum
import threading
import time
import warnings
from types import TracebackType
from typing import Any, Callable, NamedTuple, Optional, Tuple, Type

from . import raw
from .errors import *  # noqa: F401,F403
from .errors import Error, Full, InUse, NotPinned, Raced, SmallBuffer, Zero, error_of

PROOF: str = raw.library.tempolemon_proof().decode()
"""What `./memcg lib` noted in the library of its proof: a line with the kit and its logic, a line with the hash of the
sources, and `proved`; or one line that begins with `unproved: `. `memcg --version` says the same of the program."""


class Kind(enum.IntEnum):
    """What a call gives."""
    FREE = 5
    """The frame is free."""
    CPU = 6
    """The frame is lent to the CPU of this number."""
    CHARGED = 7
    """The frame is charged to the group of this number."""
    MARKED = 8
    """The unit is marked now."""
    ACTIVE = 9
    """The unit is the newest active one."""
    LEFT = 10
    """So many references are left."""
    RETURNED = 11
    """The unit was freed."""
    LISTED = 13
    """A fresh frame is on the CPU's list again."""
    LAST = 18
    """The last reference was put."""


_HELD, _PAGES, _UNPINNED = 14, 22, {15: Zero, 16: Raced, 17: Full}


class Result(NamedTuple):
    """A kind, and the number that goes with it, or 0."""
    kind: Kind
    number: int


class Report(NamedTuple):
    """What a zone reports at its end, in the words of docs/MANUAL.md, "The end, and --audit"."""
    held: int
    last_puts: int
    freezes: int
    drops: int
    returns: int
    frames: int
    free: int
    charged: int


class Zone:
    """A zone of page frames, which all threads share. It is ended at the end of `with`, and then `report` is there. If an
    exception ends the block while a CPU is out, the zone goes on, and the exception is raised.

    It takes all memory that it ever needs, except for small blocks and texts. Raises BadVersion, BadConfig, NoMemory.

    frames: 1 to 1,048,576, numbered from 0. cpus: 1 to 64, numbered from 1. batch: frames by which a CPU's list is refilled
    or cut, 1 to 64. high: frames at which it is cut, batch to 256. stock: pages that a CPU prepays at once, 1 to 64.
    reclaim_batch: pages that a round of reclaim for a charge wants at least, 1 to 64. no_kill: nobody is killed, and a
    charge without room is refused. proportional: reclaim first takes of each group in proportion to its clean pages.
    groups: groups that may exist at once, the root included, 1 to 1,024.
    """

    report: Report

    def __init__(self, frames: int, cpus: int, batch: int = 4, high: int = 8, stock: int = 4, *,
                 reclaim_batch: int = 1, no_kill: bool = False, proportional: bool = False, groups: int = 64) -> None:
        self._handle, self._lock = raw.Handle(), threading.Lock()
        sizes = raw.Sizes(_word(frames, "frames"), _word(cpus, "cpus"), _word(batch, "batch"), _word(high, "high"),
                          _word(stock, "stock"), _word(reclaim_batch, "reclaim_batch"), _flag(no_kill, "no_kill"),
                          _flag(proportional, "proportional"), _word(groups, "groups"))
        _need(raw.library.tempolemon_zone_boot_as(raw.VERSION, sizes, self._handle))

    def take(self, number: int) -> "Cpu":
        """The CPU of this number, from 1, with the list, stock and pins that it was returned with.

        Raises BadCpu, CpuOut if it is taken, NoMemory.
        """
        return Cpu(self, number)

    def end(self) -> Report:
        """Ends the zone and frees its memory. Pins that are still held are put first.

        Raises CpusOut if a CPU isn't returned: nothing was done then. Raises NotLive, NoMemory, Lost.
        """
        report = raw.Report()
        with self._lock:
            _need(raw.library.tempolemon_zone_end(self._handle, report))
        self.report = Report(*(getattr(report, name) for name in Report._fields))
        return self.report

    def __enter__(self) -> "Zone":
        return self

    def __exit__(self, kind: Optional[Type[BaseException]], error: Optional[BaseException],
                 trace: Optional[TracebackType]) -> None:
        if self._handle.is_live:
            _leave(self.end, error is None)

    def __del__(self) -> None:
        if self._handle.is_live:
            _leave(self.end, False)
            warnings.warn("a zone wasn't ended: use it in `with`", ResourceWarning, source=self)


class Cpu:
    """A CPU of a zone, by Zone.take. It is returned at the end of `with`, with its list, stock and pins. One that nobody has
    any more is returned too, with a ResourceWarning.

    It may go from thread to thread. A call while another thread is inside one on it raises InUse. One after it was returned
    raises NotLive.
    """

    def __init__(self, zone: Zone, number: int) -> None:
        self._part, self._result, self._lock = raw.Handle(), raw.TypedResult(), threading.Lock()
        self._at, self._out = ctypes.byref(self._part), ctypes.byref(self._result)
        self._zone, self._number = zone, _word(number, "number")
        with zone._lock:
            self._need(raw.library.tempolemon_try_take, ctypes.byref(zone._handle), self._number, self._at)

    def give_back(self) -> None:
        """Returns the CPU. Who takes it next goes on with its list, stock and pins."""
        self._need(raw.library.tempolemon_try_return, self._at)

    def mkdir(self, path: str) -> int:
        """Makes the group of this path: its number, the least free one.

        Raises NoParent, Exists, BadName, TreeFull, TooDeep.
        """
        return self._call(raw.library.tempolemon_try_mkdir, *_text(path, "path"))[1]

    def rmdir(self, path: str) -> None:
        """Removes the group of this path. A group that is made later may get its number.

        Raises BadName, NoGroup, HasChildren, Busy.
        """
        self._call(raw.library.tempolemon_try_rmdir, *_text(path, "path"))

    def write(self, path: str, file: str, value: str) -> None:
        """Writes a value to a file of the group of this path.

        Raises NoGroup, NoFile, ReadOnly, BadLimit, BadNumber, Again.
        """
        self._call(raw.library.tempolemon_try_write, *_text(path, "path"), *_text(file, "file"), *_text(value, "value"))

    def read(self, path: str, file: str) -> str:
        """Reads a file of the group of this path.

        Raises NoGroup, NoFile, WriteOnly.
        """
        text = ctypes.create_string_buffer(256)
        length = self._call(raw.library.tempolemon_try_read, *_text(path, "path"), *_text(file, "file"), text, 256)[1]
        return text.raw[:length].decode(errors="surrogateescape")

    def usage(self, group: int) -> int:
        """The usage of the group and those below it, in pages, as memory.current has it in bytes. Raises BadGroup.

        The CPU isn't settled; nor is it by the next three calls.
        """
        return self._call(raw.library.tempolemon_try_usage, _word(group, "group"))[1]

    def peak(self, group: int) -> int:
        """The greatest usage since the group was made, in pages. Raises BadGroup."""
        return self._call(raw.library.tempolemon_try_peak, _word(group, "group"))[1]

    def max(self, group: int) -> Optional[int]:
        """The group's memory.max in pages, or None for `max`. Raises BadGroup."""
        return self._pages_of(raw.library.tempolemon_try_max, group)

    def high(self, group: int) -> Optional[int]:
        """The group's memory.high in pages, or None for `max`. Raises BadGroup."""
        return self._pages_of(raw.library.tempolemon_try_high, group)

    def set_max(self, group: int, pages: Optional[int]) -> None:
        """Writes the group's memory.max: so many pages, or None for `max`. Raises BadGroup, NoFile of the root."""
        self._call(raw.library.tempolemon_try_set_max, _word(group, "group"), _pages(pages))

    def set_high(self, group: int, pages: Optional[int]) -> None:
        """Writes the group's memory.high: so many pages, or None for `max`. Raises BadGroup, NoFile of the root."""
        self._call(raw.library.tempolemon_try_set_high, _word(group, "group"), _pages(pages))

    def set_low(self, group: int, pages: Optional[int]) -> None:
        """Writes the group's memory.low: so many pages, or None for `max`. Raises BadGroup, NoFile of the root."""
        self._call(raw.library.tempolemon_try_set_low, _word(group, "group"), _pages(pages))

    def set_min(self, group: int, pages: Optional[int]) -> None:
        """Writes the group's memory.min: so many pages, or None for `max`. Raises BadGroup, NoFile of the root."""
        self._call(raw.library.tempolemon_try_set_min, _word(group, "group"), _pages(pages))

    def reclaim(self, group: int, pages: int) -> None:
        """Reclaims so many pages from the group and those below it, as a write of memory.reclaim does.

        Raises Again if fewer came back; BadGroup, NoFile of the root.
        """
        self._call(raw.library.tempolemon_try_reclaim, _word(group, "group"), _word(pages, "pages"))

    def alloc(self, group: int, order: int = 0) -> int:
        """Allocates 2^order frames for the group: the first one. It takes the lock only if the order isn't 0, or the CPU's
        list and stock can't serve.

        Reclaim may take a block as soon as it is allocated, and a frame of order 0 once the CPU settles, unless the unit is
        dirty or has a reference. Raises OverLimit, NoFrames, Killed, BadOrder, BadGroup.
        """
        return self._call(raw.library.tempolemon_try_alloc, _word(group, "group"), _word(order, "order"))[1]

    def alloc_dirty(self, group: int, order: int = 0) -> int:
        """Allocates a unit and notes it as dirty before another thread gets the lock: it is kept and dirty.

        Raises as alloc does.
        """
        return self._call(raw.library.tempolemon_try_alloc_dirty, _word(group, "group"), _word(order, "order"))[1]

    def alloc_pinned(self, group: int, order: int) -> "Pin":
        """Allocates a block of order 1 to 10 and pins it before another thread gets the lock.

        Raises PinsFull first, then BadOrder, both before anything is done; NotPinned if other CPUs' gets of the frame
        came between, and the block was released again; and as alloc does.
        """
        taken = self._call(raw.library.tempolemon_try_alloc_pinned, _word(group, "group"), _word(order, "order"))
        return Pin(self, taken[1])

    def release(self, frame: int) -> Result:
        """Releases the unit that this frame heads, or a fresh frame of the CPU: LISTED, RETURNED, or LEFT with references.

        A kill frees all units of its group, and another group may get their frames. So if limits are lowered or groups are
        killed, pin the unit first, and ask whose it is. Raises NotKept, BadFrame.
        """
        return self._result_of(raw.library.tempolemon_try_release, _word(frame, "frame"))

    def get(self, frame: int) -> "Pin":
        """Pins this frame, without the lock.

        Raises Zero if the frame has no reference, Full if it has 255, Raced if they changed meanwhile; PinsFull, BadFrame.
        """
        kind = self._call(raw.library.tempolemon_cpu_get, _word(frame, "frame"))[0]
        if kind != _HELD:
            raise _UNPINNED[kind]()
        return Pin(self, frame)

    def touch(self, frame: int) -> Kind:
        """Notes that the unit that this frame heads was used: MARKED or ACTIVE. Raises NotKept, BadFrame."""
        return self._result_of(raw.library.tempolemon_try_touch, _word(frame, "frame")).kind

    def dirty(self, frame: int) -> None:
        """Notes that the unit that this frame heads is dirty, so that it isn't reclaimed. Raises NotKept, BadFrame."""
        self._call(raw.library.tempolemon_try_dirty, _word(frame, "frame"))

    def clean(self, frame: int) -> None:
        """Notes that the unit that this frame heads is clean. Raises NotKept, BadFrame."""
        self._call(raw.library.tempolemon_try_clean, _word(frame, "frame"))

    def owner(self, frame: int) -> Result:
        """The place of this frame: FREE, CPU with its number, or CHARGED with the group's. Raises BadFrame."""
        return self._result_of(raw.library.tempolemon_try_owner, _word(frame, "frame"))

    def settle(self) -> None:
        """Settles the CPU, so that other threads may reference its pages."""
        self._call(raw.library.tempolemon_try_settle)

    def show(self) -> str:
        """The text of the command `show`. The CPU is settled; so it is by the next three calls. Raises NoMemory."""
        return self._text_of(raw.library.tempolemon_try_show)

    def blocks(self) -> str:
        """The text of the command `blocks`. Raises NoMemory."""
        return self._text_of(raw.library.tempolemon_try_blocks)

    def stock(self) -> str:
        """The text of the command `stock`. Raises NoMemory."""
        return self._text_of(raw.library.tempolemon_try_stock)

    def units(self, path: str) -> str:
        """The text of the command `units`, of the group of this path. Raises NoGroup, NoMemory."""
        return self._text_of(raw.library.tempolemon_try_units, *_text(path, "path"))

    def _call(self, call: Callable[..., int], *words: Any) -> Tuple[int, int]:
        """The kind and the number that a typed call gives."""
        return self._need(call, self._at, *words, self._out)

    def _need(self, call: Callable[..., int], *words: Any) -> Tuple[int, int]:
        """Makes a call until no other thread has the zone's lock, and raises if it isn't DONE."""
        if not self._lock.acquire(False):
            raise InUse()
        try:
            # A try takes longer here than all pauses of the header, so each is followed by a yield.
            while (status := call(*words)) == raw.BUSY:
                time.sleep(0)
            if status != raw.DONE:
                raise error_of(status, self._result.number)
            return self._result.kind, self._result.number
        finally:
            self._lock.release()

    def _pages_of(self, call: Callable[..., int], group: int) -> Optional[int]:
        kind, number = self._call(call, _word(group, "group"))
        return number if kind == _PAGES else None

    def _result_of(self, call: Callable[..., int], *words: Any) -> Result:
        kind, number = self._call(call, *words)
        return Result(Kind(kind), number)

    def _text_of(self, call: Callable[..., int], *words: Any) -> str:
        """The text that a call writes into a buffer, which grows until it is long enough."""
        written = ctypes.c_size_t(1024)
        while True:
            room = written.value
            text = ctypes.create_string_buffer(room)
            try:
                self._need(call, self._at, *words, text, room, ctypes.byref(written))
                return text.raw[:written.value].decode(errors="surrogateescape")
            except SmallBuffer:
                pass

    def __enter__(self) -> "Cpu":
        return self

    def __exit__(self, kind: Optional[Type[BaseException]], error: Optional[BaseException],
                 trace: Optional[TracebackType]) -> None:
        if self._part.is_live:
            _leave(self.give_back, error is None)

    def __del__(self) -> None:
        if self._part.is_live:
            self.give_back()
            warnings.warn(f"CPU {self._number} wasn't returned: use it in `with`", ResourceWarning, source=self)


class Pin:
    """A reference of a CPU on a frame, by Cpu.get: the unit isn't reclaimed or reused while it is held. It is put at the
    end of `with`. One that is never put stays with its CPU until the zone ends."""

    def __init__(self, cpu: Cpu, frame: int) -> None:
        self._cpu, self._is_held, self._lock, self.frame = cpu, True, threading.Lock(), frame

    def put(self) -> Result:
        """Puts the pin: LEFT with the references, or LAST. Raises NotPinned if it was put."""
        with self._lock:
            if not self._is_held:
                raise NotPinned()
            put = self._cpu._result_of(raw.library.tempolemon_cpu_put, self.frame)
            self._is_held = False
            return put

    def __enter__(self) -> "Pin":
        return self

    def __exit__(self, kind: Optional[Type[BaseException]], error: Optional[BaseException],
                 trace: Optional[TracebackType]) -> None:
        if self._is_held:
            _leave(self.put, error is None)


def _need(status: int) -> None:
    if status != raw.DONE:
        raise error_of(status)


def _leave(end: Callable[[], object], raises: bool) -> None:
    """Makes a last call. A refusal doesn't take the place of an exception of the block, for which it doesn't raise."""
    try:
        end()
    except Error:
        if raises:
            raise


def _word(number: int, name: str) -> int:
    """The argument of this name, if it is a number of 32 bits: ctypes would cut it."""
    if not isinstance(number, int):
        raise TypeError(f"{name} must be int, not {type(number).__name__}")
    if not 0 <= number < 1 << 32:
        raise OverflowError(f"{name} must have 32 bits: {number}")
    return number


def _flag(flag: bool, name: str) -> bool:
    """The argument of this name, if it is True or False."""
    if not isinstance(flag, bool):
        raise TypeError(f"{name} must be bool, not {type(flag).__name__}")
    return flag


def _pages(pages: Optional[int]) -> int:
    """So many pages as a call takes them: 2^32 or more are `max`."""
    return 1 << 32 if pages is None else _word(pages, "pages")


def _text(text: str, name: str) -> Any:
    """A pointer to the text of the argument of this name, and its length. Each is in memory of its own: no two pointers of a
    call may lead to the same."""
    if not isinstance(text, str):
        raise TypeError(f"{name} must be str, not {type(text).__name__}")
    encoded = text.encode(errors="surrogateescape")
    return ctypes.create_string_buffer(encoded), len(encoded)
