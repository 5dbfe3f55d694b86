"""Samples the memory of groups of cgroup v2, or of processes, on a Linux host."""
from __future__ import annotations

import argparse
import csv
import io
import os
import re
import signal
import time
from dataclasses import dataclass, fields
from typing import BinaryIO, Dict, Iterator, List, Optional, Set, Tuple, Union

from .amounts import Fault, Note, amount_text
from .paths import plain
from .usage import DEFAULTS, setting_word
from .usage_csv import HEADER, LEAST

MOUNT = "/sys/fs/cgroup"

# What the columns of a row after `group` have.
Row = List[str]


def text_of(path: str) -> Optional[str]:
    """A file's text; None if it can't be read, such as that of a group that is gone."""
    try:
        with open(path, encoding="utf-8", errors="replace") as file:
            return file.read()
    except OSError:
        return None


def numbers_of(path: str) -> Optional[Dict[str, int]]:
    """The numbers of a file's lines `KEY NUMBER` and `KEY: NUMBER kB`; None if it can't be read."""
    text = text_of(path)
    return None if text is None else {key: int(number) for key, number in re.findall(r"^(\w+):?\s+(\d+)", text, re.M)}


def check_folder(folder: str) -> None:
    """Refuses what is no group of cgroup v2."""
    stat = numbers_of(f"{folder}/memory.stat")
    if not os.path.isdir(folder):
        raise Fault(f"{folder}: there is no such folder: ls {MOUNT} shows the groups")
    if stat is None:
        raise Fault(f"{folder}: no memory.stat can be read, so it is no group of cgroup v2 with memory control")
    if "anon" not in stat:
        raise Fault(f"{folder}: this is cgroup v1, and record takes version 2: record processes by --pid, or take snapshots "
                    "for 'whatif import cgroupfs'")


@dataclass(frozen=True)
class Pages:
    """Bytes of anonymous memory, of files and of the kernel, and how many tasks there are."""
    anon: int
    file: int
    kernel: int = 0
    tasks: int = 0

    def without(self, parts: List[Pages]) -> Pages:
        """What is left without these."""
        return Pages(*(max(0, getattr(self, kind.name) - sum(getattr(part, kind.name) for part in parts))
                       for kind in fields(self)))


class Groups:
    """The groups of cgroup v2 at some folders and below them."""

    header = HEADER

    def __init__(self, folders: List[str]) -> None:
        for folder in folders:
            check_folder(folder)
        self.folders = [os.path.realpath(folder) for folder in folders]
        self.first_events: Dict[str, Dict[str, int]] = {}  # what memory.events of each group had when it was seen first
        self.last_events: Dict[str, Dict[str, int]] = {}
        self.most_other = 0
        self.has_kernel = False

    def path_of(self, place: str, folder: str) -> str:
        """The path of a group: from the mount on, or from the name of the folder that was asked for."""
        top = MOUNT if (folder + "/").startswith(MOUNT + "/") else os.path.dirname(folder)
        names = os.path.relpath(place, top).split("/")
        return "/" if names == ["."] else "/" + "/".join(map(plain, names))

    def sample(self) -> Dict[str, Row]:
        """Of each group what it has of its own, its settings, and what the kernel counted."""
        rows: Dict[str, Row] = {}
        for folder in self.folders:
            whole: Dict[str, Pages] = {}  # of each group with all below it
            for place, names, _ in os.walk(folder, topdown=False):
                stat = numbers_of(f"{place}/memory.stat")
                if stat is None:
                    continue
                # Without swap, shared memory stays as anonymous memory does. The kernel counts it among `file`.
                anon, file, shared = (stat.get(key, 0) for key in ("anon", "file", "shmem"))
                tasks = text_of(f"{place}/pids.current")
                whole[place] = Pages(anon + shared, file - shared, stat.get("kernel", 0) - stat.get("slab_reclaimable", 0),
                                     int(tasks or 0))
                own = whole[place].without([whole[f"{place}/{name}"] for name in names if f"{place}/{name}" in whole])
                rows[self.path_of(place, folder)] = [
                    str(own.anon), str(own.file), *self.rest_of(place, folder),
                    str(own.kernel) if "kernel" in stat else "", str(own.tasks) if tasks else ""]
                self.has_kernel |= "kernel" in stat
            current = int(text_of(f"{folder}/memory.current") or 0)
            top = whole.get(folder, Pages(current, 0))
            self.most_other = max(self.most_other, current - top.anon - top.file - max(0, top.kernel))
        return rows

    def rest_of(self, place: str, folder: str) -> Row:
        """The settings of a group, its kills and its peak. memory.events counts those below too, if there is no other."""
        settings = [(text_of(f"{place}/memory.{kind}") or setting_word(default)).strip()
                    for kind, default in DEFAULTS.items()]
        events = numbers_of(f"{place}/memory.events") or {}
        self.first_events.setdefault(self.path_of(place, folder), events)
        self.last_events[self.path_of(place, folder)] = events
        own = numbers_of(f"{place}/memory.events.local") or events
        return [*settings, str(own.get("oom_kill", "")), (text_of(f"{place}/memory.peak") or "").strip()]

    def remarks(self) -> Iterator[str]:
        """What the samples don't show."""
        if self.most_other > 0:
            yield f"at most {amount_text(self.most_other)} of memory.current is in none of anon, file and kernel"
        if not self.has_kernel:
            yield "memory.stat has no kernel, which Linux has from 5.18 on: so kernel memory isn't recorded"
        for path, first in sorted(self.first_events.items()):
            more = {key: self.last_events[path].get(key, 0) - first.get(key, 0) for key in ("low", "high", "max", "oom_kill")}
            if any(more.values()):
                yield f"{path}: {', '.join(f'{key} {count}' for key, count in more.items())} while it was recorded"


@dataclass(frozen=True)
class Process:
    """A process's name, its parent, and what it has."""
    name: str
    parent: int
    pages: Pages


def process_of(pid: int) -> Optional[Process]:
    """A process; None if it is gone, or has no memory."""
    found = dict(re.findall(r"^(Name|PPid|Rss\w+):\t *(.*?)(?: kB)?$", text_of(f"/proc/{pid}/status") or "", re.M))
    if "RssAnon" not in found:
        return None
    anon, file, shared = (int(found[f"Rss{kind}"]) * 1024 for kind in ("Anon", "File", "Shmem"))
    return Process(found["Name"], int(found["PPid"]), Pages(anon + shared, file))


class Processes:
    """Processes and all that descend from them."""

    header = LEAST

    def __init__(self, pids: List[int]) -> None:
        self.tops: Dict[int, str] = {}
        for pid in pids:
            process = process_of(pid)
            if process is None:
                raise Fault(f"there is no process {pid}, or it has no memory")
            self.tops[pid] = f"/{plain(process.name)}-{pid}"

    def sample(self) -> Dict[str, Row]:
        """Of each process what it has, and that it has no limit. Those that descend from a named one are below it."""
        found = {int(pid): process_of(int(pid)) for pid in os.listdir("/proc") if pid.isdigit()}
        there = {pid: process for pid, process in found.items() if process}
        rows = {}
        for pid, process in there.items():
            top = pid
            while top in there and top not in self.tops:
                top = there[top].parent
            if top in self.tops:
                path = self.tops[top] + (f"/{plain(process.name)}-{pid}" if pid != top else "")
                rows[path] = [str(process.pages.anon), str(process.pages.file), "max"]
        return rows

    @staticmethod
    def remarks() -> Iterator[str]:
        """What the samples don't show."""
        yield ("file is what the processes map of files: what they read or write by calls, such as read(2), is not in this "
               "record, and is in one of their group, by --cgroup")


Source = Union[Groups, Processes]


def rows_text(seconds: float, rows: Dict[str, Row]) -> bytes:
    """The lines of a sample."""
    text = io.StringIO()
    writer = csv.writer(text, lineterminator="\n")
    writer.writerows([f"{seconds:.3f}", path, *row] for path, row in sorted(rows.items()))
    return text.getvalue().encode()


def host_row(source: Source, rows: Dict[str, Row]) -> Row:
    """The row of /, whose limit is the host's memory."""
    memory = (numbers_of("/proc/meminfo") or {})["MemTotal"] * 1024
    settings: Dict[str, Optional[int]] = {**DEFAULTS, "max": memory}
    words = [setting_word(settings[name]) if name in settings else "" for name in source.header[4:]]
    return [*rows.get("/", ["0", "0"])[:2], *words]


def sample_until(source: Source, file: BinaryIO, every: float, last: Optional[float]) -> Tuple[int, Set[str]]:
    """Writes samples until nothing is left, the time is over, or Ctrl-C. Returns their number, and the groups."""
    begin, count, groups = time.monotonic(), 0, set()
    try:
        rows = source.sample()
        while rows:
            seconds = time.monotonic() - begin
            file.write(rows_text(seconds, {**rows, "/": host_row(source, rows)}))
            count += 1
            groups |= set(rows)
            if last is not None and seconds + every > last:
                break
            time.sleep(max(0, begin + count * every - time.monotonic()))
            rows = source.sample()
    except KeyboardInterrupt:
        pass
    return count, groups - {"/"}


def interrupt(*_: object) -> None:
    """A wish to end."""
    raise KeyboardInterrupt


def record(options: argparse.Namespace, note: Note) -> None:
    """Writes the samples to a CSV file."""
    if options.every < 1 or options.seconds is not None and options.seconds < 0:
        raise Fault("--every is 1 or more, and --for isn't negative")
    source: Source = Groups(options.cgroup) if options.cgroup else Processes(options.pid)
    signal.signal(signal.SIGTERM, interrupt)
    try:
        with open(options.out, "wb", buffering=0) as file:
            file.write(",".join(source.header).encode() + b"\n")
            count, groups = sample_until(source, file, options.every / 1000, options.seconds)
    except OSError as fault:
        raise Fault(f"{options.out}: {fault.strerror}") from None
    for remark in (f"{len(groups)} groups, {count} samples in {options.out}", *source.remarks()):
        note(remark)


def add_options(parser: argparse.ArgumentParser) -> None:
    """The options of the word `record`."""
    parser.add_argument("--out", metavar="usage.csv", required=True, help="the file that is written")
    parser.add_argument("--every", metavar="MS", type=int, default=1000, help="milliseconds between samples (1000)")
    parser.add_argument("--for", metavar="S", dest="seconds", type=float, help="seconds; without it until Ctrl-C")
    what = parser.add_mutually_exclusive_group(required=True)
    what.add_argument("--cgroup", metavar="PATH", nargs="+", help="groups of cgroup v2, with all below")
    what.add_argument("--pid", metavar="PID", type=int, nargs="+", help="processes, with all that descend from them")
