"""Snapshots of cgroupfs: lines PATH/FILE:TEXT as grep -r writes them, after a line with the time of each snapshot. Beside
them may be what systemctl show -p ControlGroup,MemoryPeak writes."""
from __future__ import annotations

import re
from dataclasses import dataclass, field
from typing import Dict, Iterator, List, Optional, Tuple

from .amounts import Fault, Note
from .files import open_text
from .series import MAX, SETTINGS, Series, read_time

LINE = re.compile(r"(.*)/((?:memory|pids)\.[\w.]+):(?:(\w+) )?(\w+)$")
OF_SYSTEMD = re.compile(r"(\w+)=(.*)$")


@dataclass
class Files:
    """The numbers of a group's memory.stat, of its memory.events, and of its other files."""
    stat: Dict[str, str] = field(default_factory=dict)
    events: Dict[str, str] = field(default_factory=dict)
    others: Dict[str, str] = field(default_factory=dict)

    def number(self, *names: str) -> Optional[int]:
        """The number in the first of these files that has one."""
        return next((int(self.others[name]) for name in names if self.others.get(name, "").isdigit()), None)

    def add(self, name: str, key: Optional[str], word: str) -> None:
        """What a line has. memory.events counts those below too, so the local one is better."""
        if name == "memory.events.local" and key:
            self.events[key] = word
        elif name == "memory.events" and key:
            self.events.setdefault(key, word)
        elif key:
            self.stat[key] = word
        else:
            self.others[name] = word


def sizes_of(files: Files) -> Dict[str, int]:
    """The kinds of sizes of a group, with all below it. Version 1 sums them under names of its own."""
    stat = {key: int(word) for key, word in files.stat.items() if word.isdigit()}
    if "total_rss" in stat:
        sizes = {"rss": stat["total_rss"], "cache": stat.get("total_cache", 0), "shmem": stat.get("total_shmem", 0)}
        kernel = files.number("memory.kmem.usage_in_bytes")
    elif "anon" in stat:
        sizes = {"rss": stat["anon"], "cache": stat.get("file", 0), "shmem": stat.get("shmem", 0)}
        kernel = max(0, stat["kernel"] - stat.get("slab_reclaimable", 0)) if "kernel" in stat else None
    else:
        current = files.number("memory.current", "memory.usage_in_bytes")
        return {} if current is None else {"usage": current}
    return sizes if kernel is None else {**sizes, "kernel": kernel}


def kinds_of(files: Files) -> Dict[str, int]:
    """All that a group's files say."""
    kinds = sizes_of(files)
    if not kinds:
        return {}
    words = {kind: files.others.get(f"memory.{name}", "") for kind, name in SETTINGS.items()}
    words["limit"] = words["limit"] or files.others.get("memory.limit_in_bytes", "")
    kinds.update((kind, int(word)) for kind, word in words.items() if word.isdigit())
    kinds.update((kind, MAX) for kind, word in words.items() if word == "max")
    if files.events.get("oom_kill", "").isdigit():
        kinds["oom_kill"] = int(files.events["oom_kill"])
    for kind, names in (("peak", ("memory.peak", "memory.max_usage_in_bytes")), ("pids", ("pids.current",))):
        number = files.number(*names)
        if number is not None:
            kinds[kind] = number
    return kinds


def snapshots(path: str) -> Iterator[Tuple[float, Dict[str, Files]]]:
    """Of each snapshot its time, and of each folder what its files have."""
    seconds: Optional[float] = None
    groups: Dict[str, Files] = {}
    unit: Dict[str, str] = {}
    with open_text(path) as lines:
        for number, line in enumerate(map(str.strip, lines), 1):
            found, of_systemd = LINE.match(line), OF_SYSTEMD.match(line)
            if of_systemd or not line:
                unit = {**unit, of_systemd[1]: of_systemd[2]} if of_systemd else {}
                if unit.get("ControlGroup") and "MemoryPeak" in unit:
                    groups.setdefault(unit["ControlGroup"], Files()).add("memory.peak", None, unit["MemoryPeak"])
                continue
            if found is None:
                if seconds is not None:
                    yield seconds, groups
                try:
                    seconds, groups = read_time(line), {}
                except Fault as fault:
                    raise Fault(f"{path}: line {number}: neither PATH/memory.FILE:TEXT nor a time: {fault}") from None
            elif seconds is None:
                raise Fault(f"{path}: line {number}: no time is above: date +%s before each snapshot")
            else:
                folder = re.sub(r"^/sys/fs/cgroup(/memory(?=/|$))?", "", found[1]) or "/"
                groups.setdefault(folder, Files()).add(found[2], found[3], found[4])
    if seconds is not None:
        yield seconds, groups


def read(path: str, _: Optional[str], __: Note) -> List[Series]:
    """The series of a file, and those of settings."""
    series: Dict[Tuple[str, str], Series] = {}
    for seconds, groups in snapshots(path):
        for group, files in groups.items():
            for kind, value in kinds_of(files).items():
                series.setdefault((kind, group), Series(kind, {"path": group})).add(seconds, value)
    return [*series.values()]
