"""The usage that series of other tools make. Each kind is filled for itself: a kind that begins late or has a gap hides
nothing of the others."""
from __future__ import annotations

from array import array
from dataclasses import dataclass, field
from typing import Dict, Iterator, List, Optional, Set

from .amounts import Fault, Note, names_text, seconds_text
from .series import COUNTED, MAX, SETTINGS, Series, by_group
from .usage import NONE, Track, Usage, empty_track, usage_of

# A kind's gap is worth a line if it is longer than so many usual steps.
STEPS = 5


# What is said of groups whose kinds don't part their memory, and how that counts: else a low answer would look sure.
NO_SIZE = "no kind has an amount: their settings and counts are left out"
NO_ANON = "no kind has anonymous memory: it isn't played"
NOT_SHARED = "neither the cache nor a usage is known: shared memory isn't played"
SHARED = ("shared memory isn't known: it counts as pages of files, which a limit reclaims; "
          "container_memory_total_active_file_bytes and _inactive_file_bytes part it")
WHOLE = ("only {} is known: all of it counts as anonymous, which no limit reclaims; container_memory_rss and _cache, or "
         "memory.stat, part it")
WHOLES = {"usage": "the usage", "working_set": "the working set"}
OF_FILES = {"active_file", "inactive_file"}
# The kinds beside which the cache is known to be a part of the whole: a working set has none of the inactive one.
WITH_CACHE = {"rss", "usage", "inactive_file"}


def doubt(kinds: Set[str]) -> Optional[str]:
    """What isn't known of a group that has sizes of these kinds."""
    wholes = [name for kind, name in WHOLES.items() if kind in kinds]
    if "anon" in kinds:
        return None
    if "rss" not in kinds and not wholes:
        return NO_ANON
    if "cache" not in kinds and not wholes:
        return NOT_SHARED
    if OF_FILES <= kinds or {"cache", "shmem"} <= kinds and kinds & WITH_CACHE:
        return None
    return SHARED if "rss" in kinds or "cache" in kinds and kinds & WITH_CACHE else WHOLE.format(wholes[0])


def amount(kinds: Dict[str, int]) -> tuple[int, int]:
    """The anonymous and the file pages that values of these kinds mean. What may not be a page of a file isn't one, so
    shared memory is anonymous where its size can be told."""
    if "anon" in kinds:
        return kinds["anon"], kinds.get("file", 0)
    whole = kinds.get("usage", kinds.get("working_set", 0) + kinds.get("inactive_file", 0))
    rest = kinds.get("cache", max(0, whole - kinds.get("rss", 0) - kinds.get("kernel", 0)))
    if OF_FILES <= kinds.keys():
        in_files = kinds["active_file"] + kinds["inactive_file"]
    elif "cache" in kinds and ("working_set" not in kinds or kinds.keys() & WITH_CACHE):
        in_files = max(0, rest - kinds.get("shmem", 0))
    else:
        in_files = rest if "rss" in kinds else 0
    return kinds["rss"] + max(0, rest - in_files) if "rss" in kinds else max(0, whole - in_files), in_files


def setting(name: str, number: int) -> Optional[int]:
    """The setting that a number means. A limit of 0 is how cAdvisor writes that there is none."""
    return None if number >= MAX or (name, number) == ("max", 0) else number


@dataclass
class Lack:
    """For how long a kind of a group had no value of its own, and from when on; or that it began so late."""
    path: str
    kind: str
    begin: float
    span: float
    is_late: bool

    def text(self, zero: float) -> str:
        """As a part of a line."""
        how = "begins late, after" if self.is_late else "has no value for"
        return f"{self.kind} of {self.path} {how} {seconds_text(self.span)} from {seconds_text(self.begin - zero)} on"


@dataclass
class Joining:
    """The tracks so far."""
    times: "array[float]"
    tracks: Dict[str, Track] = field(default_factory=dict)
    lacks: List[Lack] = field(default_factory=list)
    doubts: Dict[str, List[str]] = field(default_factory=dict)

    def add(self, path: str, kinds: Dict[str, Series]) -> None:
        """A group's track, with a row at each time at which one of its sizes has a value."""
        sizes = {kind: one for kind, one in kinds.items() if kind not in SETTINGS and kind not in COUNTED}
        if not sizes:
            self.doubts.setdefault(NO_SIZE, []).append(path)
            return
        unknown = doubt({*sizes})
        if unknown:
            self.doubts.setdefault(unknown, []).append(path)
        own = times_of(list(sizes.values()))
        values = {kind: self.filled(path, one, own) for kind, one in sizes.items()}
        places = {time: at for at, time in enumerate(self.times)}
        track = empty_track(len(self.times))
        # Of a whole usage kernel memory is a part already.
        if "kernel" in sizes and sizes.keys() & {"rss", "anon"}:
            track.kernel = array("q", [NONE]) * len(self.times)
        for at, time in enumerate(own):
            here = {kind: amounts[at] for kind, amounts in values.items() if amounts[at] != NONE}
            track.anon[places[time]], track.file[places[time]] = amount(here)
            if track.kernel and here.keys() & {"rss", "anon"}:
                track.kernel[places[time]] = here.get("kernel", NONE)
        first, last = places[own[0]], places[own[-1]]
        for kind, name in SETTINGS.items():
            for time, value in points(kinds.get(kind)):
                track.set(name, max(first, self.place(time)), setting(name, value))
        self.add_counted(track, kinds, first, last)
        self.tracks[path] = track

    def place(self, time: float) -> int:
        """The first sample that isn't before a time, or the last one."""
        low, high = 0, len(self.times) - 1
        while low < high:
            middle = (low + high) // 2
            low, high = (middle + 1, high) if self.times[middle] < time else (low, middle)
        return low

    def add_counted(self, track: Track, kinds: Dict[str, Series], first: int, last: int) -> None:
        """The kills that the kernel counted, and its peak. A count that falls began anew, and that of a group which came later
        begins with 0."""
        before = 0 if first else None
        for time, value in points(kinds.get("oom_kill")):
            if before is not None and (value > before or 0 < value < before):
                track.oom_kills.append(min(last, max(first, self.place(time))))
            before = value
        track.peak, track.pids = (max((value for _, value in points(kinds.get(kind))), default=None)
                                  for kind in ("peak", "pids"))

    def filled(self, path: str, one: Series, times: "array[float]") -> "array[int]":
        """The values of a kind at these times: the last one holds. Before its first there is none."""
        if one.times == times:
            return one.values
        steps = sorted(after - before for before, after in zip(one.times, one.times[1:])) or [0.0]
        usual, found, at, last = steps[len(steps) // 2], array("q"), 0, NONE
        if one.times[0] - times[0] > STEPS * usual:
            self.lacks.append(Lack(path, one.kind, times[0], one.times[0] - times[0], True))
        ends = [*zip(one.times, one.times[1:]), (one.times[-1], times[-1])]
        begin, end = max(ends, key=lambda pair: pair[1] - pair[0])
        if end - begin > STEPS * usual and any(begin < time < end or time == end != one.times[-1] for time in times):
            self.lacks.append(Lack(path, one.kind, begin, end - begin, False))
        for time in times:
            while at < len(one.times) and one.times[at] <= time:
                last, at = one.values[at], at + 1
            found.append(last)
        return found

    def remarks(self) -> Iterator[str]:
        """What was filled, and what is counted in another way than may be meant."""
        if self.lacks:
            worst = sorted(self.lacks, key=lambda lack: -lack.span)
            yield (f"{len(worst)} series lack values, so the last ones hold, and none before the first: "
                   f"{'; '.join(lack.text(self.times[0]) for lack in worst[:5])}{'; ..' * (len(worst) > 5)}")
        for unknown, paths in self.doubts.items():
            yield f"of {names_text(paths)} {unknown}"


def points(one: Optional[Series]) -> list[tuple[float, int]]:
    """The times and values of a series, if it is there."""
    return [] if one is None else [*zip(one.times, one.values)]


def times_of(series: List[Series]) -> "array[float]":
    """All times of some series, in order."""
    if all(one.times == series[0].times for one in series):
        return series[0].times
    return array("d", sorted({time for one in series for time in one.times}))


def join(series: List[Series], note: Note) -> Usage:
    """The usage that series make."""
    found, left_out = by_group(series)
    if left_out:
        note(f"{left_out} series have no label pod, and are left out")
    host = max((value for _, value in points(found.get("/", {}).pop("host", None))), default=0) or None
    empty = [f"{kind} of {path}" for path, kinds in sorted(found.items()) for kind, one in kinds.items() if not one.times]
    if empty:
        note(f"{len(empty)} series have no value, and are left out: {names_text(empty)}")
    groups = {path: kinds for path, kinds in sorted(found.items()) if any(one.times for one in kinds.values())}
    sizes = [one for kinds in groups.values() for kind, one in kinds.items() if kind not in SETTINGS and kind not in COUNTED
             and one.times]
    if not sizes:
        raise Fault("there is no value of any group")
    joining = Joining(times_of(sizes))
    for path, kinds in groups.items():
        joining.add(path, {kind: one for kind, one in kinds.items() if one.times})
    for remark in joining.remarks():
        note(remark)
    if [*joining.tracks] == ["/"]:
        raise Fault("there is only /, and no group whose limit could be another")
    return usage_of(joining.times, joining.tracks, host)
