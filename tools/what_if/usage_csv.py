"""A recorded usage as a CSV file: read and written."""
from __future__ import annotations

import csv
import math
from array import array
from dataclasses import dataclass, field, replace
from typing import Callable, Dict, Iterable, Iterator, List, Optional, Tuple

from .amounts import Fault, seconds_text, within_reach
from .files import open_text
from .paths import MOST_GROUPS, check_path
from .usage import DEFAULTS, NONE, Track, Usage, groups_with, setting_word, usage_of

# The columns of a record, and those that it must have. The last ones are counted by the kernel.
COUNTED = ["oom_kill", "peak", "kernel", "pids"]
HEADER = ["seconds", "group", "anon", "file", *DEFAULTS, *COUNTED]
LEAST = HEADER[:5]
# What to do about times and numbers in other forms.
REMEDY = "'whatif import rows' also takes ISO times, units and exponents"


def whole_number(word: str, name: str) -> int:
    """A number of bytes."""
    if word.startswith("-"):
        raise Fault(f"{name} is negative: {word}")
    if not (word.isascii() and word.isdigit()):
        raise Fault(f"{name} is no whole number of bytes: '{word}'; {REMEDY}")
    return within_reach(int(word), word)


def read_setting(word: str, name: str) -> Optional[int]:
    """A setting of a row."""
    if word in ("", "-1", "unlimited"):
        raise Fault(f"{name} is a whole number of bytes, or the word max, and not '{word}'")
    return None if word == "max" else whole_number(word, name)


def read_seconds(word: str, before: float) -> float:
    """The time of a row, which isn't before that of the row above."""
    try:
        seconds = float(word)
    except ValueError:
        seconds = -1.0
    if not 0 <= seconds < math.inf:
        raise Fault(f"'{word}' is no time in seconds; {REMEDY}")
    if seconds < before:
        raise Fault(f"the time goes back, from {seconds_text(before)} to {seconds_text(seconds)}: sort the rows by time, "
                    "as 'whatif import rows' does")
    return seconds


@dataclass
class Reading:
    """The rows of a file so far."""
    header: List[str]
    rename: Callable[[str], str]
    times: "array[float]" = field(default_factory=lambda: array("d"))
    tracks: Dict[str, Track] = field(default_factory=dict)
    paths: Dict[str, str] = field(default_factory=dict)
    counts: Dict[str, int] = field(default_factory=dict)  # of each group the kills that the kernel counted so far
    remarks: List[str] = field(default_factory=list)

    def path_of(self, word: str) -> str:
        """The group that a row names."""
        if word not in self.paths:
            path = self.rename(word)
            check_path(path)
            self.paths[word] = path
        return self.paths[word]

    def add(self, row: List[str]) -> None:
        """A row goes to the sample of its time. What follows a # is a remark of the import."""
        if row and row[0].startswith("#"):
            self.remarks.append(",".join(row)[1:].strip())
            return
        if len(row) != len(self.header):
            raise Fault(f"{len(row)} values, and a row has {len(self.header)}: {','.join(self.header)}")
        seconds = read_seconds(row[0], self.times[-1] if self.times else 0.0)
        path, anon, file = self.path_of(row[1]), whole_number(row[2], "anon"), whole_number(row[3], "file")
        if not self.times or seconds > self.times[-1]:
            self.times.append(seconds)
        at, track = len(self.times) - 1, self.tracks.setdefault(path, Track(array("q"), array("q")))
        if len(track.anon) > at:
            raise Fault(f"{path} has a second row at this time")
        lacking = [NONE] * (at - len(track.anon))
        track.anon.extend([*lacking, anon])
        track.file.extend([*lacking, file])
        for name, word in zip(self.header[4:], row[4:]):
            if name in DEFAULTS:
                track.set(name, at, read_setting(word, name))
            elif word:
                self.count(path, name, at, whole_number(word, name))

    def count(self, path: str, name: str, at: int, number: int) -> None:
        """What the kernel counted of a group. A count of kills that falls began anew."""
        track = self.tracks[path]
        if name == "kernel":
            track.kernel.extend([*[NONE] * (at - len(track.kernel)), number])
            return
        if name in ("peak", "pids"):
            setattr(track, name, max(number, getattr(track, name) or 0))
            return
        # A group that came later had no kills before it came.
        before = self.counts.get(path, 0 if track.anon[0] == NONE else number)
        if number > before or number and number < before:
            track.oom_kills.append(at)
        self.counts[path] = number


def read_rows(lines: Iterable[str], name: str, rename: Callable[[str], str]) -> Reading:
    """What a file's lines have."""
    rows = csv.reader(lines)
    try:
        header = next(rows, None)
        if header is None or header[:5] != LEAST or sorted(header) != sorted({*header} & {*HEADER}):
            raise Fault(f"the header {','.join(LEAST)} is due; 'whatif import' makes such a file of other formats")
        reading = Reading(header, rename)
        for row in rows:
            reading.add(row)
    except csv.Error as fault:
        raise Fault(f"{name}: line {rows.line_num}: {fault}") from None
    except Fault as fault:
        raise Fault(f"{name}: line {max(1, rows.line_num)}: {fault}") from None
    if not reading.times:
        raise Fault(f"{name}: line {rows.line_num}: no sample: no row follows the header, so record for longer")
    return reading


def read_usage(path: str, rename: Callable[[str], str]) -> Usage:
    """What a CSV file has, with the names of groups that `rename` gives them."""
    with open_text(path) as lines:
        reading = read_rows(lines, path, rename)
    root = reading.tracks.get("/")
    host = next((one.value for one in root.settings.get("max", ())), None) if root else None
    if root:
        root.settings = {}
    if [*reading.tracks] == ["/"]:
        raise Fault(f"{path}: only / was recorded, so there is no group whose limit could be another: record groups, by "
                    "record --cgroup FOLDER")
    return replace(usage_of(reading.times, reading.tracks, host), remarks=reading.remarks)


def check_count(usage: Usage, name: str) -> None:
    """Refuses more groups than a zone has."""
    count = len(usage.tracks) - 1
    if count > MOST_GROUPS:
        raise Fault(f"{name}: {count} groups with their ancestors, and at most {MOST_GROUPS} are possible: "
                    f"--top {MOST_GROUPS} keeps the greatest, and each with a setting")


def usage_lines(usage: Usage) -> Iterator[str]:
    """The lines of a usage."""
    kinds = [kind for kind in DEFAULTS if kind == "max" or groups_with(usage, kind)]
    tracks = sorted(usage.tracks.items())
    counted = [name for name in COUNTED
               if any(getattr(track, "oom_kills" if name == "oom_kill" else name) for _, track in tracks)]
    yield ",".join([*HEADER[:4], *kinds, *counted])
    held = {path: dict(DEFAULTS) for path in usage.tracks}
    changes: Dict[Tuple[str, int], List[Tuple[str, Optional[int]]]] = {
        (path, one.at): [] for path, track in tracks for values in track.settings.values() for one in values}
    for path, track in tracks:
        for kind, values in track.settings.items():
            for one in values:
                changes[path, one.at].append((kind, one.value))
    kills = {path: 0 for path in usage.tracks}
    for at, seconds in enumerate(usage.times):
        for path, track in tracks:
            held[path].update(changes.get((path, at), ()))
            kills[path] += track.oom_kills.count(at) if track.oom_kills else 0
            is_host = path == "/" and usage.host is not None
            if track.anon[at] == NONE and not is_host:
                continue
            words = [setting_word(usage.host if is_host and kind == "max" else held[path][kind]) for kind in kinds]
            more = {"oom_kill": kills[path], "peak": track.peak, "pids": track.pids,
                    "kernel": track.kernel[at] if track.kernel and track.kernel[at] != NONE else None}
            yield ",".join([f"{seconds:.3f}", path, str(max(0, track.anon[at])), str(max(0, track.file[at])), *words,
                            *("" if more[name] is None else str(more[name]) for name in counted)])
    yield from ("# " + remark.replace("\n", " ").replace('"', "'") for remark in usage.remarks)
