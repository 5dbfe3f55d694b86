"""A recorded usage: of each group what it had at each sample, in bytes, and the same in frames."""
from __future__ import annotations

from array import array
from dataclasses import dataclass, field, replace
from typing import TYPE_CHECKING, Callable, Dict, Iterable, List, Optional, Set

from .paths import is_below, path_up, with_ancestors

if TYPE_CHECKING:
    from .censored import Censored

# The settings of a group, and what each is if nothing else was recorded; None is `max`.
DEFAULTS: Dict[str, Optional[int]] = {"max": None, "high": None, "low": 0, "min": 0}
# In place of an amount, if a group has no row at a sample.
NONE = -1
# A zone has at most 1,048,576 frames, some of which are on the CPU's list.
USUAL_FRAMES, MOST_FRAMES = 65_536, 1_048_000
# So many frames the least limit should have, so that rounding decides little.
LEAST_FRAMES = 20

# Of a kind of setting, of each group its values (None is `max`).
Given = Dict[str, Dict[str, Optional[int]]]


@dataclass(frozen=True)
class Setting:
    """The value that a setting has from a sample on."""
    at: int
    value: Optional[int]


@dataclass
class Track:
    """What one group had of its own at each sample; NONE if it has no row."""
    anon: "array[int]"
    file: "array[int]"
    # Of each kind of setting its values from some samples on.
    settings: Dict[str, List[Setting]] = field(default_factory=dict)
    # The samples at which the kernel had killed in it since the one before.
    oom_kills: List[int] = field(default_factory=list)
    # The kernel's own peak of it with all below, if that was recorded.
    peak: Optional[int] = None
    # The samples at which it began, first and anew.
    starts: List[int] = field(default_factory=list)
    # What it had of kernel memory that can't be reclaimed, if that was recorded; and the most once it is counted in `anon`.
    kernel: "array[int]" = field(default_factory=lambda: array("q"))
    most_kernel: Optional[int] = None
    # The most tasks that it had, if they were recorded.
    pids: Optional[int] = None

    def kinds(self) -> List["array[int]"]:
        """The amounts of each kind that was recorded."""
        return [self.anon, self.file, *([self.kernel] if self.kernel else [])]

    def total(self, at: int) -> int:
        """What it had at a sample."""
        return 0 if self.anon[at] == NONE else self.anon[at] + self.file[at]

    def most(self) -> int:
        """The most that it had at a sample."""
        return max(map(self.total, range(len(self.anon))), default=0)

    def setting(self, kind: str, at: int) -> Optional[int]:
        """The value of a setting at a sample."""
        found = DEFAULTS[kind]
        for one in self.settings.get(kind, ()):
            if one.at <= at:
                found = one.value
        return found

    def set(self, kind: str, at: int, value: Optional[int]) -> None:
        """The setting has this value from this sample on, the last one so far."""
        values = self.settings.setdefault(kind, [])
        if value != (values[-1].value if values else DEFAULTS[kind]):
            values.append(Setting(at, value))


@dataclass(frozen=True)
class Usage:
    """What was recorded. The groups are in the order in which the record names them first, each after its parent."""
    times: "array[float]"
    tracks: Dict[str, Track]
    host: Optional[int]
    # Of a group into which others were merged, these.
    merged: Dict[str, List[str]] = field(default_factory=dict)
    # What the record lacks, as the import of it found.
    remarks: List[str] = field(default_factory=list)
    # The groups that were killed while they were recorded, also those that were merged.
    killed: Dict[str, Censored] = field(default_factory=dict)

    @property
    def groups(self) -> List[str]:
        """The groups."""
        return [*self.tracks]

    @property
    def seconds(self) -> float:
        """From the first sample to the last."""
        return self.times[-1] - self.times[0]


def empty_track(samples: int) -> Track:
    """That of a group without a row."""
    return Track(array("q", [NONE]) * samples, array("q", [NONE]) * samples)


def usage_of(times: "array[float]", tracks: Dict[str, Track], host: Optional[int]) -> Usage:
    """The usage of these tracks, with all groups above them."""
    samples = len(times)
    for track in tracks.values():
        for amounts in track.kinds():
            amounts.extend([NONE] * (samples - len(amounts)))
    return Usage(times, {path: tracks.get(path) or empty_track(samples) for path in with_ancestors(tracks)}, host)


def with_kernel(usage: Usage) -> Usage:
    """The same with kernel memory counted as anonymous memory, since no limit reclaims it either. Where it has no value, the
    last one holds."""
    def folded(_: str, track: Track) -> Track:
        anon, last = track.anon[:], 0
        for at, amount in enumerate(track.kernel):
            last = last if amount == NONE else amount
            anon[at] += last if anon[at] != NONE else 0
        return replace(track, anon=anon, kernel=array("q"), most_kernel=max(0, *track.kernel)) if track.kernel else track

    return with_tracks(usage, folded)


def setting_word(value: Optional[int]) -> str:
    """A setting as a row has it."""
    return "max" if value is None else str(value)


def setting_name(kind: str) -> str:
    """A setting as a sentence names it."""
    return "limit" if kind == "max" else f"memory.{kind}"


def least_limit(usage: Usage) -> Optional[int]:
    """The least limit or memory.high that some group has, of a page or more."""
    return min((one.value for track in usage.tracks.values() for kind in ("max", "high")
                for one in track.settings.get(kind, ()) if one.value and one.value >= 4096), default=None)


def frame_size(host: int, least: Optional[int]) -> int:
    """The least power of two from 4 KiB on, of which the host has at most the usual number; less if the least limit
    would have too few frames, as far as a zone can have so many."""
    size = 4096
    while host > size * USUAL_FRAMES:
        size *= 2
    while least is not None and size > 4096 and least < LEAST_FRAMES * size and host <= size // 2 * MOST_FRAMES:
        size //= 2
    return size


def in_frames(usage: Usage, size: int) -> Usage:
    """The same in frames of this size: anonymous memory and the whole are rounded up and settings down, so that no answer is
    too kind."""
    def frames(amounts: Iterable[int]) -> "array[int]":
        return array("q", [-(-amount // size) if amount > 0 else amount for amount in amounts])

    def changed(_: str, track: Track) -> Track:
        anon, whole = frames(track.anon), frames(track.total(at) for at in range(len(track.anon)))
        file = array("q", [NONE if own == NONE else both - own for own, both in zip(anon, whole)])
        return replace(track, anon=anon, file=file, settings={
            kind: [Setting(one.at, None if one.value is None else one.value // size) for one in values]
            for kind, values in track.settings.items()})

    return with_tracks(usage, changed, None if usage.host is None else usage.host // size)


def with_tracks(usage: Usage, change: Callable[[str, Track], Track], host: Optional[int] = None) -> Usage:
    """The same with the tracks as they are changed, and perhaps with another host."""
    return replace(usage, tracks={path: change(path, track) for path, track in usage.tracks.items()},
                   host=usage.host if host is None else host)


def with_settings(usage: Usage, given: Given) -> Usage:
    """The same with these settings from the beginning on, and only them at their groups."""
    def changed(path: str, track: Track) -> Track:
        more = {kind: [Setting(0, values[path])] for kind, values in given.items() if path in values}
        return replace(track, settings={**track.settings, **more}) if more else track

    return with_tracks(usage, changed)


def without_limits(usage: Usage) -> Usage:
    """The same without a limit but that of the host, and without memory.high."""
    return with_tracks(usage, lambda _, track: replace(track, settings={
        kind: values for kind, values in track.settings.items() if kind not in ("max", "high")}))


def groups_with(usage: Usage, *kinds: str) -> Set[str]:
    """The groups that have one of these settings at a time."""
    return {path for path, track in usage.tracks.items() for kind in kinds
            if any(one.value != DEFAULTS[kind] for one in track.settings.get(kind, ()))}


def only_below(usage: Usage, above: str) -> Usage:
    """The same of a group and those below it alone."""
    samples = len(usage.times)
    return replace(usage, tracks={
        path: track if is_below(path, above) else empty_track(samples) for path, track in usage.tracks.items()
        if is_below(path, above) or is_below(above, path)})


def in_order(usage: Usage, paths: Iterable[str]) -> Usage:
    """The same with the groups in another order, each after its parent."""
    return replace(usage, tracks={path: usage.tracks[path] for path in with_ancestors(paths)})


def greatest_wanted(usage: Usage) -> Dict[str, int]:
    """Of each group the most that it and those below it had at a time."""
    samples, sums = len(usage.times), {path: array("q", [0]) * len(usage.times) for path in usage.tracks}
    for path, track in usage.tracks.items():
        own = [track.total(at) for at in range(samples)]
        for above in path_up(path):
            of_all = sums[above]
            for at, count in enumerate(own):
                of_all[at] += count
    return {path: max(of_all) for path, of_all in sums.items()}
