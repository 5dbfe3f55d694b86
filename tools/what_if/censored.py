"""What a record hides: a group that the kernel killed wanted more than its limit gave, and a peak between two samples is
in none."""
from __future__ import annotations

from dataclasses import dataclass, replace
from typing import Dict, Iterator, List

from .amounts import amount_text, seconds_text
from .paths import is_below, path_up
from .usage import NONE, Track, Usage, greatest_wanted

# A peak is worth a line if it is more than the samples by one part of so many: it also counts the kernel's memory.
PARTS = 16


@dataclass(frozen=True)
class End:
    """The last sample of a life that a kill ended, and the nearest limit at or above the group then, which was full: whose,
    and how much."""
    at: int
    above: str
    limit: int


@dataclass(frozen=True)
class Censored:
    """A group that was killed while it was recorded: how often, when first, and the ends of those lives whose limit was
    recorded."""
    path: str
    count: int
    first: float
    ends: List[End]

    def text(self) -> str:
        """As a line."""
        often = "once" if self.count == 1 else f"{self.count} times"
        by = [f"with a limit of {amount_text(limit)}" if above == self.path
              else f"by the limit of {above}, {amount_text(limit)}" for above, limit in greatest(self.ends).items()]
        return (f"{self.path} was killed {often} while it was recorded, first at {seconds_text(self.first)}, "
                f"{' or '.join(by) or 'by no limit that was recorded'}. So it wanted at least what the record says, and nobody "
                "knows how much")


def greatest(ends: List[End]) -> Dict[str, int]:
    """The greatest limit of each group that was full."""
    found: Dict[str, int] = {}
    for end in ends:
        found[end.above] = max(end.limit, found.get(end.above, 0))
    return found


def with_killed(usage: Usage) -> Usage:
    """The same in bytes, with the groups that were killed. Their limits are those that were recorded, so this comes before
    others are given."""
    found = {}
    for path, track in usage.tracks.items():
        if track.oom_kills:
            lasts = dict.fromkeys(before(track, at) for at in track.oom_kills)
            found[path] = Censored(path, len(track.oom_kills), usage.times[track.oom_kills[0]],
                                   [end for at in lasts for end in end_of(usage, path, at)])
    return replace(usage, killed=found)


def before(track: Track, at: int) -> int:
    """The last sample of the life that a kill ended, which was seen at a sample."""
    return at - 1 if at and track.anon[at - 1] != NONE else at


def end_of(usage: Usage, path: str, at: int) -> Iterator[End]:
    """The end of a group's life at this sample, if some limit at or above it was recorded. That of the host also holds what
    wasn't recorded, so it says nothing of the groups."""
    limits = ((above, usage.tracks[above].setting("max", at)) for above in path_up(path) if above != "/")
    yield from [End(at, above, limit) for above, limit in limits if limit is not None][:1]


def with_kills(usage: Usage, size: int) -> Usage:
    """The same in which each limit that killed was full, in whole frames: what lacks is anonymous memory of its group, and
    all file pages below it were reclaimed before."""
    tracks = dict(usage.tracks)
    ends = {end for one in usage.killed.values() for end in one.ends if end.above in tracks}
    for end in sorted(ends, key=lambda end: (-end.above.count("/"), end.above, end.at)):
        below = [path for path in tracks if is_below(path, end.above) and path != end.above]
        rest = end.limit // size * size - sum(-(-max(0, tracks[path].anon[end.at]) // size) * size for path in below)
        if rest > tracks[end.above].anon[end.at]:
            for path in [end.above, *below]:
                tracks[path] = without_file(tracks[path], end.at)
            tracks[end.above].anon[end.at], tracks[end.above].file[end.at] = rest, 0
    return replace(usage, tracks=tracks)


def without_file(track: Track, at: int) -> Track:
    """The same without file pages at a sample."""
    track = replace(track, anon=track.anon[:], file=track.file[:])
    track.file[at] = min(track.file[at], 0)
    return track


def peak_lines(usage: Usage) -> Iterator[str]:
    """Groups that had more between two samples than at any, by the kernel's own peak. `usage` is in bytes."""
    wanted = greatest_wanted(usage)
    for path, track in usage.tracks.items():
        if track.peak is not None and track.peak - wanted[path] > wanted[path] // PARTS:
            yield (f"{path} had {amount_text(track.peak)} at its peak, and at most {amount_text(wanted[path])} at any sample: "
                   "the rest came and went between samples or before them, or is the kernel's")


def marked(usage: Usage, path: str) -> bool:
    """Whether a group's amounts are only the least that it wanted: it or one below it was killed."""
    return any(is_below(each, path) for each in usage.killed)


def floors(usage: Usage) -> Dict[str, int]:
    """Of each group the greatest limit that killed."""
    return greatest([end for one in usage.killed.values() for end in one.ends])


def lines(usage: Usage) -> List[str]:
    """What a report says of what the record hides. `usage` is in bytes."""
    return [*(one.text() for one in usage.killed.values()), *peak_lines(usage)]
