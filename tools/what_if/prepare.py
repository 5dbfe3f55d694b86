"""What a recorded usage is before it is played: gaps, cumulative rows, names, and the greatest groups."""
from __future__ import annotations

from array import array
from dataclasses import dataclass, replace
from typing import Callable, Dict, Iterable, List, Optional, Set

from .amounts import Fault, Note, amount_text, names_text, seconds_text
from .files import open_text, read_json
from .kubernetes import names_of
from .paths import MOST_GROUPS, by_tree, path_up
from .usage import DEFAULTS, NONE, Track, Usage, groups_with, setting_name


@dataclass(frozen=True)
class Gap:
    """Rows that a group lacks, one after the other: the first and the last sample."""
    path: str
    first: int
    last: int


def gaps_of(path: str, track: Track) -> List[Gap]:
    """Where a group has no row, between two that it has."""
    there = [at for at, amount in enumerate(track.anon) if amount != NONE]
    return [Gap(path, one + 1, other - 1) for one, other in zip(there, there[1:]) if other - one > 1]


def filled(usage: Usage, longest: Optional[float], note: Note, remark: str = "") -> Usage:
    """The same with the last values of each group that lacks a row for at most so many seconds (None: for any time)."""
    gaps = [gap for path, track in usage.tracks.items() for gap in gaps_of(path, track)]
    tracks, count, filled_gaps = dict(usage.tracks), 0, []
    for gap in gaps:
        before, end = gap.first - 1, gap.first
        while end <= gap.last and (longest is None or usage.times[end] - usage.times[before] <= longest):
            end += 1
        if end == gap.first:
            continue
        if tracks[gap.path] is usage.tracks[gap.path]:
            old = tracks[gap.path]
            tracks[gap.path] = copied(old)
        for amounts in tracks[gap.path].kinds():
            for at in range(gap.first, end):
                amounts[at] = amounts[before]
        count += end - gap.first
        filled_gaps.append(gap)
    if filled_gaps:
        first = min(filled_gaps, key=lambda gap: (gap.first, gap.path))
        longest_gap = max(filled_gaps, key=lambda gap: usage.times[gap.last + 1] - usage.times[gap.first - 1])
        span = usage.times[longest_gap.last + 1] - usage.times[longest_gap.first - 1]
        more = f"; the longest gap is {seconds_text(span)}, of {longest_gap.path}" if len(filled_gaps) > 1 else ""
        note(f"{count} rows are lacking, the first one of {first.path} at {seconds_text(usage.times[first.first])}: "
             f"the group keeps its last value{remark}{more}")
    return replace(usage, tracks=tracks)


def copied(track: Track) -> Track:
    """A track whose amounts may be changed."""
    return replace(track, anon=track.anon[:], file=track.file[:], kernel=track.kernel[:])


def not_cumulative(usage: Usage, note: Note) -> Usage:
    """The same, if a row counts all below it: what each group has of its own."""
    tracks = {path: copied(track) for path, track in usage.tracks.items()}
    negative: List[str] = []
    for at in range(len(usage.times)):
        for path, track in usage.tracks.items():
            if track.anon[at] != NONE and path != "/":
                above = next((each for each in path_up(path) if each != path and usage.tracks[each].anon[at] != NONE), None)
                if above is not None:
                    for was, whole, part in zip(usage.tracks[above].kinds(), tracks[above].kinds(), track.kinds()):
                        whole[at] -= max(0, part[at]) if was[at] != NONE else 0
        for path, track in tracks.items():
            short = [own for was, own in zip(usage.tracks[path].kinds(), track.kinds()) if was[at] != NONE and own[at] < 0]
            negative += [path] if short and path != "/" else []
            for own in short:
                own[at] = 0
    if negative:
        names = [*dict.fromkeys(negative)]
        note(f"{names_text(names)}: in {len(negative)} rows less than the groups below have together, so its own part "
             "counts as 0 there")
    return replace(usage, tracks=tracks)


# The greatest groups

def check_top(count: int, kept: Iterable[str], what: str) -> Set[str]:
    """The groups that have to stay with all above them; refuses to drop one."""
    whole = {above for group in kept for above in path_up(group)} - {"/"}
    if len(whole) > count:
        remedy = "a greater --top is due" if len(whole) <= MOST_GROUPS else "--limits with GROUP max gives one up"
        raise Fault(f"--top {count}: {len(whole)} groups have {what}, or are above one that has: "
                    f"{', '.join(sorted(kept))}; {remedy}")
    return whole | {"/"}


def kept_groups(usage: Usage, count: int, kept: Set[str]) -> Set[str]:
    """Those that have to stay, then those with a recorded setting, then the greatest, as far as there is room."""
    have = groups_with(usage, *DEFAULTS)
    peaks = {path: track.most() for path, track in usage.tracks.items()}
    for path in sorted(usage.tracks, key=lambda path: (path not in have, -peaks[path], path)):
        more = kept | set(path_up(path))
        kept = more if len(more) - 1 <= count else kept
    return kept


def settings_text(track: Track) -> str:
    """The last settings of a group, as words."""
    last = {kind: values[-1].value for kind, values in track.settings.items() if values}
    return ", ".join(f"{setting_name(kind)} {'max' if value is None else amount_text(value)}"
                     for kind, value in last.items() if value != DEFAULTS[kind])


def keep_greatest(usage: Usage, count: int, must: Set[str], note: Note) -> Usage:
    """So many groups are kept. What the others have is counted in the nearest kept group above, which then stands for
    them: who would die of those can't be said."""
    kept = kept_groups(usage, count, must)
    tracks = {path: replace(track, anon=track.anon[:], file=track.file[:])
              for path, track in usage.tracks.items() if path in kept}
    merged: Dict[str, List[str]] = {}
    lost = {path: settings_text(usage.tracks[path]) for path in by_tree(groups_with(usage, *DEFAULTS) - kept)}
    for path, track in usage.tracks.items():
        if path in kept:
            continue
        into = next(above for above in path_up(path) if above in kept)
        merged.setdefault(into, []).append(path)
        tracks[into] = with_added(tracks[into], track)
    if lost:
        note(f"--top {count}: settings of {len(lost)} merged groups aren't played: "
             + "; ".join(f"{path} {text}" for path, text in lost.items()))
    return replace(usage, tracks=tracks, merged=merged)


def with_added(track: Track, other: Track) -> Track:
    """A group with what another had too."""
    def both(own: "array[int]", more: "array[int]") -> "array[int]":
        return array("q", [two if one == NONE else one if two == NONE else one + two for one, two in zip(own, more)])

    is_known = track.most_kernel is not None and other.most_kernel is not None
    return replace(track, anon=both(track.anon, other.anon), file=both(track.file, other.file),
                   pids=(track.pids or 1) + (other.pids or 1),
                   most_kernel=(track.most_kernel or 0) + (other.most_kernel or 0) if is_known else None)


# Names

def read_names(path: Optional[str]) -> Dict[str, str]:
    """The names in a file, if there is one: lines `ID NAME`, or what kubectl get pods -o json writes."""
    if path is None:
        return {}
    with open_text(path) as lines:
        words = [line.partition("#")[0].split() for line in lines]
    if words and words[0][:1] and words[0][0].startswith("{"):
        return names_of(path, read_json(path))
    for number, line in enumerate(words, 1):
        if len(line) not in (0, 2) or "/" in "".join(line):
            raise Fault(f"{path}: line {number}: a line is ID NAME, both without a /")
    return {line[0]: line[1] for line in words if line}


def renamed(names: Dict[str, str]) -> Callable[[str], str]:
    """What gives each name of a path that contains an ID the name of that ID. It keeps what it found: paths come often."""
    known: Dict[str, str] = {}

    def rename(path: str) -> str:
        if path not in known:
            parts = path.split("/")
            known[path] = "/".join(next((names[one] for one in names if one in part), part) for part in parts)
        return known[path]

    return rename
