"""The least memory.min with which a group keeps its file pages beside the others."""
from __future__ import annotations

import json
import math
from dataclasses import dataclass
from typing import Dict, Iterator, List, Optional

from .amounts import amount_text, path_text
from .least import bisect, reclaimed_share
from .margins import with_percent
from .orders import reversed_usage
from .paths import by_tree, is_below, path_up
from .replay import How, Replay, always, played
from .report import Played, death_text, first_deaths, merged_lines, table
from .usage import Usage, greatest_wanted, setting_word, with_settings


@dataclass(frozen=True)
class Sought:
    """What is sought: the group, and how much of its file pages may be lost, in percent."""
    group: str
    percent: float


@dataclass(frozen=True)
class Found:
    """Whether there is one, of the group and those above it their memory.min in frames (None: max), and the replays with 0 for
    the group and with these. If there is none, they are those with the group's peak. And what the group's is if the groups
    are made in the reversed order (None: there is none)."""
    is_found: bool
    mins: Dict[str, Optional[int]]
    before: Replay
    after: Replay
    in_reverse: Optional[int] = None

    def least(self, group: str) -> Optional[int]:
        """The group's own."""
        return self.mins[group] if self.is_found else None


def mins_of(usage: Usage, group: str, frames: int) -> Dict[str, Optional[int]]:
    """This memory.min for a group, and for each one above at least what its children have together, which share it. With 0
    those above keep what was recorded."""
    if frames == 0:
        return {group: 0}
    most: Dict[str, float] = {path: max(math.inf if one.value is None else one.value for one in values)
                              for path, track in usage.tracks.items() for values in [track.settings.get("min")] if values}
    most[group] = frames
    above = [*path_up(group)][1:-1]
    for parent in above:
        children = sum(value for path, value in most.items() if path.rpartition("/")[0] == parent)
        most[parent] = max(most.get(parent, 0), children)
    return {path: None if most[path] == math.inf else int(most[path]) for path in [group, *above]}


def find_in_order(usage: Usage, how: How, sought: Sought) -> Found:
    """The least memory.min of a group with which no more of its file pages is lost. Whether others die doesn't matter."""
    def survives(replay: Replay) -> bool:
        return not any(is_below(death.group.path, sought.group) for death in replay.deaths)

    def keeps(replay: Replay) -> bool:
        return survives(replay) and reclaimed_share(replay, sought.group) <= sought.percent

    def play(frames: int, is_whole: bool = True) -> Replay:
        hopeful = always if is_whole else survives if sought.percent else keeps
        return played(with_settings(usage, {"min": mins_of(usage, sought.group, frames)}), how, hopeful)

    before = play(0)
    if keeps(before):
        return Found(True, mins_of(usage, sought.group, 0), before, before)
    # A memory.min of the peak protects the group from all reclaim for groups above.
    least = greatest_wanted(usage)[sought.group]
    after = play(least)
    if keeps(after):
        least = bisect(0, least, lambda frames: keeps(play(frames, False)))
        after = play(least)
    return Found(keeps(after), mins_of(usage, sought.group, least), before, after)


def find(usage: Usage, how: How, sought: Sought) -> Found:
    """The same, and what it is in the reversed order: whose pages go first depends on that."""
    found = find_in_order(usage, how, sought)
    other = find_in_order(reversed_usage(usage), how, sought) if len(usage.tracks) > 2 else found
    return Found(found.is_found, found.mins, found.before, found.after, other.least(sought.group))


def reasons(found: Found, sought: Sought, it: Played) -> List[str]:
    """Why no memory.min keeps the file pages."""
    why = [f"{death.group.path} is killed by the limit of {death.limit.path}, and kills ignore memory.min"
           for death in found.after.deaths if is_below(death.group.path, sought.group)]
    why += [f"{it.text(reclaim.frames)} of {group} are reclaimed for memory.{bound} of {limit}, and memory.min "
            "protects only from reclaim for groups above"
            for (limit, bound, group), reclaim in sorted(found.after.reclaims.items()) if is_below(group, sought.group)]
    return [*dict.fromkeys(why)]


def in_bytes(found: Found, it: Played, margin: float) -> Dict[str, Optional[int]]:
    """The memory.min of the groups in bytes, the highest first."""
    amounts = with_percent({path: frames for path, frames in found.mins.items() if frames is not None}, it.size, margin)
    return {path: amounts.get(path) for path in sorted(found.mins)}


def order_line(found: Found, sought: Sought, it: Played) -> Iterator[str]:
    """The warning, if the order of the groups decides."""
    if found.in_reverse != found.least(sought.group):
        other = "none keeps them" if found.in_reverse is None else f"it is {it.text(found.in_reverse)}"
        yield f"# warning: the order in which the record names the groups decides. In the reversed order {other}"


def lines(it: Played, found: Found, sought: Sought, margin: float) -> Iterator[str]:
    """What the value is, what each group loses without and with it, and the lines of limits.txt."""
    what = f"all but {sought.percent:g} % of its file pages" if sought.percent else "its file pages"
    frames = found.least(sought.group)
    if frames is None:
        yield f"# no memory.min of {sought.group} keeps {what}, not even that of its peak:"
        yield from (f"# {reason}" for reason in [*reasons(found, sought, it), *merged_lines(found.after)])
        yield from order_line(found, sought, it)
        return
    least, deaths = amount_text(frames * it.size), first_deaths(found.after)
    yield f"# {sought.group} keeps {what} from a memory.min of {least} on; what was reclaimed of each group and those below:"
    rows = [[path_text(path), it.text(found.before.groups[path].reclaimed), it.text(found.after.groups[path].reclaimed),
             death_text(deaths.get(path))] for path in by_tree(found.after.groups)]
    yield from (f"# {line}" for line in table([["group", "min 0", f"min {least}", "died"], *rows]))
    yield from order_line(found, sought, it)
    yield from (f"# {line}" for line in [*merged_lines(found.after), *it.hidden])
    yield from (f"{path} min {setting_word(value)}" for path, value in in_bytes(found, it, margin).items())


def json_line(it: Played, found: Found, sought: Sought, margin: float) -> str:
    """The same as one object on one line."""
    deaths = first_deaths(found.after)
    mins = in_bytes(found, it, margin) if found.is_found else {}
    return json.dumps({
        **it.as_json(), "margin_percent": margin, "group": sought.group,
        "mins": [{"group": path, "min_bytes": value} for path, value in mins.items()],
        "reversed_min_bytes": it.bytes_of(found.in_reverse),
        "why_none": [] if found.is_found else reasons(found, sought, it),
        "groups": [{"group": path, "reclaimed_before_bytes": found.before.groups[path].reclaimed * it.size,
                    "reclaimed_bytes": found.after.groups[path].reclaimed * it.size,
                    "died_first_seconds": deaths[path].seconds if path in deaths else None,
                    "died_first_by": deaths[path].limit.path if path in deaths else None}
                   for path in by_tree(found.after.groups)],
        "remarks": [*merged_lines(found.after), *it.hidden, *it.remarks]})
