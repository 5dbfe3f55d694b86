"""The report of a replay: a table with a row a group, what killed, and in the last line what came of it."""
from __future__ import annotations

import json
from dataclasses import dataclass, field
from typing import Any, Dict, Iterator, List, Optional, Tuple

from . import censored, margins, orders
from .amounts import amount_text, limit_text, names_text, path_text, seconds_text
from .paths import NODE, by_tree
from .replay import Death, Group, Replay
from .usage import Usage, greatest_wanted, groups_with

COLUMNS = ["group", "wanted", "usage", "no room", "reclaimed", "died"]
# Those of each setting that some group has, after "usage". The limit's is there always.
OF_SETTINGS = {"max": ["limit"], "high": ["high", "over", "above"], "low": ["low", "broken"], "min": ["min"]}
# The words of an explanation after which the program's bytes stand, of which a frame has 4,096.
AMOUNTS = ("usage", "need", "bytes", "min", "low")
# The number that means `max` there.
MAX = 4096 * (2 ** 32 - 1)


@dataclass(frozen=True)
class Played:
    """What was played: the file, the usage in frames of this size, and what the record hides."""
    name: str
    usage: Usage
    size: int
    hidden: List[str] = field(default_factory=list)
    remarks: List[str] = field(default_factory=list)

    def text(self, frames: int) -> str:
        """Frames as an amount."""
        return amount_text(frames * self.size)

    def bytes_of(self, frames: Optional[int]) -> Optional[int]:
        """The bytes of frames, perhaps of no limit."""
        return None if frames is None else frames * self.size

    def bound_text(self, frames: Optional[int]) -> str:
        """A setting as text."""
        return limit_text(self.bytes_of(frames))

    def head(self) -> str:
        """What was played, in a line."""
        return (f"{self.name}: {len(self.usage.times)} samples in {seconds_text(self.usage.seconds)}, "
                f"{len(self.usage.tracks) - 1} groups; the host has {self.bound_text(self.usage.host)}, and a frame stands for "
                f"{amount_text(self.size)}")

    def as_json(self) -> Dict[str, Any]:
        """The first keys of each object."""
        return {"usage": self.name, "samples": len(self.usage.times), "seconds": self.usage.seconds,
                "host_bytes": self.bytes_of(self.usage.host), "frame_bytes": self.size}


def table(rows: List[List[str]]) -> Iterator[str]:
    """Rows as text: the first column to the left, numbers to the right, and the last column as it is."""
    widths = [max(len(row[column]) for row in rows) for column in range(len(rows[0]))]
    for row in rows:
        middle = (f"{word:>{width}}" for word, width in zip(row[1:-1], widths[1:-1]))
        yield "  ".join([f"{row[0]:<{widths[0]}}", *middle, row[-1]]).rstrip()


def death_text(death: Optional[Death]) -> str:
    """When a group died, and by which limit."""
    return f"{seconds_text(death.seconds)} by {path_text(death.limit.path)}" if death else "-"


def first_deaths(replay: Replay) -> Dict[str, Death]:
    """The first death of each group that died."""
    return {death.group.path: death for death in reversed(replay.deaths)}


def merged_deaths(*replays: Replay) -> List[str]:
    """The groups that died and into which others were merged: who of these would die isn't known."""
    return [*dict.fromkeys(path for replay in replays for path in first_deaths(replay) if path in replay.usage.merged)]


def group_row(it: Played, group: Group, wanted: int, death: Optional[Death], kinds: List[str],
              is_restarted: bool) -> List[str]:
    """A group's row, with these settings."""
    settings = {kind: [it.bound_text(group.settings[kind])] for kind in kinds}
    if "high" in kinds:
        settings["high"] += [str(group.times_over), seconds_text(group.seconds_above)]
    if "low" in kinds:
        settings["low"] += [str(group.times_broken)]
    more = [f"{group.kills}"] if is_restarted else []
    least = "at least " if censored.marked(it.usage, group.path) else ""
    return [path_text(group.path), least + it.text(wanted), it.text(group.peak),
            *[word for words in settings.values() for word in words], str(group.times_without_room),
            it.text(group.reclaimed), *more, death_text(death)]


def explanation(line: str, size: int) -> str:
    """A line of an explanation with the recorded paths and the bytes that frames stand for."""
    words = line.split(" ")
    for at in range(2, len(words)):
        is_limit = words[1] in ("limit", "high") and at == 3
        if words[at].isdigit() and (is_limit or words[at - 1] in AMOUNTS):
            words[at] = "max" if int(words[at]) == MAX else str(int(words[at]) // 4096 * size)
        elif words[at] == NODE or words[at].startswith(NODE + "/"):
            words[at] = words[at][len(NODE):] or "/"
    return " ".join(words)


def asked_text(death: Death) -> str:
    """What was done as a group died."""
    return f"{death.asker.path} asked for a frame" if death.asker else f"the limit of {death.limit.path} fell"


def death_lines(deaths: List[Death], size: int) -> Iterator[str]:
    """Each line that killed first for a limit and an asking group, with its explanation."""
    told: List[List[str]] = []
    same: Dict[Tuple[str, str], int] = {}
    for death in deaths:
        key = death.limit.path, death.group.path
        same[key] = same.get(key, 0) + 1
        if death.lines in told or same[key] > 1:
            continue
        told.append(death.lines)
        yield ""
        yield f"{seconds_text(death.seconds)}: {asked_text(death)}"
        yield from (f"    {explanation(line, size)}" for line in death.lines)


def room_lines(it: Played, replay: Replay) -> Iterator[str]:
    """When each limit and memory.high had no room first, and what was reclaimed of whom for it."""
    groups = replay.groups.values()
    found = [(group.first_without_room, group.path, "max", f"the limit of {group.path} first had no room, "
              f"{group.times_without_room} times in all") for group in groups if group.first_without_room is not None]
    found += [(group.first_over, group.path, "high", f"a charge first would have exceeded memory.high of {group.path}, "
               f"{group.times_over} in all; the usage was above it for {seconds_text(group.seconds_above)}")
              for group in groups if group.first_over is not None]
    for seconds, path, bound, line in sorted(found):
        yield ""
        yield f"{seconds_text(seconds)}: {line}"
        for (limit, kind, group), reclaim in sorted(replay.reclaims.items()):
            if (limit, kind) == (path, bound):
                yield (f"    {it.text(reclaim.frames)} of file pages of {group} were reclaimed for it, "
                       f"from {seconds_text(reclaim.first)} to {seconds_text(reclaim.last)}")


def life_lines(replay: Replay) -> Iterator[str]:
    """As what the killed restarted, and the groups that couldn't."""
    if replay.how.restart is None:
        return
    times, tracks = replay.usage.times, replay.usage.tracks
    for group in replay.groups.values():
        if group.starts:
            first = tracks[group.path].starts[:1]
            begins = ", ".join(f"{seconds_text(times[at])} ({'its first sample' if [at] == first else 'it restarted then'})"
                               for at in sorted(group.starts))
            yield f"{group.path} restarted {replay.how.restart.text()}, and grew as recorded from {begins} on"
        if group.times_away:
            yield (f"{group.path} was killed and stayed away for {group.times_away} samples, in which groups below it "
                   "lived: what it had of its own then isn't played")


def merged_lines(*replays: Replay) -> Iterator[str]:
    """What died and stands for others."""
    for path in merged_deaths(*replays):
        names = replays[0].usage.merged[path]
        yield (f"{path} stands for {len(names)} merged groups: {names_text(names, 64)}. Who of them would be killed isn't "
               "known; a greater --top says it")


def last_line(it: Played, replay: Replay) -> str:
    """What came of it."""
    spared = " that memory.min doesn't protect" if groups_with(it.usage, "min") else ""
    if not replay.deaths:
        refused = f"; {replay.refused} allocations were refused" if replay.refused else ""
        killed = f"; but the kernel killed {names_text([*it.usage.killed])} in the record: see above" if it.usage.killed else ""
        return (f"survived: no group died, and {it.text(replay.groups['/'].reclaimed)} of file pages were "
                f"reclaimed{refused}{killed}")
    first = replay.deaths[0]
    limit, asker = first.limit, first.asker
    why = f"{asker.path} asked for a frame" if asker else "it was written below the usage"
    after = ("; the dead stayed dead: --restart brings them back" if replay.how.restart is None else
             f"; {len(replay.deaths)} kills in all")
    stands = orders.stands_text(replay.usage.merged.get(first.group.path, []))
    return (f"died first: {first.group.path}{stands} at {seconds_text(first.seconds)}, by the limit of {limit.path}: "
            f"{why}, and no file page below {limit.path}{spared} was left to reclaim{after}")


def paragraph(lines: List[str]) -> Iterator[str]:
    """Lines after an empty one, if there are any."""
    yield from ([""] if lines else [])
    yield from lines


def report(it: Played, replay: Replay, differs: Optional[orders.Difference]) -> Iterator[str]:
    """The whole report, line by line."""
    wanted, deaths, is_restarted = greatest_wanted(it.usage), first_deaths(replay), replay.how.restart is not None
    kinds = [kind for kind in OF_SETTINGS if kind == "max" or groups_with(it.usage, kind)]
    columns = [*COLUMNS[:3], *[name for kind in kinds for name in OF_SETTINGS[kind]], *COLUMNS[3:-1],
               *(["kills"] if is_restarted else []), COLUMNS[-1]]
    yield f"{it.head()}; choices: {' '.join(replay.how.choices) or 'none'}"
    yield ""
    yield from table([columns, *(group_row(it, replay.groups[path], wanted[path], deaths.get(path), kinds, is_restarted)
                                 for path in by_tree(replay.groups))])
    yield from paragraph([*it.hidden, *margins.kernel_line(it.usage)])
    yield from room_lines(it, replay)
    yield from death_lines(replay.deaths, it.size)
    yield from paragraph([*life_lines(replay)])
    yield from paragraph([*merged_lines(replay)])
    yield from paragraph([*orders.lines(differs, it.size)])
    yield ""
    yield last_line(it, replay)


def group_object(it: Played, group: Group, wanted: int, replay: Replay, death: Optional[Death]) -> Dict[str, Any]:
    """A group as JSON has it."""
    times = replay.usage.times
    killed = it.usage.killed.get(group.path)
    return {"group": group.path, "wanted_bytes": wanted * it.size, "usage_bytes": group.peak * it.size,
            "limit_bytes": it.bytes_of(group.settings["max"]), "times_without_room": group.times_without_room,
            "first_without_room_seconds": group.first_without_room,
            **{f"{kind}_bytes": it.bytes_of(group.settings[kind]) for kind in ("high", "low", "min")},
            "times_over_high": group.times_over, "first_over_high_seconds": group.first_over,
            "seconds_above_high": group.seconds_above, "times_low_broken": group.times_broken,
            "read_bytes": group.read * it.size, "reclaimed_bytes": group.reclaimed * it.size, "kills": group.kills,
            "samples_away": group.times_away, "lives_from_seconds": [times[at] for at in sorted(group.starts)],
            "killed_while_recorded": killed.count if killed else 0,
            "is_at_least": censored.marked(it.usage, group.path), "merged": replay.usage.merged.get(group.path, []),
            "died_first_seconds": death and death.seconds, "died_first_by": death and death.limit.path}


def json_line(it: Played, replay: Replay, differs: Optional[orders.Difference], **more: int) -> str:
    """The same as one object on one line."""
    wanted, deaths, restart = greatest_wanted(it.usage), first_deaths(replay), replay.how.restart
    return json.dumps({
        **it.as_json(), **more, "choices": [*replay.how.choices], "restart_seconds": restart and restart.seconds,
        "is_backoff": bool(restart and restart.is_backoff),
        "survived": not replay.deaths, "times_refused": replay.refused,
        "reclaimed_bytes": replay.groups["/"].reclaimed * it.size,
        "groups": [group_object(it, replay.groups[path], wanted[path], replay, deaths.get(path))
                   for path in by_tree(replay.groups)],
        "kills": [{"seconds": death.seconds, "group": death.group.path, "limit": death.limit.path,
                   "asker": death.asker and death.asker.path} for death in replay.deaths],
        "reclaims": [{"limit": limit, "file": f"memory.{bound}", "group": group, "first_seconds": reclaim.first,
                      "last_seconds": reclaim.last, "bytes": reclaim.frames * it.size}
                     for (limit, bound, group), reclaim in sorted(replay.reclaims.items())],
        "reversed": orders.as_json(differs, it.size), "remarks": [*it.hidden, *margins.kernel_line(it.usage), *it.remarks]})
