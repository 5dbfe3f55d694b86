"""Each group's margin below its limit of today, the tightest first, and who dies if all limits are changed."""
from __future__ import annotations

import json
from dataclasses import dataclass
from typing import Any, Dict, Iterable, Iterator, List, Optional

from . import censored, orders
from .amounts import path_text, seconds_text
from .least import Least
from .margins import kernel_line
from .replay import How, Replay, played
from .report import Played, first_deaths, merged_lines, paragraph, table
from .usage import Given, Usage, with_settings

# By how many percent limits are changed, in the order of the columns.
CHANGES = (-10, 0, 10)


def limits_today(usage: Usage) -> Dict[str, int]:
    """The last limit of each group that has one."""
    found = {path: track.setting("max", len(usage.times)) for path, track in usage.tracks.items()}
    return {path: limit for path, limit in found.items() if limit is not None}


@dataclass(frozen=True)
class Margin:
    """A group's limit today, its least one, and when it dies first with each change of all limits (None: it doesn't); and
    when with the groups made in the reversed order."""
    group: str
    limit: int
    least: int
    deaths: List[Optional[float]]
    reversed_deaths: List[Optional[float]]

    @property
    def percent(self) -> float:
        """The least limit by that of today, in percent."""
        return 100 * self.least / max(1, self.limit)


def death_of(replay: Replay, path: str) -> Optional[float]:
    """When a group died first."""
    death = first_deaths(replay).get(path)
    return death.seconds if death else None


@dataclass(frozen=True)
class Found:
    """The margins, the tightest first, and the replays with each change of all limits, also in the reversed order."""
    margins: List[Margin]
    replays: List[Replay]


def find(usage: Usage, how: How, found: Iterable[Least]) -> Found:
    """The margins of the groups of which the least limits are known."""
    limits = limits_today(usage)
    replays = []
    for change in CHANGES:
        given: Given = {"max": {path: limit * (100 + change) // 100 for path, limit in limits.items()}}
        replays.append(played(with_settings(usage, given), how))
    others = [played(orders.reversed_usage(replay.usage), how) if orders.matters(replay) else replay for replay in replays]
    margins = [Margin(least.group, limits[least.group], least.survives, [death_of(replay, least.group) for replay in replays],
                      [death_of(other, least.group) for other in others]) for least in found]
    return Found(sorted(margins, key=lambda margin: (-margin.percent, margin.group)), [*replays, *others])


def change_text(change: int) -> str:
    """A change as a column's head."""
    return "dies today" if change == 0 else f"dies at {change:+d} %"


def order_lines(margins: List[Margin]) -> Iterator[str]:
    """The warning, if the order of the groups decides who dies."""
    for one in margins:
        for change, seconds, other in zip(CHANGES, one.deaths, one.reversed_deaths):
            if seconds != other:
                yield (f"warning: the order in which the record names the groups decides: in the reversed one "
                       f"{one.group} {change_text(change)} {orders.time_text(other)}, not {orders.time_text(seconds)}")


def lines(it: Played, found: Found, without: int) -> Iterator[str]:
    """The table, the tightest group first."""
    columns = ["group", "limit", "least", "share", *map(change_text, CHANGES)]
    rows = [[path_text(one.group), it.text(one.limit),
             ("at least " if censored.marked(it.usage, one.group) else "") + it.text(one.least), f"{one.percent:.0f} %",
             *("-" if seconds is None else seconds_text(seconds) for seconds in one.deaths)] for one in found.margins]
    yield it.head()
    yield ""
    yield from table([columns, *rows])
    yield from paragraph([*it.hidden, *kernel_line(it.usage)])
    yield from paragraph([*merged_lines(*found.replays)])
    yield from paragraph([*order_lines(found.margins)])
    yield ""
    short = sum(one.percent > 100 for one in found.margins)
    yield f"{short} of {len(found.margins)} groups need more than their limit; {without} groups have no limit"


def json_line(it: Played, found: Found) -> str:
    """The same as one object on one line."""
    def of(one: Margin) -> Dict[str, Any]:
        return {"group": one.group, "limit_bytes": it.bytes_of(one.limit), "least_bytes": it.bytes_of(one.least),
                "percent": round(one.percent, 1), "is_at_least": censored.marked(it.usage, one.group),
                **{key: {f"{change:+d}": seconds for change, seconds in zip(CHANGES, deaths)} for key, deaths in (
                    ("died_first_seconds", one.deaths), ("reversed_died_first_seconds", one.reversed_deaths))}}

    return json.dumps({**it.as_json(), "groups": [of(one) for one in found.margins],
                       "remarks": [*it.hidden, *kernel_line(it.usage), *merged_lines(*found.replays), *it.remarks]})
