"""Whether an answer depends on the order in which the groups are made: they grow in it, and reclaim may go by it."""
from __future__ import annotations

from dataclasses import dataclass
from typing import Any, Callable, Dict, Iterator, List, Optional

from .amounts import amount_text, path_text, seconds_text
from .replay import Replay, played
from .usage import Usage, in_order

# So many groups that lose other amounts are named.
MOST = 10


@dataclass(frozen=True)
class Outcome:
    """What a replay did: who died first and when, how many were killed, when each group died first (None: it didn't), and
    what it lost, in frames."""
    died_first: Optional[str]
    kills: int
    deaths: Dict[str, Optional[float]]
    reclaimed: Dict[str, int]


@dataclass(frozen=True)
class Difference:
    """The outcomes of two orders, that of the record and the reversed one."""
    here: Outcome
    there: Outcome

    def losers(self) -> List[str]:
        """The groups that lose other amounts, first those with the greatest difference."""
        found = {path: abs(lost - self.there.reclaimed[path]) for path, lost in self.here.reclaimed.items()}
        return sorted((path for path in found if found[path]), key=lambda path: (-found[path], path))

    def others_dead(self) -> List[str]:
        """The groups that die at other times, or only in one order."""
        return [path for path, seconds in self.here.deaths.items() if seconds != self.there.deaths[path]]


def matters(replay: Replay) -> bool:
    """Whether the order may matter: it doesn't if every limit always had room, or of one group."""
    return len(replay.usage.tracks) > 2 and bool(replay.deaths or replay.reclaims or replay.refused)


def reversed_usage(usage: Usage) -> Usage:
    """The same with the groups in the reversed order, each after its parent."""
    return in_order(usage, reversed(usage.groups))


def stands_text(merged: List[str]) -> str:
    """What is said of a group that died, if others were merged into it."""
    return f" (for {len(merged)} merged groups, so it isn't known who)" if merged else ""


def outcome(replay: Replay) -> Outcome:
    """What a replay did."""
    first = next((f"{death.group.path}{stands_text(replay.usage.merged.get(death.group.path, []))} at "
                  f"{seconds_text(death.seconds)}" for death in replay.deaths), None)
    deaths: Dict[str, Optional[float]] = dict.fromkeys(sorted(replay.groups))
    deaths.update((death.group.path, death.seconds) for death in reversed(replay.deaths))
    return Outcome(first, len(replay.deaths), deaths, {path: group.reclaimed for path, group in replay.groups.items()})


def never(_: Replay) -> bool:
    """A replay isn't alike whatever came of it."""
    return False


def difference(replay: Replay, is_alike: Callable[[Replay], bool] = never) -> Optional[Difference]:
    """What the reversed order changes; None if that is nothing, or the other replay is as good."""
    if not matters(replay):
        return None
    other = played(reversed_usage(replay.usage), replay.how)
    found = Difference(outcome(replay), outcome(other))
    return None if is_alike(other) or found.here == found.there else found


def time_text(seconds: Optional[float]) -> str:
    """When a group dies."""
    return "never" if seconds is None else f"at {seconds_text(seconds)}"


def lines(found: Optional[Difference], size: int) -> Iterator[str]:
    """The warning of a report."""
    if found is None:
        return
    here, there, losers, others = found.here, found.there, found.losers(), found.others_dead()
    yield "warning: the order in which the record names the groups decides. With the groups made in the reversed order:"
    if (here.died_first, here.kills) != (there.died_first, there.kills):
        yield (f"    {there.died_first or 'nobody'} dies first, not {here.died_first or 'nobody'}; {there.kills} kills, not "
               f"{here.kills}")
    for path in others[:MOST]:
        yield f"    {path_text(path)} dies {time_text(there.deaths[path])}, not {time_text(here.deaths[path])}"
    if len(others) > MOST:
        yield f"    {len(others) - MOST} groups more die at other times"
    for path in losers[:MOST]:
        yield (f"    {path_text(path)} loses {amount_text(there.reclaimed[path] * size)} of file pages, not "
               f"{amount_text(here.reclaimed[path] * size)}")
    if len(losers) > MOST:
        yield f"    {len(losers) - MOST} groups more lose other amounts"


def as_json(found: Optional[Difference], size: int) -> Optional[Dict[str, Any]]:
    """The same as an object."""
    if found is None:
        return None
    there, groups = found.there, sorted({*found.losers(), *found.others_dead()})
    return {"died_first": there.died_first, "kills": there.kills, "groups": [
        {"group": path, "reclaimed_bytes": there.reclaimed[path] * size, "died_first_seconds": there.deaths[path]}
        for path in groups]}
