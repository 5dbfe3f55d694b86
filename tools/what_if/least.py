"""The least limits with which a recorded usage survives, or has few kills, and with which it keeps its file pages."""
from __future__ import annotations

import multiprocessing
import sys
from collections import Counter
from dataclasses import dataclass, replace
from typing import Callable, Dict, Iterable, List, Optional, Tuple

from . import orders
from .paths import path_up
from .replay import How, Replay, played
from .usage import Usage, greatest_wanted, only_below, with_settings


@dataclass(frozen=True)
class Least:
    """A group's least limits in frames: with which nothing dies, with at most the allowed kills (None: none are), and with
    which its file pages are kept too (None: no limit keeps them)."""
    group: str
    wanted: int
    survives: int
    few_kills: Optional[int]
    keeps: Optional[int]


@dataclass(frozen=True)
class Sought:
    """What is sought: the share of file pages that may be reclaimed, in percent (None: any); and kills of each limit, in each
    so many seconds (None: in the record)."""
    percent: Optional[float] = None
    kills: Optional[int] = None
    per: Optional[float] = None


@dataclass(frozen=True)
class Found:
    """The least limits of each group alone, limits with which all together are good enough, which of these were raised, and
    what the host lacks of what the groups have to have, all in frames; and what the groups in the reversed order do, if the
    limits don't suffice then."""
    least: List[Least]
    limits: Dict[str, int]
    raised: List[str]
    lacks: int
    differs: Optional[orders.Difference]


def survives(replay: Replay) -> bool:
    """Whether nothing died, and was refused nothing."""
    return not replay.deaths and not replay.refused


def reclaimed_share(replay: Replay, path: str) -> float:
    """How much of what a group and those below it read of files was reclaimed, in percent."""
    group = replay.groups[path]
    return 100 * group.reclaimed / max(1, group.read)


def needed(usage: Usage) -> Dict[str, int]:
    """Of each group the most anonymous frames below it, counted with the frame that is asked for: without memory.min a
    limit reclaims all else before it kills, so with one frame less something dies."""
    have = dict.fromkeys(usage.tracks, (0, 0))
    sums, most = dict.fromkeys(usage.tracks, 0), dict.fromkeys(usage.tracks, 0)
    ups = {path: [*path_up(path)] for path in usage.tracks}
    for at in range(len(usage.times)):
        grown = []
        for path, track in usage.tracks.items():
            anon, file = max(0, track.anon[at]), max(0, track.file[at])
            before_anon, before_file = have[path]
            if (anon, file) == (before_anon, before_file):
                continue
            have[path] = anon, file
            if anon < before_anon:
                for above in ups[path]:
                    sums[above] += anon - before_anon
            if anon > before_anon or file > before_file:
                grown.append((path, max(0, anon - before_anon), file > before_file))
        for path, more, is_read in grown:
            for above in ups[path]:
                sums[above] += more
                most[above] = max(most[above], sums[above] + is_read)
    return most


def bisect(too_little: int, enough: int, holds: Callable[[int], bool]) -> int:
    """The least amount that holds, between one that doesn't and one that does."""
    while enough - too_little > 1:
        middle = (enough + too_little) // 2
        if holds(middle):
            enough = middle
        else:
            too_little = middle
    return enough


class Search:
    """The search for limits of a usage in frames, without any limit but that of the host."""

    def __init__(self, usage: Usage, how: How, sought: Sought) -> None:
        self.how, self.sought = how, sought
        self.wanted, self.needed = greatest_wanted(usage), needed(usage)
        host = usage.host or 0
        self.base = played(usage, how, survives)
        # A host without room for all without any other limit is too small, and each is sought on one that is large enough.
        self.lacks = 0 if survives(self.base) else max(1, self.needed["/"] - host)
        if self.lacks:
            usage = replace(usage, host=max(host + self.lacks, self.wanted["/"]))
            self.base = played(usage, how, survives)
        self.usage = usage
        # While the host always has room, groups elsewhere don't matter to a limit.
        self.is_alone = self.base.groups["/"].times_without_room == 0

    def has_few_kills(self, replay: Replay) -> bool:
        """Whether each limit killed at most as often as is allowed."""
        begin, per = self.usage.times[0], self.sought.per
        kills = Counter((death.limit.path, (death.seconds - begin) // per if per else 0) for death in replay.deaths)
        return max(kills.values(), default=0) <= (self.sought.kills or 0)

    def keeps(self, replay: Replay, path: str) -> bool:
        """Whether nothing died, and not too much of the file pages below the group was reclaimed."""
        return survives(replay) and reclaimed_share(replay, path) <= (self.sought.percent or 0)

    def holds(self, path: str, limit: int, is_enough: Callable[[Replay], bool],
              is_hopeful: Callable[[Replay], bool] = survives) -> bool:
        """Whether a usage is good enough to its end with a limit at one group."""
        usage = only_below(self.usage, path) if self.is_alone else self.usage
        return is_enough(played(with_settings(usage, {"max": {path: limit}}), self.how, is_hopeful))

    def survival(self, path: str) -> int:
        """The least limit with which nothing dies: what is needed, as two plays show, or else it is sought."""
        def holds(limit: int) -> bool:
            return self.holds(path, limit, survives)

        guess = self.needed[path]
        if not holds(guess):
            return bisect(guess, self.wanted[path], holds)
        return guess if guess == 0 or not holds(guess - 1) else bisect(-1, guess - 1, holds)

    def keeping(self, path: str, fewest: int) -> Optional[int]:
        """The least limit that keeps the file pages too; None if there is none. Without a limit no usage was above the
        peak, so with the peak as the limit there is always room, and with less once there is none."""
        def holds(limit: int) -> bool:
            return self.holds(path, limit, lambda replay: self.keeps(replay, path))

        if self.is_alone and not self.sought.percent:
            return max(fewest, self.base.groups[path].peak)
        if not holds(self.wanted[path]):
            return None
        return fewest if holds(fewest) else bisect(fewest, self.wanted[path], holds)

    def least(self, path: str) -> Least:
        """The least limits of a group, while no other has one."""
        fewest, few = self.survival(path), None
        if self.sought.kills is not None:
            few = bisect(-1, fewest, lambda limit: self.holds(path, limit, self.has_few_kills, self.has_few_kills))
        return Least(path, self.wanted[path], fewest, few, self.keeping(path, fewest))

    def limit_of(self, least: Least) -> Optional[int]:
        """The one of a group's least limits that is sought."""
        if self.sought.percent is not None:
            return least.keeps
        return least.survives if least.few_kills is None else least.few_kills

    def is_enough(self, replay: Replay, limits: Iterable[str]) -> bool:
        """Whether the limits of these groups are good enough."""
        if self.sought.percent is not None:
            return all(self.keeps(replay, path) for path in limits)
        return survives(replay) if self.sought.kills is None else self.has_few_kills(replay)

    def together(self, limits: Dict[str, int]) -> Tuple[Dict[str, int], Replay]:
        """The limits, raised until all of them together are good enough, and the replay with them."""
        hopeful = survives if self.sought.kills is None else self.has_few_kills
        while True:
            replay = played(with_settings(self.usage, {"max": {**limits}}), self.how, hopeful)
            short = [path for path in limits if replay.groups[path].times_without_room and limits[path] < self.wanted[path]]
            if self.is_enough(replay, limits) or not short:
                return limits, replay
            raised = {path: limits[path] + max(1, limits[path] // 64) for path in short}
            limits = {**limits, **{path: min(limit, self.wanted[path]) for path, limit in raised.items()}}


# Of a process that seeks for groups. What is to be sought is there before it is parted from the first one.
SEARCHES: List[Search] = []


def least_of(path: str) -> Least:
    """The least limits of a group, in a process of its own."""
    return SEARCHES[0].least(path)


def show_progress(done: int, count: int) -> None:
    """A bar on a terminal."""
    if sys.stderr.isatty():
        bar = "#" * (40 * done // count)
        end = "\r\033[K" if done == count else ""
        sys.stderr.write(f"\r[{bar:<40}] {done} of {count} groups{end}")
        sys.stderr.flush()


def each_least(search: Search, groups: List[str], jobs: int) -> Iterable[Least]:
    """The least limits of each of these groups, of so many at a time."""
    SEARCHES[:] = [search]
    try:
        pool = multiprocessing.get_context("fork").Pool(min(jobs, len(groups))) if jobs > 1 and len(groups) > 1 else None
    except OSError:  # a host without /dev/shm has no semaphores
        pool = None
    if pool is None:
        yield from map(search.least, groups)
        return
    with pool:
        yield from pool.imap(least_of, groups)


def find(usage: Usage, how: How, groups: List[str], sought: Sought, jobs: int) -> Found:
    """The least limits of each of these groups, and limits with which all together are good enough."""
    search, found = Search(usage, how, sought), []
    for least in each_least(search, groups, jobs):
        found.append(least)
        show_progress(len(found), len(groups) + 1)
    alone = {least.group: limit for least in found for limit in [search.limit_of(least)] if limit is not None}
    limits, replay = search.together(alone)
    differs = orders.difference(replay, lambda other: search.is_enough(other, limits))
    show_progress(1, 1)
    return Found(found, limits, [path for path in limits if limits[path] > alone[path]], search.lacks, differs)
