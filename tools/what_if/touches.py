"""Which uses of file pages have to be sent before a reclaim. At each sample the newest half of a group's file pages is
used, oldest first, and their order matters to nobody until something is reclaimed."""
from __future__ import annotations

from dataclasses import dataclass
from typing import List, Tuple


@dataclass(frozen=True)
class Use:
    """The use of a group's pages from one place up to another, of those that are still there."""
    begin: int
    end: int


def add(uses: List[Use], count: int) -> None:
    """One more sample, of so many pages. Earlier uses of pages that two later ones use too are as none."""
    new, older = Use(count // 2, count), []
    while uses and uses[-1].end == count:
        older.append(uses.pop())
    kept, once, twice = [new], new.begin, count  # from these places on all pages are used once or twice later
    for use in older:
        if use.begin < twice:
            kept.append(use)
            once, twice = min(once, use.begin), max(once, use.begin)
    uses.extend(reversed(kept))


def cut(uses: List[Use], count: int) -> None:
    """Only so many pages are left: what will be at the same places later are others. The ends of uses never descend."""
    beyond = []
    while uses and uses[-1].end > count:
        beyond.append(uses.pop())
    uses.extend(Use(use.begin, count) for use in reversed(beyond) if use.begin < count)


def due(uses: List[Use], count: int) -> Tuple[List[int], List[int]]:
    """Of a group's pages, of which there are so many, the places of those that were used twice or more, and the places of
    all that were used, by their last use.

    Two uses make a page the newest active one, whatever it was; so more than two are as two, and only the order of the last
    ones counts.
    """
    times, parts = bytearray(count), []
    for use in reversed(uses):
        places = range(use.begin, use.end)
        parts.append([at for at in places if not times[at]])
        for at in places:
            if times[at] < 2:
                times[at] += 1
    order = [at for part in reversed(parts) for at in part]
    return [at for at in order if times[at] == 2], order
