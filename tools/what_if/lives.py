"""What a killed group does when it restarts: it begins anew, as its record began."""
from __future__ import annotations

from array import array
from bisect import bisect_right
from dataclasses import dataclass, replace
from typing import List

from .usage import NONE, Track, Usage, with_tracks

# The kubelet's back-off: seconds of the first wait, of the longest, and of a life after which it begins anew.
FIRST, LONGEST, CALM = 10.0, 300.0, 600.0
# A fall of anonymous memory to under one part of so many is a restart.
PARTS = 4


@dataclass(frozen=True)
class Restart:
    """When a killed group restarts: at the first sample so many seconds later; or after waits that double."""
    seconds: float
    is_backoff: bool = False

    def wait(self, kills: int) -> float:
        """How long it stays away after so many kills in a row."""
        return min(LONGEST, FIRST * 2.0 ** min(kills - 1, 9)) if self.is_backoff else self.seconds

    def text(self) -> str:
        """As a sentence names it."""
        return (f"after {FIRST:g} s, and twice as long each time up to {LONGEST:g} s" if self.is_backoff
                else f"at the first sample {self.seconds:g} s later" if self.seconds else "at the next sample")


@dataclass(frozen=True)
class Life:
    """A life that began so late in the replay, as the record was at a sample."""
    begin: float
    start: int

    def sample(self, times: "array[float]", seconds: float) -> int:
        """The sample of the record that this life has reached. A millisecond is rounding."""
        return max(self.start, bisect_right(times, times[self.start] + seconds - self.begin + 0.001) - 1)


def starts_of(track: Track) -> List[int]:
    """The first sample of a group, and those at which it began anew: with a fall to under a quarter."""
    there = [at for at, amount in enumerate(track.anon) if amount != NONE]
    return there[:1] + [at for before, at in zip(there, there[1:]) if track.anon[at] * PARTS < track.anon[before]]


def with_starts(usage: Usage) -> Usage:
    """The same with the samples at which each group's lives began."""
    return with_tracks(usage, lambda _, track: replace(track, starts=starts_of(track)))


def start_before(starts: List[int], sample: int) -> int:
    """The start of the life in which a sample lies."""
    return starts[max(0, bisect_right(starts, sample) - 1)] if starts else 0
