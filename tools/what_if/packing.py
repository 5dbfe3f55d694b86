"""Several records below one host: who dies first, and the least host that kills nobody."""
from __future__ import annotations

import os
from array import array
from bisect import bisect_right
from dataclasses import replace
from typing import Dict, Iterator, List, Tuple

from .censored import with_killed
from .least import bisect, needed
from .paths import plain
from .replay import How, Replay, played
from .report import Played
from .usage import NONE, Setting, Track, Usage, greatest_wanted, usage_of


def names_of(paths: List[str]) -> List[str]:
    """A group's name for each record: that of its file, with a number if two have one."""
    names: List[str] = []
    for path in paths:
        name = plain(os.path.basename(path).partition(".")[0])
        names.append(name if name not in names else f"{name}-{len(names) + 1}")
    return names


def spread(track: Track, places: List[int]) -> Track:
    """A track at other samples: at each the row of one of its own (NONE: it has none then)."""
    def of(amounts: "array[int]") -> "array[int]":
        return array("q", [NONE if at == NONE else amounts[at] for at in places])

    def place(sample: int) -> int:
        return next((new for new, at in enumerate(places) if at >= sample), len(places) - 1)

    return replace(track, anon=of(track.anon), file=of(track.file), starts=[place(at) for at in track.starts],
                   oom_kills=[place(at) for at in track.oom_kills],
                   settings={kind: [Setting(place(one.at), one.value) for one in values]
                             for kind, values in track.settings.items()})


def packed(records: List[Tuple[str, Usage]], host: int) -> Usage:
    """All groups of some records below one host, from the first sample of each on. If two records have a group of one name,
    each record's are below a group of its own."""
    paths = [path for _, usage in records for path, track in usage.tracks.items() if path != "/" or track.most()]
    is_apart = len(set(paths)) == len(paths)
    begun = [array("d", [time - usage.times[0] for time in usage.times]) for _, usage in records]
    times = array("d", sorted({round(time, 3) for each in begun for time in each}))
    tracks: Dict[str, Track] = {}
    for name, (_, usage), own in zip(names_of([path for path, _ in records]), records, begun):
        places = [bisect_right(own, time + 0.0005) - 1 if time <= own[-1] + 0.0005 else NONE for time in times]
        for path, track in usage.tracks.items():
            if path == "/" and not track.most():
                continue
            into = path if is_apart else f"/{name}{path}".rstrip("/")
            tracks[into] = spread(track, places)
    return with_killed(usage_of(times, tracks, host))


def kills_nobody(replay: Replay) -> bool:
    """Whether the host killed nobody. Who dies by another limit would die anyway."""
    return not any(death.limit.path == "/" for death in replay.deaths)


def least_host(usage: Usage, how: How) -> int:
    """The least host that kills nobody, in frames."""
    def holds(frames: int) -> bool:
        return kills_nobody(played(replace(usage, host=frames), how, kills_nobody))

    guess, wanted = needed(usage)["/"], max(1, greatest_wanted(usage)["/"])
    if not holds(max(1, guess)):
        return bisect(guess, wanted, holds)
    return guess if guess <= 1 or not holds(guess - 1) else bisect(0, guess - 1, holds)


def last_lines(it: Played, least: int, records: List[Tuple[str, Usage]], alone: List[int]) -> Iterator[str]:
    """What the least host is, and what the records need alone."""
    each = ", ".join(f"{name} {it.text(frames)}" for (name, _), frames in zip(records, alone))
    yield f"the least host that kills nobody has {it.text(least)}; alone the records need {each}"
