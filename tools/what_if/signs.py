"""Signs that a usage or a limit has another unit than bytes and seconds, or rows of another meaning."""
from __future__ import annotations

from typing import Dict, Iterator

from .amounts import amount_text, seconds_text
from .paths import path_up
from .usage import DEFAULTS, LEAST_FRAMES, NONE, Usage, setting_name

MIB, DAY = 1 << 20, 86_400
# All that is recorded of a host has more than this, or the amounts may have another unit.
LITTLE = 4 * MIB
# Samples that lie apart by more than so many usual steps have a hole between them.
STEPS = 10


def step_of(usage: Usage) -> float:
    """The usual time between two samples."""
    steps = sorted(later - earlier for earlier, later in zip(usage.times, usage.times[1:])) or [0.0]
    return steps[len(steps) // 2]


def times(usage: Usage) -> Iterator[str]:
    """Signs of milliseconds: a date of the far future, or samples apart by a time that no day is made of."""
    step = round(step_of(usage))
    if usage.times[0] >= 1e11 or step >= 1000 and DAY % step:
        yield f"samples are {step} s apart, and the first one is at {usage.times[0]:.0f} s: are the times milliseconds?"


def holes(usage: Usage) -> Iterator[str]:
    """Times without any sample."""
    step = step_of(usage)
    found = [(later - earlier, earlier) for earlier, later in zip(usage.times, usage.times[1:])
             if later - earlier > STEPS * step]
    if found:
        span, begin = max(found)
        yield (f"no group has a sample for {seconds_text(span)} after {seconds_text(begin)}"
               f"{f', and for shorter times {len(found) - 1} times more' if len(found) > 1 else ''}: what happened then isn't "
               "known")


def amounts(usage: Usage, host: int) -> Iterator[str]:
    """Signs of KiB in place of bytes."""
    greatest = {path: track.most() for path, track in usage.tracks.items()}
    total = max(sum(track.total(at) for track in usage.tracks.values()) for at in range(len(usage.times)))
    is_odd = any(count % 4096 for track in usage.tracks.values() for kind in (track.anon, track.file)
                 for count in kind if count != NONE)
    above = [path for path, count in greatest.items() if count > host]
    if host < 16 * MIB:
        yield f"the host has only {amount_text(host)}: is that in KiB? --host SIZE is in bytes, or with a suffix"
    if above:
        yield f"{above[0]} has up to {amount_text(greatest[above[0]])}, and the host {amount_text(host)}: is one in KiB?"
    if total * 1024 < host and (is_odd or total < LITTLE):
        yield (f"all groups together never have more than {amount_text(total)} of {amount_text(host)}"
               f"{', and not whole pages' if is_odd else ''}: are these KiB or MiB? anon and file are bytes")


def small_settings(usage: Usage, size: int) -> Iterator[str]:
    """Settings below one frame, and limits of so few frames that rounding decides."""
    coarse = []
    for kind, default in DEFAULTS.items():
        for path, track in usage.tracks.items():
            value = track.settings[kind][-1].value if track.settings.get(kind) else default
            if value in (None, default) or value is None:
                continue
            if value < size:
                yield (f"the {setting_name(kind)} of {path}, {amount_text(value)}, is less than a frame of "
                       f"{amount_text(size)}: it counts as 0; a smaller --frame or another unit (300M) may be meant")
            elif kind in ("max", "high") and value < LEAST_FRAMES * size:
                coarse.append(f"the {setting_name(kind)} of {path} has {value // size}")
    if coarse and size > 4096:
        yield (f"a frame stands for {amount_text(size)}, so rounding may decide: {', '.join(coarse)} frames; a smaller "
               "--frame makes it exact")


def cumulative(usage: Usage) -> Iterator[str]:
    """Groups whose rows may count all below them: they are at least the sum of these at every sample."""
    seen: Dict[str, bool] = {}
    for at in range(len(usage.times)):
        below: Dict[str, int] = {}
        for path, track in usage.tracks.items():
            if track.anon[at] == NONE or path == "/":
                continue
            above = next((each for each in path_up(path) if each != path and usage.tracks[each].anon[at] != NONE), None)
            if above is not None:
                below[above] = below.get(above, 0) + track.total(at)
        for path, total in below.items():
            if total:
                seen[path] = seen.get(path, True) and usage.tracks[path].total(at) >= total
    found = sorted(path for path, is_so in seen.items() if is_so)
    if found:
        yield (f"the rows of {', '.join(found)} are at every sample at least the sum of those below: if they count these "
               "too, --cumulative is due")


def all_of(usage: Usage, host: int, size: int, is_cumulative: bool) -> Iterator[str]:
    """All signs."""
    yield from times(usage)
    yield from holes(usage)
    yield from amounts(usage, host)
    yield from small_settings(usage, size)
    if not is_cumulative:
        yield from cumulative(usage)
