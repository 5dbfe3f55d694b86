"""The log of a replay for the page, with the seconds of the samples as comments. A record whose script is too long is played
from shortly before its first death on."""
from __future__ import annotations

import re
from array import array
from dataclasses import dataclass, replace
from typing import Iterator, List, Optional

from .amounts import Fault, Note, amount_text, seconds_text
from .replay import How, Replay, played, start
from .usage import DEFAULTS, Setting, Track, Usage, with_tracks

# How many samples come before the first death, if not all can: fewer if there is no room for these.
BEFORE = (20, 10, 5, 2, 1, 0)


def with_seconds(log: str, script: List[str]) -> Iterator[str]:
    """The log's lines, and before the first line of each sample its comment in the script."""
    comments = [(number, line) for number, line in enumerate(script, 1) if line.startswith("#")]
    for line in log.splitlines():
        found = re.match(r"# line (\d+): |# end$", line)
        while found and comments and (found[1] is None or comments[0][0] < int(found[1])):
            yield comments.pop(0)[1]
        yield line


@dataclass(frozen=True)
class Part:
    """The lines of a log, and the replay of what they are of."""
    lines: List[str]
    replay: Replay


def room(usage: Usage, how: How) -> int:
    """How many samples a log has room for."""
    with start(usage, how, is_kept=True) as session:
        replay = Replay(session, usage, how)
        for sample in range(len(usage.times)):
            replay.play(sample)
            session.flush()
            if session.is_too_long():
                return sample
        return len(usage.times)


def kept(usage: Usage, how: How, samples: int) -> Part:
    """The log of the first so many samples."""
    with start(usage, how, is_kept=True) as session:
        replay = Replay(session, usage, how)
        for sample in range(samples):
            replay.play(sample)
        return Part([*with_seconds(session.log(), session.script or [])], replay)


def since(usage: Usage, sample: int) -> Usage:
    """The record from a sample on, with the settings that hold then."""
    def cut(_: str, track: Track) -> Track:
        settings = {kind: [Setting(0, track.setting(kind, sample)),
                           *(Setting(one.at - sample, one.value) for one in values if one.at > sample)]
                    for kind, values in track.settings.items()}
        settings = {kind: [one for one in values if one.at or one.value != DEFAULTS[kind]]
                    for kind, values in settings.items()}
        return replace(track, anon=track.anon[sample:], file=track.file[sample:], settings=settings,
                       starts=sorted({max(0, start - sample) for start in track.starts}))

    return replace(with_tracks(usage, cut), times=array("d", usage.times[sample:]))


def first_moment(usage: Usage, how: How) -> int:
    """The sample of the first death, or else of the first limit without room, or else of the greatest usage."""
    replay = played(usage, how)
    if replay.deaths:
        return replay.deaths[0].sample
    first = min((group.first_without_room for group in replay.groups.values() if group.first_without_room is not None),
                default=None)
    if first is not None:
        return usage.times.index(first)
    return max(range(len(usage.times)), key=lambda at: sum(track.total(at) for track in usage.tracks.values()))


def part_of(usage: Usage, how: How, size: int, note: Note) -> Part:
    """The log, whole if it can be, and else from shortly before the first death on, for as many samples as there is room, at
    least up to that death. Its first comment says from when."""
    if room(usage, how) == len(usage.times):
        return kept(usage, how, len(usage.times))
    moment = first_moment(usage, how)
    for before in BEFORE:
        begin = max(0, moment - before)
        part = since(usage, begin)
        count = room(part, how)
        if begin + count > moment:
            note(f"the whole script is too long for a log, so this one is from {seconds_text(part.times[0])} to "
                 f"{seconds_text(part.times[count - 1])}, and begins with the groups, limits and usages of then")
            return kept(part, how, count)
    raise Fault(f"the script of one sample's log is too long, with frames of {amount_text(size)}: a greater --frame makes it "
                "shorter")
