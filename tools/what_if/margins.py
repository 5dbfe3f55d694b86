"""What a limit gets beyond the least one: a percentage, or what Linux takes beyond what was recorded."""
from __future__ import annotations

from typing import Dict, Iterator, List, Union

from .amounts import Fault, amount_text, names_text
from .paths import is_below
from .usage import Track, Usage

PAGE = 4096
LINUX = "linux"
# A percentage, or the word linux.
Margin = Union[float, str]
# What was enough beside Linux 6.1 and 6.12, as docs/KERNEL.md shows: bytes a process, and thousandths of the limit and of the
# greatest file pages.
OF_PROCESS, OF_LIMIT, OF_FILES = 224 << 10, 3, 6
# If kernel memory was recorded: bytes, and thousandths of the file pages, since slabs for these are reclaimed late. Those for
# file pages that memory.min protects aren't reclaimed: beside a block device they were 3 %.
ALWAYS, OF_KNOWN_FILES, OF_PROTECTED = 192 << 10, 3, 30


def read_margin(word: str) -> Margin:
    """A margin as an option has it."""
    if word == LINUX:
        return word
    try:
        percent = float(word)
    except ValueError:
        percent = -1.0
    if not 0 <= percent < float("inf"):
        raise Fault("--margin is 0 or more, or linux")
    return percent


def with_percent(limits: Dict[str, int], size: int, percent: float) -> Dict[str, int]:
    """The limits in bytes with so many percent more, in whole pages."""
    return {path: limit * size + int(-(-limit * size * percent // (100 * PAGE))) * PAGE for path, limit in limits.items()}


def tracks_below(usage: Usage, path: str) -> List[Track]:
    """What has memory in a group or below it."""
    return [track for each, track in usage.tracks.items() if is_below(each, path) and track.most()]


def protected(usage: Usage, path: str) -> int:
    """The greatest file pages of the groups that have, or are below one that has, a memory.min which a group's limit keeps."""
    keeping = [each for each, track in usage.tracks.items()
               if is_below(each, path) and each != path and any(one.value != 0 for one in track.settings.get("min", []))]
    return sum(max(track.file) for each, track in usage.tracks.items()
               if track.most() and any(is_below(each, above) for above in keeping))


def for_linux(usage: Usage, size: int, path: str, limit: int) -> int:
    """A limit of frames of this size in bytes, with what Linux takes, in whole pages."""
    tracks = tracks_below(usage, path)
    files = sum(max(track.file) for track in tracks)
    lacking = [track for track in tracks if track.most_kernel is None]
    more, parts = ALWAYS, files * OF_KNOWN_FILES + protected(usage, path) * OF_PROTECTED
    if lacking:
        more, parts = OF_PROCESS * sum(track.pids or 1 for track in lacking), limit * OF_LIMIT + files * OF_FILES
    return limit * size + -(-(more + parts * size // 1000) // PAGE) * PAGE


def with_margin(usage: Usage, size: int, limits: Dict[str, int], margin: Margin) -> Dict[str, int]:
    """The limits in bytes with a margin."""
    if isinstance(margin, str):
        return {path: for_linux(usage, size, path, limit) for path, limit in limits.items()}
    return with_percent(limits, size, margin)


def unknown(usage: Usage) -> List[str]:
    """The groups with memory of which kernel memory wasn't recorded."""
    return [path for path, track in usage.tracks.items() if track.most() and track.most_kernel is None]


def kernel_line(usage: Usage) -> Iterator[str]:
    """Whose kernel memory isn't known."""
    if unknown(usage):
        yield f"kernel memory of {names_text(unknown(usage), 3)} wasn't recorded: Linux needs more"


def linux_line(usage: Usage) -> Iterator[str]:
    """What the margin for Linux has for lack of it."""
    if unknown(usage):
        which = "" if all(usage.tracks[path].pids for path in unknown(usage)) else " (one a group, if unrecorded)"
        yield (f"on linux: for kernel memory, {amount_text(OF_PROCESS)} a process{which}, {OF_LIMIT / 10:g} % of the limit and "
               f"{OF_FILES / 10:g} % of file pages")
