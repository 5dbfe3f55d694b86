"""From a file and the options to what is played."""
from __future__ import annotations

import argparse
from dataclasses import dataclass, field, replace
from typing import Iterable, List, Set

from . import censored, prepare, signs
from .amounts import Fault, Note, amount_text, read_amount
from .limits import Limits, read_limits, skipped_line, unknown_group
from .lives import with_starts
from .paths import MOST_GROUPS
from .report import Played
from .usage import MOST_FRAMES, Usage, frame_size, in_frames, least_limit, with_kernel, with_settings
from .usage_csv import check_count, read_usage


@dataclass
class Loading:
    """A recorded usage in bytes on its way, with what is known of it."""
    options: argparse.Namespace
    name: str
    usage: Usage
    note: Note
    flags: Set[str] = field(default_factory=set)


def recorded(options: argparse.Namespace, path: str, note: Note) -> Usage:
    """The recorded usage, each row with what its group has of its own."""
    usage = read_usage(path, prepare.renamed(prepare.read_names(options.names)))
    for remark in usage.remarks:
        note(f"{path}: {remark}")
    usage = prepare.filled(usage, options.gap, note, "; with --gap 0 it has nothing then")
    return censored.with_killed(with_kernel(prepare.not_cumulative(usage, note) if options.cumulative else usage))


def read_given(options: argparse.Namespace, groups: List[str], note: Note) -> Limits:
    """What limits.txt gives."""
    if options.strict and not options.limits:
        raise Fault("--strict goes with --limits")
    limits = read_limits(options.limits, groups, options.strict) if options.limits else Limits()
    if limits.unknown:
        note(skipped_line(options.limits, limits))
    return limits


def load(options: argparse.Namespace, note: Note) -> Loading:
    """The recorded usage with the settings of limits.txt."""
    usage = recorded(options, options.usage, note)
    limits = read_given(options, usage.groups, note)
    loading = Loading(options, options.usage, with_settings(usage, limits.given), note, limits.flags)
    given = {path for values in limits.given.values() for path in values} | limits.flags
    return with_top(loading, given, "settings")


def with_top(loading: Loading, kept: Set[str], what: str) -> Loading:
    """The same with the groups that --top keeps; refuses to give up one of these."""
    top = loading.options.top
    if top is not None:
        if not 1 <= top <= MOST_GROUPS:
            raise Fault(f"--top is 1 to {MOST_GROUPS}")
        must = prepare.check_top(top, {path for path in kept if path in loading.usage.tracks}, what)
        loading.usage = prepare.keep_greatest(loading.usage, top, must, loading.note)
    return loading


def host_of(loading: Loading) -> int:
    """The host's memory."""
    host = read_amount(loading.options.host) if loading.options.host else loading.usage.host
    if host is None:
        raise Fault(f"{loading.name}: no row of / has the host's memory: --host SIZE is due")
    return host


def in_zone(loading: Loading, remarks: List[str]) -> Played:
    """The usage in frames, and what is to be known of it. A frame is small beside the least limit."""
    options, host = loading.options, host_of(loading)
    size = read_amount(options.frame) if options.frame else frame_size(host, least_limit(loading.usage))
    if size < 1 or not 0 < host // size <= MOST_FRAMES:
        raise Fault(f"the host has {amount_text(host)}, and a zone 1 to {MOST_FRAMES} frames: another --frame or "
                    "--host is due")
    check_count(loading.usage, loading.name)
    usage = replace(loading.usage, host=host)
    for sign in signs.all_of(usage, host, size, options.cumulative):
        loading.note(sign)
    played = in_frames(with_starts(censored.with_kills(usage, size)), size)
    return Played(loading.name, played, size, censored.lines(usage), remarks)


def check_groups(option: str, groups: Iterable[str], usage: Usage) -> None:
    """Refuses groups that weren't recorded, and the root."""
    for group in groups:
        if group not in usage.tracks or group == "/":
            raise Fault(f"{option}: {unknown_group(group, usage.tracks)}")
