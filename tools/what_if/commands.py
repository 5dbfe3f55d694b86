"""What each word does."""
from __future__ import annotations

import argparse
import os
import sys
from dataclasses import replace
from typing import Callable, Dict, Iterable, List, Sequence

from . import fleet, importing, kubernetes, least, least_min, least_report, loading, log, orders, packing, patches, record
from . import report, systemd, tight
from .amounts import Fault, names_text, read_amount
from .choices import words_of
from .margins import LINUX, linux_line
from .options import parsed, restart_of
from .replay import How, Replay, played
from .session import find_program
from .usage import in_frames, with_settings, without_limits

# The status if what was asked can't be said for sure.
UNSURE = 3


class Call:
    """A call: its options, the folders in which the program may be, and what is to be said after the output."""

    def __init__(self, options: argparse.Namespace, folders: Sequence[str]) -> None:
        self.options, self.folders = options, folders
        self.remarks: List[str] = []

    def note(self, line: str) -> None:
        """A line for standard error. A fault's line comes alone."""
        self.remarks.append(line)

    def how(self, it: report.Played, flags: Iterable[str] = ()) -> How:
        """How a usage is played."""
        options = self.options
        restart = restart_of(options) if "restart" in options else None
        return How(options.memcg or find_program(self.folders), words_of(options, it.size), frozenset(flags),
                   getattr(options, "reread", False), restart)

    def jobs(self) -> int:
        """How many programs play at a time."""
        jobs: int = self.options.jobs if self.options.jobs is not None else os.cpu_count() or 1
        if jobs < 1:
            raise Fault("--jobs is 1 or more")
        return jobs


def write_lines(lines: Iterable[str]) -> None:
    """Lines on standard output, by one call if it takes them, so that lines of many programs don't mix in a file."""
    text = "".join(f"{line}\n" for line in lines).encode(errors="surrogateescape")
    while text:
        text = text[os.write(1, text):]


def status_of(*replays: Replay) -> int:
    """The status, by whether somebody died who stands for others."""
    return UNSURE if report.merged_deaths(*replays) else 0


def run(call: Call) -> int:
    """Plays a usage, and writes its report or its log."""
    loaded = loading.load(call.options, call.note)
    it = loading.in_zone(loaded, call.remarks)
    how = call.how(it, loaded.flags)
    if call.options.log:
        part = log.part_of(it.usage, how, it.size, call.note)
        write_lines(part.lines)
        for line in report.merged_lines(part.replay):
            call.note(line)
        return status_of(part.replay)
    replay = played(it.usage, how)
    differs = orders.difference(replay)
    write_lines([report.json_line(it, replay, differs)] if call.options.json else report.report(it, replay, differs))
    return status_of(replay)


def check_least(options: argparse.Namespace) -> None:
    """Refuses options of `least` that don't go together."""
    if options.min_for is None and options.limits is not None:
        raise Fault("--limits goes with --min-for: without it, limits are what is sought")
    if options.min_for is not None and (options.group or options.format or options.kills is not None):
        raise Fault("--min-for goes with --limits, --keep-file, --restart, --margin and --json, and not with --group, "
                    "--kills or --format")
    if options.keep_file is not None and not 0 <= options.keep_file <= 100:
        raise Fault("--keep-file is 0 to 100")
    if options.margin is None:
        options.margin = LINUX if options.format else 0.0
    if options.min_for is not None and options.margin == LINUX:
        raise Fault("--margin linux is for limits, and --min-for finds a memory.min")
    if options.min_for is None and (options.kills is None) != (restart_of(options) is None):
        raise Fault("--kills and --restart go together: if the dead stayed dead, too few would be killed")
    if options.kills is not None and (options.kills < 0 or options.keep_file is not None):
        raise Fault("--kills isn't negative, and doesn't go with --keep-file")
    if options.per is not None and (options.kills is None or options.per == 0):
        raise Fault("--per is more than 0, and goes with --kills")
    if options.no_kill and (options.kills is not None or options.min_for is not None):
        raise Fault("--no-kill doesn't go with --kills or --min-for: nobody would be killed, and what wasn't given isn't in them")
    if options.pods and options.format != "k8s":
        raise Fault("--pods goes with --format k8s")


def find_least_min(call: Call) -> int:
    """Writes the least memory.min of a group."""
    options = call.options
    usage = loading.recorded(options, options.usage, call.note)
    loading.check_groups("--min-for", [options.min_for], usage)
    limits = loading.read_given(options, usage.groups, call.note)
    loaded = loading.Loading(options, options.usage, with_settings(usage, limits.given), call.note, limits.flags)
    kept = {path for values in limits.given.values() for path in values} | limits.flags | {options.min_for}
    it = loading.in_zone(loading.with_top(loaded, kept, "settings, or have been named by --min-for"), call.remarks)
    sought = least_min.Sought(options.min_for, options.keep_file or 0)
    found = least_min.find(it.usage, call.how(it, loaded.flags), sought)
    write_lines([least_min.json_line(it, found, sought, options.margin)] if options.json else
                least_min.lines(it, found, sought, options.margin))
    return status_of(found.after)


def find_least(call: Call) -> int:
    """Writes the least limits of a usage, or the least memory.min of one group."""
    options = call.options
    check_least(options)
    if options.min_for is not None:
        return find_least_min(call)
    usage = loading.recorded(options, options.usage, call.note)
    loading.check_groups("--group", options.group or [], usage)
    loaded = loading.Loading(options, options.usage, usage, call.note)
    loaded = loading.with_top(loaded, set(options.group or []), "been named by --group")
    it = loading.in_zone(loaded, call.remarks)
    it = replace(it, usage=without_limits(it.usage))
    groups = options.group or [path for path in it.usage.groups if path != "/"]
    sought, how = least.Sought(options.keep_file, options.kills, options.per), call.how(it)
    if it.usage.merged and options.kills is not None:
        call.note(f"of {names_text([*it.usage.merged])} merged groups would die one by one, so the kills aren't those of them")
    found = least.find(it.usage, how, groups, sought, call.jobs())
    limits = least_report.in_bytes(it, found.limits, options.margin)
    if options.format:
        for line in linux_line(it.usage) if options.margin == LINUX else ():
            call.note(line)
        write_lines(patches.patch_lines(limits, options.pods) if options.format == "k8s" else systemd.drop_in_lines(limits))
        return 0
    answer = least_report.Answer(it, found, limits, options.margin)
    write_lines([least_report.json_line(answer)] if options.json else least_report.lines(answer))
    return UNSURE if it.usage.merged and options.kills is not None else 0


def find_tight(call: Call) -> int:
    """Writes the margins of all groups that have a limit."""
    loaded = loading.load(call.options, call.note)
    it = loading.in_zone(loaded, call.remarks)
    how = call.how(it, loaded.flags)
    limits = tight.limits_today(it.usage)
    if not limits:
        raise Fault(f"{call.options.usage}: no group has a limit: --limits limits.txt gives some")
    search = least.Search(without_limits(it.usage), replace(how, restart=None), least.Sought())
    if search.lacks:
        call.note(f"the host lacks {it.text(search.lacks)} and kills whatever the limits are; the least limits are for one "
                  "that has that too")
    found = tight.find(it.usage, how, least.each_least(search, [*limits], call.jobs()))
    without = len(it.usage.tracks) - 1 - len(limits)
    write_lines([tight.json_line(it, found)] if call.options.json else tight.lines(it, found, without))
    return status_of(*found.replays)


def pack(call: Call) -> int:
    """Plays several records below one host."""
    options = call.options
    records = [(path, loading.recorded(options, path, call.note)) for path in options.usages]
    hosts = [usage.host for _, usage in records if usage.host is not None]
    if not options.host and not hosts:
        raise Fault("no record has the host's memory: --host SIZE is due")
    usage = packing.packed(records, read_amount(options.host) if options.host else hosts[0])
    limits = loading.read_given(options, usage.groups, call.note)
    loaded = loading.Loading(options, " + ".join(options.usages), with_settings(usage, limits.given), call.note, limits.flags)
    it = loading.in_zone(loaded, call.remarks)
    how = call.how(it, loaded.flags)
    replay = played(it.usage, how)
    alone = [least.needed(in_frames(one, it.size))["/"] for _, one in records]
    found = packing.least_host(it.usage, how)
    differs = orders.difference(replay)
    if options.json:
        write_lines([report.json_line(it, replay, differs, least_host_bytes=found * it.size)])
    else:
        write_lines([*report.report(it, replay, differs), *packing.last_lines(it, found, records, alone)])
    return 0


def import_usage(call: Call) -> int:
    """Writes the usage of files of other tools."""
    write_lines(importing.import_lines(call.options, call.note))
    return 0


def write_limits(call: Call) -> int:
    """Writes the limits of pods."""
    write_lines(kubernetes.limit_lines(call.options.pods, call.options.memory_qos, call.options.node))
    return 0


def compare(call: Call) -> int:
    """Writes two runs side by side."""
    write_lines(fleet.of_runs(fleet.compare_lines, [call.options.before, call.options.after]))
    return 0


def add_up(call: Call) -> int:
    """Writes the sum of many runs."""
    write_lines(fleet.of_runs(fleet.sum_lines, call.options.runs))
    return 0


def write_record(call: Call) -> int:
    """Records groups or processes."""
    record.record(call.options, call.note)
    return 0


WORDS: Dict[str, Callable[[Call], int]] = {
    "record": write_record, "import": import_usage, "limits": write_limits, "run": run, "least": find_least,
    "tight": find_tight, "pack": pack, "compare": compare, "sum": add_up}


def main(words: List[str], folders: Sequence[str]) -> None:
    """Does what the words say."""
    try:
        options = parsed(words, folders)
        call = Call(options, folders)
        status = WORDS[options.word](call)
        sys.stderr.write("".join(f"whatif: {line}\n" for line in call.remarks))
        sys.exit(status)
    except Fault as fault:
        line = str(fault).replace("\n", "\\n")  # of a file's cell
        print(f"whatif: {line}", file=sys.stderr)
        sys.exit(2)
    except BrokenPipeError:
        sys.exit(141)
    except KeyboardInterrupt:
        sys.exit(130)
