"""Makes a usage of what other tools recorded."""
from __future__ import annotations

import argparse
import datetime
from array import array
from dataclasses import dataclass, replace
from typing import Callable, Dict, Iterator, List, Optional, Tuple

from . import cgroupfs, grafana, prometheus, rows, signs
from .amounts import Fault, Note, read_amount
from .joining import join
from .prepare import filled, not_cumulative, read_names, renamed
from .series import KIND_NAMES, Series
from .usage_csv import usage_lines


@dataclass(frozen=True)
class Format:
    """The reader of a format, and whether a value counts all groups below."""
    read: Callable[[str, Optional[str], Note], List[Series]]
    is_cumulative: bool


FORMATS: Dict[str, Format] = {"prometheus": Format(prometheus.read, True), "grafana": Format(grafana.read, True),
                              "cgroupfs": Format(cgroupfs.read, True), "rows": Format(rows.read, False)}


def split_kind(word: str) -> Tuple[Optional[str], str]:
    """The kind and the file of a word KIND=FILE."""
    kind, _, path = word.partition("=")
    return (kind, path) if path and kind in KIND_NAMES else (None, word)


def read_series(options: argparse.Namespace, note: Note) -> List[Series]:
    """The series of all files, with the names of groups that are wanted."""
    series: List[Series] = []
    for kind, path in map(split_kind, options.files):
        try:
            series += FORMATS[options.format].read(path, kind, note)
        except Fault as fault:
            raise Fault(str(fault) if str(fault).startswith(path) else f"{path}: {fault}") from None
    rename = renamed(read_names(options.names))
    for one in series:
        if "path" in one.labels:
            one.labels = {**one.labels, "path": rename(one.labels["path"])}
    return series


def import_lines(options: argparse.Namespace, note: Note) -> Iterator[str]:
    """The lines of the usage of some files. They end with what they lack, so that each report of them can say it."""
    remarks: List[str] = []
    usage = join(read_series(options, remarks.append), remarks.append)
    begin = usage.times[0]
    usage = filled(replace(usage, times=array("d", [time - begin for time in usage.times])), None, remarks.append)
    usage = not_cumulative(usage, remarks.append) if FORMATS[options.format].is_cumulative else usage
    usage = replace(usage, host=read_amount(options.host) if options.host else usage.host, remarks=remarks)
    for remark in remarks:
        note(remark)
    for sign in signs.holes(usage):
        note(sign)
    day = datetime.datetime.fromtimestamp(begin, datetime.timezone.utc)
    note(f"{len(usage.tracks) - 1} groups, {len(usage.times)} samples; 0 s is {day:%Y-%m-%dT%H:%M:%SZ}"
         f"{'' if usage.host else '; the host has no memory: give --host SIZE here or to run'}")
    return usage_lines(usage)


def add_options(parser: argparse.ArgumentParser) -> None:
    """The options of the word `import`."""
    parser.add_argument("format", choices=FORMATS, help="what the files are: " + ", ".join(FORMATS))
    parser.add_argument("files", metavar="[KIND=]FILE", nargs="+",
                        help="files, each with its kind if the series in it have no name of a metric")
    parser.add_argument("--host", metavar="SIZE", help="the host's memory")
    parser.add_argument("--names", metavar="FILE", help="lines ID NAME, or the JSON of pods: names for long ids")
