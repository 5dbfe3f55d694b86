"""The words of the command line."""
from __future__ import annotations

import argparse
import subprocess
import sys
from typing import Any, Callable, Dict, List, NoReturn, Optional, Sequence, Type, Union

from . import VERSION, choices, importing, record
from .amounts import Fault
from .lives import Restart
from .margins import read_margin
from .session import find_program

ABOUT = {"record": "record the usage of groups or processes", "import": "make a usage of what other tools recorded",
         "limits": "make limits.txt of pods", "run": "play a usage under limits, and say who dies",
         "least": "find each group's least limit", "tight": "find each group's margin below its limit, the tightest first",
         "pack": "play several usages below one host", "compare": "write two runs side by side", "sum": "add up many runs"}


class Parser(argparse.ArgumentParser):
    """Options whose faults are one line."""

    def error(self, message: str) -> NoReturn:
        raise Fault(message)


def version_action(folders: Sequence[str]) -> Type[argparse.Action]:
    """What prints the version, and that of the program that is found."""
    class ShowVersion(argparse.Action):
        """The version."""

        def __call__(self, parser: argparse.ArgumentParser, namespace: argparse.Namespace,
                     values: Union[str, Sequence[Any], None], option_string: Optional[str] = None) -> None:
            print(f"whatif {VERSION}")
            try:
                program = find_program(folders)
                said = subprocess.run([program, "--version"], stdout=subprocess.PIPE, stderr=subprocess.STDOUT, timeout=60,
                                      universal_newlines=True, check=False).stdout.splitlines()
                print(f"plays by {program}: {', '.join(said)}")
            except (Fault, OSError, subprocess.TimeoutExpired) as fault:
                print(fault)
            sys.exit(0)

    return ShowVersion


def read_seconds(word: str) -> float:
    """A time: seconds, hour or day."""
    try:
        seconds = {"hour": 3600.0, "day": 86_400.0}.get(word) or float(word)
    except ValueError:
        seconds = -1.0
    if not 0 <= seconds < float("inf"):
        raise Fault(f"'{word}' is no time: seconds, hour or day")
    return seconds


def restart_of(options: argparse.Namespace) -> Optional[Restart]:
    """When the killed restart."""
    if options.backoff and options.restart:
        raise Fault("--backoff says when the killed restart, so --restart has no seconds beside it")
    return None if options.restart is None and not options.backoff else Restart(options.restart or 0.0, options.backoff)


def add_playing(parser: argparse.ArgumentParser) -> None:
    """The options of all words that play a usage."""
    parser.add_argument("--host", metavar="SIZE", help="the host's memory, in place of the recorded one")
    parser.add_argument("--frame", metavar="SIZE", help="the bytes that a frame stands for")
    parser.add_argument("--names", metavar="FILE", help="lines ID NAME, or the JSON of pods: names for long ids")
    parser.add_argument("--cumulative", action="store_true", help="a group's row counts all below it")
    parser.add_argument("--gap", metavar="S", type=read_seconds,
                        help="a group without a row keeps its last value for at most S seconds (any)")
    parser.add_argument("--memcg", metavar="PATH", help="the program, if it isn't the one beside or in PATH")
    choices.add_options(parser)


def add_common(parser: argparse.ArgumentParser) -> None:
    """The options of all words that play one usage."""
    parser.add_argument("usage", metavar="usage.csv")
    add_playing(parser)
    parser.add_argument("--top", metavar="N", type=int, help="keep N groups: those with settings, and the greatest")
    parser.add_argument("--restart", metavar="S", type=read_seconds, nargs="?", const=0.0,
                        help="a killed group restarts at the first sample at least S seconds later (0)")
    parser.add_argument("--backoff", action="store_true",
                        help="a killed group restarts after 10 s, and twice as long each time up to 5 minutes")


def add_limits(parser: argparse.ArgumentParser, about: str) -> None:
    """The options of settings that are given."""
    parser.add_argument("--limits", metavar="limits.txt", help=about)
    parser.add_argument("--strict", action="store_true", help="refuse settings of groups that weren't recorded")


def add_json(parser: argparse.ArgumentParser) -> None:
    """The option of words that write a report."""
    parser.add_argument("--json", action="store_true", help="write one line of JSON")


def add_jobs(parser: argparse.ArgumentParser) -> None:
    """The option of words that seek for many groups."""
    parser.add_argument("--jobs", metavar="N", type=int, help="seek for N groups at a time (as many as there are CPUs)")


def add_run(parser: argparse.ArgumentParser) -> None:
    """The options of `run`."""
    add_common(parser)
    choices.add_no_kill(parser)
    add_limits(parser, "lines GROUP VALUE, GROUP high|low|min VALUE and GROUP oom.group")
    parser.add_argument("--reread", action="store_true", help="reclaimed file pages are read again at the next sample")
    output = parser.add_mutually_exclusive_group()
    output.add_argument("--report", action="store_true", help="write the report, as without --log")
    output.add_argument("--json", action="store_true", help="write the report as one line of JSON")
    output.add_argument("--log", action="store_true", help="write a log of the steps, for the page")


def add_least(parser: argparse.ArgumentParser) -> None:
    """The options of `least`."""
    add_common(parser)
    choices.add_no_kill(parser)
    add_jobs(parser)
    parser.add_argument("--group", metavar="G", nargs="+", help="these groups alone")
    parser.add_argument("--min-for", metavar="G", help="find the least memory.min that keeps the file pages of this group")
    add_limits(parser, "settings, for --min-for")
    parser.add_argument("--keep-file", metavar="PERCENT", type=float,
                        help="the limits reclaim at most PERCENT of a group's file pages")
    parser.add_argument("--kills", metavar="N", type=int, help="each limit kills at most N times; with --restart or --backoff")
    parser.add_argument("--per", metavar="S", type=read_seconds, help="N kills in each S seconds, hour or day")
    parser.add_argument("--margin", metavar="PERCENT", type=read_margin,
                        help="the limits are so much greater; linux: by what Linux takes beyond the record (with --format)")
    parser.add_argument("--pods", metavar="pods.json", help="for --format k8s: what each change needs, by the JSON of pods")
    output = parser.add_mutually_exclusive_group()
    add_json(output)  # type: ignore[arg-type]
    output.add_argument("--format", choices=["k8s", "systemd"], help="write patches of pods, or drop-ins of units")


def add_tight(parser: argparse.ArgumentParser) -> None:
    """The options of `tight`."""
    add_common(parser)
    add_limits(parser, "limits, in place of the recorded ones")
    add_jobs(parser)
    add_json(parser)


def add_pack(parser: argparse.ArgumentParser) -> None:
    """The options of `pack`."""
    parser.add_argument("usages", metavar="usage.csv", nargs="+")
    add_playing(parser)
    add_limits(parser, "settings of the groups of all records")
    add_json(parser)


def add_of_pods(parser: argparse.ArgumentParser) -> None:
    """The options of `limits`."""
    parser.add_argument("pods", metavar="pods.json", help="what kubectl get pods -o json writes")
    parser.add_argument("--memory-qos", action="store_true", help="with memory.min and memory.high as MemoryQoS sets them")
    parser.add_argument("--node", metavar="SIZE", help="the node's allocatable memory, for lack of a limit")


def add_compare(parser: argparse.ArgumentParser) -> None:
    """The options of `compare`."""
    parser.add_argument("before", metavar="before.json", help="the line of a run --json")
    parser.add_argument("after", metavar="after.json", help="that of another one")


def add_sum(parser: argparse.ArgumentParser) -> None:
    """The options of `sum`."""
    parser.add_argument("runs", metavar="runs.jsonl", nargs="+", help="files of lines of run --json")


OPTIONS: Dict[str, Callable[[argparse.ArgumentParser], None]] = {
    "record": record.add_options, "import": importing.add_options, "limits": add_of_pods, "run": add_run, "least": add_least,
    "tight": add_tight, "pack": add_pack, "compare": add_compare, "sum": add_sum}


def parsed(words: List[str], folders: Sequence[str]) -> argparse.Namespace:
    """The options. `folders` are those in which the program may be."""
    parser = Parser(prog="whatif", description="Recorded memory usage under other limits: docs/WHAT_IF.md.")
    parser.add_argument("--version", action=version_action(folders), nargs=0, help="print the version, and that of memcg")
    kinds = parser.add_subparsers(metavar=" | ".join(OPTIONS), dest="word", parser_class=Parser)
    kinds.required = True
    for word, add in OPTIONS.items():
        add(kinds.add_parser(word, help=ABOUT[word]))
    return parser.parse_args(words)
