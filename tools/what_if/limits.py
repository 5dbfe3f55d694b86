"""The file limits.txt: lines `GROUP VALUE`, `GROUP high|low|min VALUE` and `GROUP oom.group`, comments and empty lines."""
from __future__ import annotations

import difflib
from dataclasses import dataclass, field
from typing import Container, Iterable, List, Set

from .amounts import Fault, read_limit
from .files import open_text
from .usage import DEFAULTS, Given, setting_name

FORMS = "a line is GROUP VALUE, GROUP high|low|min VALUE or GROUP oom.group"


@dataclass
class Limits:
    """Of each setting its values in bytes by group, None for `max`; the groups with oom.group; and what is said of the
    lines whose groups weren't recorded."""
    given: Given = field(default_factory=lambda: {kind: {} for kind in DEFAULTS})
    flags: Set[str] = field(default_factory=set)
    unknown: List[str] = field(default_factory=list)


def unknown_group(group: str, groups: Iterable[str]) -> str:
    """What is said of a group that wasn't recorded, with the nearest one that was."""
    known = [name for name in groups if name != "/"]
    near = difflib.get_close_matches("/" + group.strip("/:"), known, 1)
    more = f"; did you mean {near[0]}?" if near else f"; recorded were {', '.join(known[:5])}{', ..' * (len(known) > 5)}"
    return f"no group {group} was recorded{more}"


def kind_of(words: List[str]) -> str:
    """The setting that a line gives; refuses a line of another form."""
    kind = words[1] if len(words) == 3 else "max"
    file, _, name = kind.partition(".")
    if file == "memory" and name in DEFAULTS:
        raise Fault(f"{FORMS}: write '{words[0]}{'' if name == 'max' else f' {name}'} {words[2]}'")
    if len(words) != 2 and (len(words) != 3 or kind not in DEFAULTS or kind == "max"):
        raise Fault(FORMS)
    return kind


def add_line(words: List[str], groups: Container[str], limits: Limits) -> None:
    """A line's setting or flag."""
    group, value, kind = words[0], words[-1], kind_of(words)
    if value == "oom.group" and kind == "max":
        limits.flags.add(group)
    elif group == "/":
        raise Fault(f"/ has no {setting_name(kind)}" if kind != "max" else "the limit of / is the host's memory: --host SIZE")
    elif group in limits.given[kind]:
        raise Fault(f"{group} has a second {setting_name(kind)}")
    elif difflib.get_close_matches(value, ["oom.group", "memory.oom.group"], 1):
        raise Fault(f"'{value}' is no amount; did you mean oom.group?")
    else:
        limits.given[kind][group] = read_limit(value)


def read_limits(path: str, groups: List[str], is_strict: bool) -> Limits:
    """What a file has of these groups. Lines of others are skipped, unless that is refused."""
    limits, known = Limits(), set(groups)
    with open_text(path) as lines:
        for number, line in enumerate(lines, 1):
            words = line.partition("#")[0].split()
            try:
                if not words:
                    continue
                add_line(words, known, limits)
                if words[0] not in known:
                    said = f"line {number}: {unknown_group(words[0], groups)}"
                    if is_strict:
                        raise Fault(said.partition(": ")[2])
                    limits.unknown.append(said)
            except Fault as fault:
                raise Fault(f"{path}: line {number}: {fault}") from None
    limits.given = {kind: {group: value for group, value in values.items() if group in known}
                    for kind, values in limits.given.items()}
    limits.flags &= known
    return limits


def skipped_line(path: str, limits: Limits) -> str:
    """What is said of lines that were skipped."""
    count = len(limits.unknown)
    return (f"{path}: {count} setting{'s' * (count > 1)} of groups that weren't recorded {'are' if count > 1 else 'is'} "
            f"skipped, {limits.unknown[0]}; --strict refuses")
