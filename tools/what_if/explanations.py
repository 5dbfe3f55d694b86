"""What `--explain` says after the answer of a line: docs/MANUAL.md, "What a line reclaimed and killed"."""
from __future__ import annotations

import re
from dataclasses import dataclass
from typing import Dict

from .amounts import Fault

# Each kind of line, as a pattern of what follows its `# `. Two kinds begin with `reclaimed`.
FORMS = {kind: re.compile(form) for kind, form in (
    ("refused", r"refused \d+: .*"),
    ("limit", r"limit (?P<path>\S+) \d+ usage \d+ need (?P<need>\d+)"),
    ("high", r"high (?P<path>\S+) \d+ usage \d+ need (?P<need>\d+)"),
    ("zone", r"zone order \d+"),
    ("asked", r"asked (?P<path>\S+) \d+"),
    ("stock", r"stock \d+ bytes \d+ usage \d+"),
    ("reclaimed", r"reclaimed (?P<path>/\S*) (?P<first>\d+)(?:-(?P<last>\d+))?"),
    ("more", r"reclaimed \d+ more frames"),
    ("spared", r"spared (?P<path>\S+) usage \d+ min \d+ low \d+"),
    ("low", r"low (?P<path>\S+) usage \d+ min \d+ low \d+"),
    ("round", r"round \d+ tried \d+ missed \d+ returned \d+ bytes \d+ usage \d+"),
    ("oom", r"oom (?P<path>\S+)"),
    ("victim", r"victim (?P<path>\S+) frames \d+ of \d+ candidates(?:, next \S+ frames \d+)?"),
    ("group", r"group (?P<path>\S+) groups \d+"),
    ("killed", r"killed (?P<path>\S+) returned \d+ bytes \d+ pinned \d+ bytes \d+ usage \d+"))}


@dataclass(frozen=True)
class Line:
    """A line: its kind, the path in the zone that it names, if it names one, and the numbers that a replay needs."""
    kind: str
    path: str
    need: int
    frames: range


def read_line(line: str) -> Line:
    """A line of an explanation; refuses one that isn't known, since what it says would be lost."""
    word = line[2:].partition(" ")[0]
    for kind in ("reclaimed", "more") if word == "reclaimed" else (word,):
        found = FORMS[kind].fullmatch(line, 2) if kind in FORMS else None
        if found and line.startswith("# "):
            return made(kind, found.groupdict())
    raise Fault(f"memcg explained '{line}', which this whatif doesn't know: take both from one installation")


def made(kind: str, words: Dict[str, str]) -> Line:
    """A line of what its pattern found."""
    first, last = words.get("first"), words.get("last")
    frames = range(int(first), int(last or first) + 1) if first else range(0)
    return Line(kind, words.get("path", ""), int(words.get("need", 0)), frames)
