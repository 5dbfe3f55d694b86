"""Amounts of memory, as words and as text."""
from __future__ import annotations

import re
from typing import Callable, Optional

SUFFIXES = " KMGTPE"
NO_LIMIT = ("max", "unlimited", "-1")
# What a table has of a path at most: its beginning, two points and its end.
WIDEST = 60
# No host has more bytes, so a number from here on is a mistake or means no limit.
MOST = 1 << 60
# Takes a line for standard error, of what is no fault but worth a look.
Note = Callable[[str], None]


class Fault(Exception):
    """A bad input; its text is the line that says so."""


def read_amount(word: str) -> int:
    """The bytes that a word such as 300M or 300Mi means. A small m is a thousandth, as in Kubernetes."""
    thousandths = re.fullmatch(r"([0-9]+)m", word)
    if thousandths:
        return within_reach(whole_bytes(int(thousandths[1]), word), word)
    found = re.fullmatch(r"([0-9]+)(?:([KMGTPE])(?:IB?)?)?", word.upper())
    if not found:
        raise Fault(f"'{word}' isn't an amount: a whole number of bytes, perhaps with K, M, G, T, P or E; "
                    "Mi means the same as M")
    return within_reach(int(found[1]) << 10 * (SUFFIXES.index(found[2]) if found[2] else 0), word)


def within_reach(count: int, word: str) -> int:
    """The bytes that a word means; refuses what no host has, and memcg may not take as a limit."""
    if count > MOST:
        raise Fault(f"'{word}' is more than any host has; a limit that there isn't is max")
    return count


def whole_bytes(thousandths: int, word: str) -> int:
    """The bytes of so many thousandths of one; refuses a part of a byte, which nobody means."""
    if thousandths % 1000:
        raise Fault(f"'{word}' is {thousandths / 1000:g} bytes: a small m is a thousandth in Kubernetes; "
                    f"{word[:-1]}M or {word[:-1]}Mi may be meant")
    return thousandths // 1000


def read_limit(word: str) -> Optional[int]:
    """The bytes of a limit, or None if there is none."""
    return None if word in NO_LIMIT else read_amount(word)


def amount_text(count: int) -> str:
    """An amount in the greatest unit of which there is one, with one digit after the point."""
    power = max(0, min(6, (count.bit_length() - 1) // 10))
    digits = f"{count / 1024 ** power:.1f}".replace(".0", "")
    return f"{digits} {SUFFIXES[power]}iB" if power else f"{count} B"


def limit_text(count: Optional[int]) -> str:
    """A limit as text."""
    return "max" if count is None else amount_text(count)


def seconds_text(seconds: float) -> str:
    """A time of a sample as text."""
    return f"{seconds:.3f}".rstrip("0").rstrip(".") + " s"


def path_text(path: str) -> str:
    """A path as a table shows it."""
    return path if len(path) <= WIDEST else f"{path[:18]}..{path[20 - WIDEST:]}"


def names_text(names: list[str], most: int = 5) -> str:
    """The first few of some names."""
    return f"{', '.join(names[:most])}{', ..' * (len(names) > most)}"
