"""What `least` writes: a table in comments with the lines of limits.txt, one object, patches of pods or drop-ins of units."""
from __future__ import annotations

import json
from dataclasses import dataclass
from typing import Any, Dict, Iterator, List

from . import censored, margins, orders
from .amounts import amount_text, path_text
from .least import Found, Least
from .margins import PAGE, Margin
from .report import Played, table
from .usage import LEAST_FRAMES


@dataclass(frozen=True)
class Answer:
    """What was found of what was played, and the limits in bytes."""
    it: Played
    found: Found
    limits: Dict[str, int]
    margin: Margin


def in_bytes(it: Played, limits: Dict[str, int], margin: Margin) -> Dict[str, int]:
    """The limits in bytes: none below one that killed in the record."""
    least = censored.floors(it.usage)
    return {path: max(limit, least.get(path, 0))
            for path, limit in margins.with_margin(it.usage, it.size, limits, margin).items()}


def on_linux(it: Played, least: Least) -> int:
    """The least limit in bytes with which nothing dies under Linux."""
    return in_bytes(it, {least.group: least.survives}, margins.LINUX)[least.group]


def coarse(answer: Answer) -> Iterator[str]:
    """The limits of so few frames that rounding decides."""
    few = [path for path, limit in answer.found.limits.items() if 0 < limit < LEAST_FRAMES]
    if few and answer.it.size > PAGE:
        yield (f"limits of less than {LEAST_FRAMES} frames of {amount_text(answer.it.size)} are rounded up by up to one: {', '.join(few)}; "
               "a smaller --frame makes them exact")


def cells(answer: Answer, least: Least) -> List[str]:
    """A group's row."""
    it = answer.it
    few = [] if least.few_kills is None else [it.bytes_of(least.few_kills)]
    amounts = [it.bytes_of(least.wanted), it.bytes_of(least.survives), on_linux(it, least), *few, it.bytes_of(least.keeps)]
    mark = "at least " if censored.marked(it.usage, least.group) else ""
    return [path_text(least.group), *("-" if amount is None else mark + amount_text(amount) for amount in amounts)]


def remarks(answer: Answer) -> Iterator[str]:
    """What is to be known beside the table."""
    found = answer.found
    if found.lacks:
        yield (f"the host lacks {answer.it.text(found.lacks)}: with {answer.it.bound_text(answer.it.usage.host)} it kills, "
               "whatever the limits are; these are for a host that has that too")
    yield from answer.it.hidden
    yield from margins.linux_line(answer.it.usage)
    yield from coarse(answer)
    if found.raised:
        yield f"raised, so that all together are good enough: {', '.join(found.raised)}"
    yield from orders.lines(found.differs, answer.it.size)


def lines(answer: Answer) -> Iterator[str]:
    """The table in comments, and the lines of limits.txt."""
    has_few = any(least.few_kills is not None for least in answer.found.least)
    columns = ["group", "wanted", "survives", "on linux", *(["few kills"] if has_few else []), "keeps file"]
    yield from (f"# {line}" for line in table([columns, *(cells(answer, least) for least in answer.found.least)]))
    yield from (f"# {line}" for line in remarks(answer))
    yield from (f"{path} {limit}" for path, limit in answer.limits.items())


def json_line(answer: Answer) -> str:
    """The same as one object on one line."""
    it, found = answer.it, answer.found

    def of(least: Least) -> Dict[str, Any]:
        return {"group": least.group, "wanted_bytes": it.bytes_of(least.wanted), "survives_bytes": it.bytes_of(least.survives), "linux_bytes": on_linux(it, least),
                "few_kills_bytes": it.bytes_of(least.few_kills), "keeps_file_bytes": it.bytes_of(least.keeps),
                "is_at_least": censored.marked(it.usage, least.group), "limit_bytes": answer.limits.get(least.group)}

    percent = None if answer.margin == margins.LINUX else answer.margin
    return json.dumps({**it.as_json(), "margin_percent": percent, "raised": found.raised,
                       "lacks_bytes": it.bytes_of(found.lacks), "groups": [of(least) for least in found.least],
                       "reversed": orders.as_json(found.differs, it.size),
                       "remarks": [*it.hidden, *margins.linux_line(it.usage), *coarse(answer), *it.remarks]})
