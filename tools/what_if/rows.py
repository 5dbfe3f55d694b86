"""CSV files with a row for what a group has at a time: any order of rows and columns, and any form of numbers."""
from __future__ import annotations

import csv
from typing import Dict, List, Optional, Sequence, Tuple

from .amounts import NO_LIMIT, Fault, Note
from .files import open_text
from .series import COUNTED, MAX, SETTINGS, Series, read_number, read_time

COLUMNS = {"seconds": ("seconds", "time", "timestamp"), "group": ("group", "path", "pod", "name"), "anon": ("anon", "rss"),
           "file": ("file", "cache"), "limit": ("max", "limit"), "high": ("high",), "low": ("low",), "min": ("min",),
           "oom_kill": ("oom_kill",), "peak": ("peak",), "kernel": ("kernel",), "pids": ("pids",)}


def alternatives(words: Sequence[str]) -> str:
    """Words of which one is due."""
    return " or ".join(filter(None, [", ".join(words[:-1]), words[-1]]))


def places_of(titles: List[str]) -> Dict[str, int]:
    """Of each column where it is."""
    names = [title.strip().lower() for title in titles]
    places = {column: next((names.index(name) for name in known if name in names), None)
              for column, known in COLUMNS.items()}
    for column in ("seconds", "group", "anon"):
        if places[column] is None:
            raise Fault(f"no column is called {alternatives(COLUMNS[column])}")
    return {column: at for column, at in places.items() if at is not None}


def add_row(row: List[str], places: Dict[str, int], found: Dict[Tuple[str, str], Series]) -> None:
    """A row's values go to the series of its group."""
    seconds, group = read_time(row[places["seconds"]]), row[places["group"]]
    for kind in ("anon", "file", "kernel", *SETTINGS, *COUNTED):
        word = row[places[kind]].strip() if kind in places else ""
        number = MAX if kind in SETTINGS and word in NO_LIMIT else read_number(word)
        may_lack = kind not in ("anon", "file")
        if number is None and kind in places and not (may_lack and word == ""):
            raise Fault(f"'{word}' is no number of bytes")
        if number is not None and number < 0:
            raise Fault(f"{COLUMNS[kind][0]} is negative: {word}")
        is_host = group == "/" and kind == "limit"
        if number is not None and not (is_host and number == MAX):
            of = "host" if is_host else kind
            found.setdefault((of, group), Series(of, {"path": group})).add(seconds, number)


def read(path: str, _: Optional[str], note: Note) -> List[Series]:
    """The series of a file. What follows a # is a remark of an import that made it."""
    found: Dict[Tuple[str, str], Series] = {}
    with open_text(path) as lines:
        rows = csv.reader(lines)
        try:
            titles: List[str] = next(rows, [])
            places = places_of(titles)
            for row in rows:
                if row and row[0].startswith("#"):
                    note(",".join(row)[1:].strip())
                    continue
                if len(row) != len(titles):
                    raise Fault(f"{len(row)} values, and there are {len(titles)} columns")
                add_row(row, places, found)
        except (Fault, csv.Error) as fault:
            raise Fault(f"{path}: line {max(1, rows.line_num)}: {fault}") from None
    return [*found.values()]
