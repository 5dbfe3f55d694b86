"""CSV files of Grafana: a column for each series, or a row for each value."""
from __future__ import annotations

import csv
import re
from typing import Dict, List, Optional, Tuple

from .amounts import Fault, Note, names_text
from .files import open_text
from .series import Series, kind_of, read_number, read_time

# What a cell has if there is no value.
NO_VALUE = ("", "-", "nan", "null", "undefined")
TIMES, VALUES, NAMES = ("time", "timestamp"), ("value",), ("metric", "name", "__name__", "series")

Rows = List[List[str]]


def labels_of(title: str) -> Tuple[Optional[str], Dict[str, str]]:
    """The name of a metric and the labels in a column's title; else the title is a path."""
    found = re.fullmatch(r"\s*([\w:]*)\s*\{(.*)\}\s*", title)
    if not found:
        return None, {"path": title}
    return found[1] or None, dict(re.findall(r'(\w+)="?((?:[^",\\]|\\.)*)"?', found[2]))


def number_of(cell: str, unread: List[str]) -> Optional[int]:
    """The number of a cell; None if it has none, and then `unread` gets what it has in place of one."""
    number = read_number(cell)
    unread += [cell.strip()] * (number is None and cell.strip().lower() not in NO_VALUE)
    return number


def wide(rows: Rows, titles: List[str], given: Optional[str], unread: List[str]) -> List[Series]:
    """The series of columns. A cell without a number has no value."""
    found = []
    for at, title in enumerate(titles[1:], 1):
        name, labels = labels_of(title)
        series = Series(kind_of(name, given), labels)
        for row in rows:
            number = number_of(row[at], unread)
            if number is not None:
                series.add(read_time(row[0]), number)
        found.append(series)
    return found


def tall(rows: Rows, titles: List[str], given: Optional[str], unread: List[str]) -> List[Series]:
    """The series of rows with a time and a value each. The other columns are labels."""
    names = [title.lower() for title in titles]
    time, value = (next(at for at, name in enumerate(names) if name in known) for known in (TIMES, VALUES))
    found: Dict[Tuple[object, ...], Series] = {}
    for row in rows:
        labels = {name: cell for at, (name, cell) in enumerate(zip(names, row)) if at not in (time, value)}
        title = next((labels.pop(name) for name in NAMES if name in labels), None)
        metric, more = labels_of(title) if title and "{" in title else (title, {})
        labels.update(more)
        number = number_of(row[value], unread)
        if number is not None:
            key = (metric, *labels.items())
            if key not in found:
                found[key] = Series(kind_of(metric, given), labels)
            found[key].add(read_time(row[time]), number)
    return [*found.values()]


def read(path: str, given: Optional[str], note: Note) -> List[Series]:
    """The series of a file."""
    with open_text(path) as lines:
        first = lines.readline()
        separator = first[4] if first.startswith("sep=") else None
        titles_line = lines.readline() if separator else first
        separator = separator or (";" if titles_line.count(";") > titles_line.count(",") else ",")
        try:
            titles, *rows = csv.reader([titles_line, *lines], delimiter=separator)
        except (csv.Error, TypeError) as fault:
            raise Fault(f"{path}: {fault}") from None
    names = [title.lower() for title in titles]
    if not any(name in TIMES for name in names):
        raise Fault(f"{path}: no column is called Time")
    for number, row in enumerate(rows, 3 if first.startswith("sep=") else 2):
        if len(row) != len(titles):
            raise Fault(f"{path}: line {number}: {len(row)} values, and there are {len(titles)} columns")
    unread: List[str] = []
    found = (tall if any(name in VALUES for name in names) else wide)(rows, titles, given, unread)
    if unread:
        note(f"{path}: {len(unread)} cells are no numbers, and are left out: {names_text([*dict.fromkeys(unread)])}")
    return found
