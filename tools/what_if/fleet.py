"""The sum of many runs, of the lines that `run --json` writes; and two of them side by side."""
from __future__ import annotations

import json
from dataclasses import dataclass
from typing import Any, Callable, Dict, Iterator, List, Optional

from .amounts import Fault, amount_text, path_text, seconds_text
from .files import open_text
from .orders import stands_text
from .paths import by_tree
from .report import table

COLUMNS = ["usage", "groups", "samples", "reclaimed", "kills", "died first"]
# What two runs have alike, if only their limits are others.
UNLIKE = ["usage", "samples", "frame_bytes", "choices", "restart_seconds", "is_backoff"]
COMPARED = ["group", "limit", "then", "kills", "then", "kept file", "then", "reclaimed", "then", "died first"]


@dataclass(frozen=True)
class Run:
    """A line of `run --json`."""
    usage: str
    groups: int
    samples: int
    reclaimed: int
    kills: int
    first: str

    def cells(self) -> List[str]:
        """Its row."""
        return [self.usage, str(self.groups), str(self.samples), amount_text(self.reclaimed), str(self.kills), self.first]


def objects_of(path: str) -> Iterator[Dict[str, Any]]:
    """The runs in a file, a line each."""
    with open_text(path) as lines:
        for number, line in enumerate(lines, 1):
            try:
                run: Dict[str, Any] = json.loads(line)
                run["kills"] = sorted(run["kills"], key=lambda kill: float(kill["seconds"]))
                if not isinstance(run["groups"], list):
                    raise TypeError
            except (ValueError, KeyError, TypeError):
                raise Fault(f"{path}: line {number}: this is no line of run --json") from None
            yield run


def of_runs(lines: Callable[[List[str]], Iterator[str]], paths: List[str]) -> List[str]:
    """The lines about some files' runs; refuses runs of another form, such as those of an older whatif."""
    try:
        return [*lines(paths)]
    except (AttributeError, KeyError, TypeError):
        raise Fault(f"{', '.join(paths)}: a line is no run --json of this whatif") from None


def first_of(run: Dict[str, Any]) -> str:
    """Who died first, and when."""
    first = next(iter(run["kills"]), None)
    if first is None:
        return "-"
    merged: List[str] = next((group.get("merged", []) for group in run["groups"] if group["group"] == first["group"]), [])
    return f"{path_text(first['group'])}{stands_text(merged)} at {seconds_text(first['seconds'])}"


def sum_lines(paths: List[str]) -> Iterator[str]:
    """A row for each run in which something died, those with the most kills first, and the sum of all runs."""
    runs = [Run(run["usage"], len(run["groups"]) - 1, run["samples"], run["reclaimed_bytes"], len(run["kills"]), first_of(run))
            for path in paths for run in objects_of(path)]
    died = sorted((run for run in runs if run.kills), key=lambda run: (-run.kills, run.usage))
    whole = Run(f"{len(runs)} records", sum(run.groups for run in runs), sum(run.samples for run in runs),
                sum(run.reclaimed for run in runs), sum(run.kills for run in runs), f"{len(died)} records")
    yield from table([COLUMNS, *(run.cells() for run in [*died, whole])])


# Two runs

def kept_text(group: Dict[str, Any]) -> str:
    """The share of what was read of files that reclaim didn't take."""
    return f"{100 - 100 * group['reclaimed_bytes'] / group['read_bytes']:.0f} %" if group["read_bytes"] else "-"


def limit_cell(group: Dict[str, Any]) -> str:
    """A group's last limit."""
    return "max" if group["limit_bytes"] is None else amount_text(group["limit_bytes"])


def pair(one: Optional[Dict[str, Any]], other: Optional[Dict[str, Any]]) -> List[str]:
    """A group's cells of two runs; a run that lacks it has none."""
    def cells(group: Optional[Dict[str, Any]]) -> List[str]:
        if group is None:
            return ["-"] * 4
        return [limit_cell(group), str(group["kills"]), kept_text(group), amount_text(group["reclaimed_bytes"])]

    def died(group: Optional[Dict[str, Any]]) -> str:
        found = group["died_first_seconds"] if group else None
        return "-" if found is None else seconds_text(found)

    both = [word for two in zip(cells(one), cells(other)) for word in two]
    return [*both, died(one) if died(one) == died(other) else f"{died(one)}, then {died(other)}"]


def only_run(path: str) -> Dict[str, Any]:
    """The one run in a file."""
    runs = [*objects_of(path)]
    if len(runs) != 1:
        raise Fault(f"{path}: one line of run --json is due, and there are {len(runs)}")
    return runs[0]


def compare_lines(paths: List[str]) -> Iterator[str]:
    """Two runs side by side: groups in which nothing differs are counted alone."""
    one, other = map(only_run, paths)
    for key in UNLIKE:
        if one.get(key) != other.get(key):
            yield f"warning: {key}: {json.dumps(one.get(key))}, then {json.dumps(other.get(key))}: not the limits alone differ"
    groups = [{group["group"]: group for group in run["groups"]} for run in (one, other)]
    rows, same = [], 0
    for path in by_tree({**groups[0], **groups[1]}):
        cells = pair(groups[0].get(path), groups[1].get(path))
        if path == "/" or any(cells[at] != cells[at + 1] for at in range(0, 8, 2)) or ", then " in cells[-1]:
            rows.append([path_text(path), *cells])
        else:
            same += 1
    yield from table([COMPARED, *rows])
    if same:
        yield f"{same} groups are alike in both"
    yield f"kills: {len(one['kills'])}, then {len(other['kills'])}; died first: {first_of(one)}, then {first_of(other)}"
