"""Series of other tools: the values of one kind, of what their labels name, over time."""
from __future__ import annotations

import datetime
import math
import re
from array import array
from collections import Counter
from dataclasses import dataclass, field
from typing import Any, Dict, Iterable, List, Optional, Set, Tuple

from .amounts import MOST, Fault, names_text
from .kubernetes import pod_path
from .paths import check_path, plain

# What cAdvisor, the kubelet and the node exporter call a kind.
KINDS = {"container_memory_rss": "rss", "container_memory_cache": "cache", "container_memory_usage_bytes": "usage",
         "container_memory_working_set_bytes": "working_set", "container_spec_memory_limit_bytes": "limit",
         "container_memory_total_active_file_bytes": "active_file",
         "container_memory_total_inactive_file_bytes": "inactive_file",
         "container_oom_events_total": "oom_kill", "container_memory_max_usage_bytes": "peak",
         "container_memory_kernel_usage": "kernel", "container_processes": "pids",
         "machine_memory_bytes": "host", "node_memory_MemTotal_bytes": "host"}
KIND_NAMES = ["rss", "cache", "usage", "working_set", "limit", "active_file", "inactive_file", "shmem", "kernel", "host",
              "oom_kill", "peak", "pids"]
# The kinds that are settings. From MAX on a number means `max`: version 1 writes such a limit if there is none.
SETTINGS, MAX = {"limit": "max", "high": "high", "low": "low", "min": "min"}, MOST
# The kinds that the kernel counts or keeps.
COUNTED = ("oom_kill", "peak", "pids")
UNITS = {"": 1, "B": 1,
         **{f"{unit}{end}": 1024 ** power for power, unit in enumerate("KMGTP", 1) for end in ("", "i", "iB")},
         **{f"{unit}B": 1000 ** power for power, unit in enumerate("kMGTP", 1)}}


@dataclass
class Series:
    """The values of a kind by their time, and what labels they have."""
    kind: str
    labels: Dict[str, str]
    times: "array[float]" = field(default_factory=lambda: array("d"))
    values: "array[int]" = field(default_factory=lambda: array("q"))

    def add(self, time: float, value: int) -> None:
        """A value."""
        if value < 0 or value >= MAX and self.kind not in SETTINGS:
            what = "memory isn't negative" if value < 0 else "no host has so much"
            raise Fault(f"{self.kind} of {', '.join(self.labels.values())} has the value {value}, and {what}")
        self.times.append(time)
        self.values.append(min(value, MAX))


def read_number(word: Any) -> Optional[int]:
    """The bytes of a number that may have a point, an exponent and a unit; None if it is none."""
    found = re.fullmatch(r"\s*(-?)([0-9.]+(?:[eE][+-]?[0-9]+)?)\s*([A-Za-z]*)\s*", str(word))
    try:
        number = math.ceil(float(found[2]) * UNITS[found[3]]) if found else None
    except (KeyError, ValueError, OverflowError):
        return None
    return -number if found and number and found[1] else number


def read_time(word: Any) -> float:
    """The seconds of a time: of a number, in milliseconds if it is a date in these, or of ISO 8601, in UTC if unsaid."""
    try:
        seconds = float(word)
        seconds = seconds / 1000 if seconds >= 1e11 else seconds
    except (TypeError, ValueError):
        seconds = iso_seconds(str(word).strip())
    if not 0 <= seconds < 1e11:
        raise Fault(f"'{word}' is no time: seconds, or as 2026-01-31T12:00:00Z")
    return seconds


def iso_seconds(word: str) -> float:
    """The seconds of a time of ISO 8601; -1 if it is none."""
    try:
        time = datetime.datetime.fromisoformat(re.sub(r"Z$", "+00:00", word))
    except ValueError:
        return -1.0
    return (time if time.tzinfo else time.replace(tzinfo=datetime.timezone.utc)).timestamp()


def kind_of(name: Optional[str], given: Optional[str]) -> str:
    """The kind of a series of this name; else the one that is given with the file."""
    kind = KINDS.get(name or "", given)
    if kind is None:
        what = f"the metric {name} isn't known" if name else "a series has no name of a metric"
        raise Fault(f"{what}: write KIND=FILE, and KIND is {', '.join(KIND_NAMES)}")
    return kind


def path_of(labels: Dict[str, str], twice: Set[str]) -> Optional[str]:
    """The group of a series: /POD/CONTAINER, /POD or the path that it names; None if it has none."""
    if "path" in labels:
        return "/" + "/".join(plain(name) for name in labels["path"].split("/") if name)
    pod = labels.get("pod") or labels.get("pod_name")
    if not pod:
        return None
    container = labels.get("container") or labels.get("container_name")
    names = [pod_path(labels.get("namespace"), pod, twice)[1:], container]
    return "/" + "/".join(plain(name) for name in names if name)


def check_nodes(series: Iterable[Series]) -> None:
    """Refuses the series of several nodes, which would be one host."""
    found: Dict[Tuple[str, str], Set[str]] = {}
    for one in series:
        for label in ("node", "instance"):
            if one.labels.get(label):
                found.setdefault((one.kind, label), set()).add(one.labels[label])
    for (kind, label), nodes in found.items():
        if len(nodes) > 1:
            names = sorted(nodes)
            raise Fault(f"{kind} has the {label}s {names_text(names)}, and one host is played: add a matcher to the query, "
                        f"such as {label}=\"{names[0]}\"")


def by_group(series: List[Series]) -> Tuple[Dict[str, Dict[str, Series]], int]:
    """Of each group the series of each kind, and how many series name no group. Of two of one group and kind the greater
    value holds at each time."""
    check_nodes(series)
    pods = {(one.labels.get("namespace"), one.labels.get("pod")) for one in series}
    twice = {pod for pod, count in Counter(pod for _, pod in pods).items() if count > 1 and pod}
    found: Dict[str, Dict[str, Series]] = {}
    left_out = 0
    for one in series:
        path = "/" if one.kind == "host" else path_of(one.labels, twice)
        if path is None:
            left_out += 1
            continue
        if path not in found:
            check_path(path)
        kinds = found.setdefault(path, {})
        kinds[one.kind] = greater(kinds[one.kind], one) if one.kind in kinds else one
    return {path: {kind: in_time(one) for kind, one in kinds.items()} for path, kinds in found.items()}, left_out


def greater(one: Series, other: Series) -> Series:
    """Two series of one kind and group as one. Snapshots have one value a series, in order: these are appended."""
    if one.times and other.times and one.times[-1] < other.times[0]:
        one.times.extend(other.times)
        one.values.extend(other.values)
        return one
    values = dict(zip(one.times, one.values))
    for time, value in zip(other.times, other.values):
        values[time] = max(value, values.get(time, 0))
    return Series(one.kind, one.labels, array("d", sorted(values)), array("q", [values[time] for time in sorted(values)]))


def in_time(one: Series) -> Series:
    """A series in the order of its times, each once."""
    if all(before < after for before, after in zip(one.times, one.times[1:])):
        return one
    values: Dict[float, int] = {}
    for time, value in zip(one.times, one.values):
        values[time] = max(value, values.get(time, 0))
    return Series(one.kind, one.labels, array("d", sorted(values)), array("q", [values[time] for time in sorted(values)]))
