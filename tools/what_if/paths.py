"""Paths of groups. In the zone all groups are below /node, whose limit is the host's memory."""
from __future__ import annotations

from typing import Iterable, Iterator

from .amounts import Fault

NODE = "/node"
# Below /node, which takes a group itself, and 5 bytes and a name of each path.
MOST_NAMES, MOST_BYTES, MOST_GROUPS = 7, 507, 1022


def check_path(path: str) -> None:
    """Refuses what can't be a group below /node."""
    names = path.split("/")[1:]
    if path == "/":
        return
    if not path.startswith("/") or any(name in ("", ".", "..") or len(name) > 255 for name in names):
        raise Fault(f"'{path}' is no path: a path has names of 1 to 255 bytes, each after a /")
    if not all("!" <= byte <= "~" for byte in path):
        raise Fault(f"the path {ascii(path)} has a byte that isn't printable ASCII, or a space")
    if len(path) > MOST_BYTES:
        raise Fault(f"the path has {len(path)} bytes, and at most {MOST_BYTES} are possible")
    if len(names) > MOST_NAMES:
        raise Fault(f"the path has {len(names)} names, and at most {MOST_NAMES} are possible: leave out names at its "
                    "beginning, which all groups have")


def plain(name: str) -> str:
    """A name as a path may have it."""
    return "".join(byte if "!" <= byte <= "~" and byte not in "/," else "_" for byte in name) or "_"


def path_up(path: str) -> Iterator[str]:
    """The path and all above it, the root last."""
    while path != "/":
        yield path
        path = path.rpartition("/")[0] or "/"
    yield "/"


def is_below(path: str, above: str) -> bool:
    """Whether a path is another one or below it."""
    return above == "/" or path == above or path.startswith(above + "/")


def with_ancestors(paths: Iterable[str]) -> list[str]:
    """The paths in their order, each after all above it; the root first."""
    found = {"/": None}
    for path in paths:
        if path not in found:
            found.update(dict.fromkeys(reversed([*path_up(path)])))
    return [*found]


def by_tree(paths: Iterable[str]) -> list[str]:
    """The paths as a tree is written: each right before those below it."""
    return sorted(paths, key=lambda path: path.split("/"))


def to_node(path: str) -> str:
    """The path in the zone of a recorded group."""
    return NODE if path == "/" else NODE + path


def from_node(path: str) -> str:
    """The recorded group of a path in the zone."""
    return path[len(NODE):] or "/"
