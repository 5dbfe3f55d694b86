"""Limits as drop-ins of systemd."""
from __future__ import annotations

import shlex
from typing import Dict, Iterator

SECTIONS = {"service": "Service", "slice": "Slice", "scope": "Scope", "socket": "Socket", "mount": "Mount"}


def drop_in_lines(limits: Dict[str, int]) -> Iterator[str]:
    """Lines for a shell, which write a drop-in for each unit."""
    for path, limit in limits.items():
        unit = path.rpartition("/")[2]
        section = SECTIONS.get(unit.rpartition(".")[2])
        if section is None:
            yield f"# left out, since it is no unit: {path} {limit}"
            continue
        folder = shlex.quote(f"/etc/systemd/system/{unit}.d")
        yield f"mkdir -p {folder}"
        yield f"printf '[{section}]\\nMemoryMax={limit}\\n' > {folder}/50-whatif.conf"
    yield "systemctl daemon-reload"
