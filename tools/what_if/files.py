"""Texts that are read: also if they are compressed by gzip, or begin with a byte order mark."""
from __future__ import annotations

import contextlib
import gzip
import io
import json
import zlib
from typing import Any, BinaryIO, Iterator, TextIO, cast

from .amounts import Fault


@contextlib.contextmanager
def open_text(path: str) -> Iterator[TextIO]:
    """The text of a file, line by line."""
    try:
        with open(path, "rb") as file:
            start = file.peek(4)[:4]
            if start[:2] in (b"\xff\xfe", b"\xfe\xff"):
                raise Fault(f"{path}: this is UTF-16: save it as UTF-8, or use iconv -f UTF-16 -t UTF-8")
            read = cast(BinaryIO, gzip.GzipFile(fileobj=file) if start[:2] == b"\x1f\x8b" else file)
            yield io.TextIOWrapper(read, encoding="utf-8-sig", errors="surrogateescape", newline="")
    except (OSError, EOFError, zlib.error) as fault:
        raise Fault(f"{path}: {getattr(fault, 'strerror', None) or fault}") from None


def read_json(path: str) -> Any:
    """What a file of JSON has."""
    with open_text(path) as text:
        try:
            return json.load(text)
        except ValueError as fault:
            raise Fault(f"{path}: this is no JSON: {fault}") from None
