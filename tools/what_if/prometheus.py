"""The JSON of a range query of Prometheus, read series by series: a day of a node has 76 MiB."""
from __future__ import annotations

import json
import math
import re
from array import array
from typing import Any, Dict, Iterator, List, Optional, TextIO

from .amounts import Fault, Note, names_text
from .files import open_text
from .series import Series, kind_of, read_time

PART = 1 << 20
KIND = r'"resultType"\s*:\s*"(\w*)"'
NO_ANSWER = "this is no answer of a range query: /api/v1/query_range gives one, with resultType matrix"


class Text:
    """A text that is read in parts, and values of JSON in it."""

    def __init__(self, file: TextIO) -> None:
        self.file, self.text, self.at = file, "", 0
        self.decoder = json.JSONDecoder()

    def more(self) -> bool:
        """Reads one part more. Whether there was one."""
        part = self.file.read(PART)
        self.text, self.at = self.text[self.at:] + part, 0
        return bool(part)

    def upto(self, form: str) -> Optional[str]:
        """What comes before the next text of this form, which is left behind; None if there is none."""
        while True:
            found = re.compile(form).search(self.text, self.at)
            if found and (found.end() < len(self.text) or not self.more()):
                before, self.at = self.text[self.at:found.start()], found.end()
                return before
            if not found and not self.more():
                return None

    def skip(self, marks: str) -> str:
        """The next letter that isn't one of these."""
        while True:
            while self.at < len(self.text) and self.text[self.at] in marks:
                self.at += 1
            if self.at < len(self.text) or not self.more():
                return self.text[self.at:self.at + 1]

    def value(self) -> Any:
        """The value that begins here."""
        while True:
            try:
                value, end = self.decoder.raw_decode(self.text, self.at)
                if end < len(self.text) or not self.more():
                    self.at = end
                    return value
            except ValueError:
                if not self.more():
                    raise


def results(path: str, note: Note) -> Iterator[Any]:
    """The series of an answer, one after the other, after what is said beside them."""
    with open_text(path) as file:
        text = Text(file)
        try:
            if text.skip(" \t\r\n") != "{":
                text.value()
                raise Fault(f"{path}: {NO_ANSWER}")
            head = text.upto(r'"result"\s*:\s*(?=\[)')
            if head is None:
                text.at = 0
                check_whole(path, text.value())
                return
            kind = re.search(KIND, head)
            if kind:
                check_whole(path, {"data": {"resultType": kind[1]}})
            text.at += 1
            while text.skip(" \t\r\n,") not in ("]", ""):
                yield text.value()
            while text.more():
                pass
            rest = text.text[text.at + 1:]
        except ValueError as fault:
            raise Fault(f"{path}: this is no JSON: {fault}") from None
        kind = kind or re.search(KIND, rest)
        check_whole(path, {"data": {"resultType": kind[1] if kind else None}})
        warn(path, f"{head}\"result\": []{rest}", note)


def check_whole(path: str, whole: Any) -> None:
    """Refuses an answer of an error, or of another query."""
    data = whole.get("data", whole) if isinstance(whole, dict) else {}
    if isinstance(whole, dict) and whole.get("status") == "error":
        raise Fault(f"{path}: Prometheus answered: {whole.get('error')}")
    if not isinstance(data, dict) or data.get("resultType") != "matrix":
        raise Fault(f"{path}: {NO_ANSWER}")


def warn(path: str, around: str, note: Note) -> None:
    """What Prometheus warned of, such as a part that is lacking. `around` is the answer without its series."""
    try:
        whole = json.loads(around)
    except ValueError as fault:
        raise Fault(f"{path}: this is no JSON: {fault}") from None
    said = [str(line) for line in [*(whole.get("warnings") or []), *(whole.get("infos") or [])]]
    if whole.get("isPartial"):
        said.append("the answer is partial")
    if said:
        note(f"{path}: Prometheus warned, so series may be lacking: {names_text(said)}")


def read(path: str, given: Optional[str], note: Note) -> List[Series]:
    """The series of an answer, or of the part `data` of one. Those with the same times share them."""
    found: List[Series] = []
    times: Dict[bytes, "array[float]"] = {}
    for one in results(path, note):
        try:
            labels = {name: str(word) for name, word in one["metric"].items()}
            pairs = [(seconds, float(value)) for seconds, value in one["values"]]
        except (KeyError, TypeError, ValueError, AttributeError):
            raise Fault(f"{path}: a series lacks its labels or its pairs of a time and a value: {str(one)[:60]}") from None
        series = Series(kind_of(labels.get("__name__"), given), labels)
        for seconds, value in pairs:
            if math.isfinite(value):
                series.add(read_time(seconds), math.ceil(value))
        series.times = times.setdefault(series.times.tobytes(), series.times)
        found.append(series)
    return found
