"""A session with `memcg serve`, which answers each line before it reads the next one."""
from __future__ import annotations

import fcntl
import os
import shutil
import subprocess
from types import TracebackType
from typing import IO, List, Optional, Sequence, Type, cast

from .amounts import Fault

# What a pipe takes at least without its reader, and what is written at once if it takes that: so no line waits for one to
# be read while its reader waits for its answers to be.
LEAST_BYTES, MOST_BYTES = 4096, 60_000
# Linux's fcntl that says what a pipe takes; Python knows it from 3.10 on.
GET_PIPE_SIZE = 1032
# A script of `replay` has at most so many bytes.
MOST_SCRIPT = 1 << 20
# A zone has room for so many groups, with the root, if its options don't say.
USUAL_GROUPS = 64


def sizes(frames: int, groups: int) -> List[str]:
    """The options of a zone in which a group is charged for exactly the frames that it has: a stock has one page. A zone with
    room for more groups than the usual ones takes longer for each reclaim, so it has room for no more than these."""
    more = ["--groups", str(groups)] if groups > USUAL_GROUPS else []
    return ["--frames", str(frames), "--cpus", "1", "--stock", "1", *more]


def find_program(folders: Sequence[str]) -> str:
    """The program beside whatif, or in PATH."""
    beside = [f"{folder}/memcg" for folder in folders if os.access(f"{folder}/memcg", os.X_OK)]
    found = beside[0] if beside else shutil.which("memcg")
    if found is None:
        raise Fault("there is no memcg beside whatif or in PATH: --memcg PATH names it")
    return found


def pipe_bytes(file: IO[bytes]) -> int:
    """How many bytes may be written at once."""
    try:
        return max(LEAST_BYTES, min(MOST_BYTES, fcntl.fcntl(file, GET_PIPE_SIZE)))
    except OSError:
        return LEAST_BYTES


class Session:
    """A session. The lines are kept if they are to become a log."""

    def __init__(self, memcg: str, sizes: Sequence[str], choices: Sequence[str] = (), is_kept: bool = False) -> None:
        self.memcg, self.words, self.is_no_kill = memcg, [*sizes, *choices], "--no-kill" in choices
        self.script: Optional[List[str]] = [] if is_kept else None
        self.script_bytes = 0
        try:
            self.ran = subprocess.Popen([memcg, "serve", "--explain", *self.words], stdin=subprocess.PIPE,
                                        stdout=subprocess.PIPE, stderr=subprocess.PIPE, bufsize=0)
        except OSError as fault:
            raise Fault(f"{memcg}: {fault.strerror}: --memcg PATH names Tempolemon's memcg") from None
        self.pipes = tuple(cast(IO[bytes], pipe) for pipe in (self.ran.stdin, self.ran.stdout, self.ran.stderr))
        self.most = pipe_bytes(self.pipes[0])
        self.rest = b""
        self.told: List[str] = []

    def __enter__(self) -> Session:
        return self

    def __exit__(self, _: Optional[Type[BaseException]], __: Optional[BaseException], ___: Optional[TracebackType]) -> None:
        for pipe in self.pipes:
            pipe.close()
        self.ran.wait()

    def tell(self, lines: List[str]) -> None:
        """Lines whose answers nobody needs: they are sent before the next ones that are asked, which saves a wait."""
        self.told += lines

    def ask(self, lines: List[str]) -> List[str]:
        """The answers to lines in order."""
        if not lines:
            return []
        told, (self.told, lines) = len(self.told), ([], self.told + lines)
        if self.script is not None:
            self.script += lines
            self.script_bytes += sum(map(len, lines)) + len(lines)
        text, begin = ("\n".join(lines) + "\n").encode(), 0
        answers: List[str] = []
        while begin < len(text):
            end = text.rfind(b"\n", begin, begin + self.most) + 1
            answers += self.ask_part(text[begin:end])
            begin = end
        return answers[told:]

    def ask_part(self, part: bytes) -> List[str]:
        """The answers to a few lines, which the pipe takes at once."""
        lines, output, _ = self.pipes
        count = part.count(b"\n")
        try:
            lines.write(part)
            while self.rest.count(b"\n\n") < count:
                read = os.read(output.fileno(), 1 << 16)
                if not read:
                    raise BrokenPipeError
                self.rest += read
        except BrokenPipeError:
            raise Fault(self.reason()) from None
        *answers, self.rest = self.rest.split(b"\n\n", count)
        return b"\n\n".join(answers).decode(errors="replace").split("\n\n")

    def reason(self) -> str:
        """Why the session ended."""
        said = self.pipes[2].read().decode(errors="replace").strip().split("\n")[-1]
        if said.startswith("serve needs the proved program"):
            return "there is no proved ./memcg: run ./memcg prove"
        return (f"{self.memcg} serve ended: {said or f'status {self.ran.wait()}'}: is that Tempolemon's memcg? "
                "--memcg PATH names it")

    def flush(self) -> None:
        """The lines that wait are sent."""
        lines, self.told = self.told, []
        self.ask(lines)

    def comment(self, line: str) -> None:
        """A comment among the lines that are kept."""
        if self.script is not None:
            self.flush()
            self.script.append(line)
            self.script_bytes += len(line) + 1

    def is_too_long(self) -> bool:
        """Whether the lines that are kept are too many for a script."""
        return self.script_bytes > MOST_SCRIPT

    def log(self) -> str:
        """The log that `replay --steps` writes of the lines that were asked."""
        self.flush()
        script = "".join(f"{line}\n" for line in self.script or ())
        ran = subprocess.run([self.memcg, "replay", "--steps", *self.words], input=script,
                             stdout=subprocess.PIPE, stderr=subprocess.PIPE, universal_newlines=True, check=False)
        if ran.returncode != 0:
            raise Fault(f"{self.memcg} replay ended: {ran.stderr.strip()}")
        return ran.stdout
