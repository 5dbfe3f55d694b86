"""A recorded usage, played in a zone of frames."""
from __future__ import annotations

from dataclasses import dataclass, field
from typing import Callable, Dict, FrozenSet, Iterable, List, Optional, Tuple

from . import touches
from .amounts import Fault, seconds_text
from .explanations import Line, read_line
from .lives import CALM, Life, Restart, start_before
from .paths import from_node, is_below, path_up, to_node
from .session import Session, sizes
from .usage import DEFAULTS, MOST_FRAMES, Usage

# The zone has more frames than the limit of /node, so that a CPU's list never leaves it empty: that would kill nobody.
SPARE = 16

# The order in which a sample's settings are written: a limit that falls reclaims only what isn't protected by then.
ORDER = ("min", "low", "max", "high")


@dataclass(frozen=True)
class How:
    """By which program a usage is played, and how: the choices of its zone, the groups with oom.group, whether reclaimed
    pages are read again, and when the killed restart."""
    memcg: str
    choices: Tuple[str, ...] = ()
    flags: FrozenSet[str] = frozenset()
    is_reread: bool = False
    restart: Optional[Restart] = None


@dataclass(eq=False)
class Group:
    """A group, with its recorded pages of each kind, oldest first: the frame of each, or None once it was freed."""
    path: str
    anon: List[Optional[int]] = field(default_factory=list)
    file: List[Optional[int]] = field(default_factory=list)
    settings: Dict[str, Optional[int]] = field(default_factory=lambda: dict(DEFAULTS))
    death: Optional[Death] = None
    life: Optional[Life] = None
    starts: List[int] = field(default_factory=list)  # the samples of the record with which lives began here
    kills: int = 0
    kills_in_row: int = 0
    times_without_room: int = 0
    first_without_room: Optional[float] = None
    # How many charges would have exceeded memory.high, when first, and for how long the usage was above it.
    times_over: int = 0
    first_over: Optional[float] = None
    seconds_above: float = 0.0
    times_broken: int = 0  # rounds that took pages which memory.low protects
    times_away: int = 0
    # How many file pages are there, which were used since uses were sent, and which were sent so that sending them again
    # would change nothing.
    there: int = 0
    uses: List[touches.Use] = field(default_factory=list)
    settled: Optional[List[int]] = None
    # With all groups below: what is used, at most was used, was reclaimed, and was read of files.
    usage: int = 0
    peak: int = 0
    reclaimed: int = 0
    read: int = 0

    @property
    def node(self) -> str:
        """Its path in the zone."""
        return to_node(self.path)

    def line_of(self, kind: str) -> str:
        """The line that writes a setting."""
        value = self.settings[kind]
        return f"1 write {self.node} memory.{kind} {'max' if value is None else 4096 * value}"

    def bounds(self) -> List[int]:
        """The limit and memory.high, if it has them."""
        return [bound for bound in (self.settings["max"], self.settings["high"]) if bound is not None]


@dataclass(frozen=True)
class Death:
    """When a group died, by which group's limit, which group then asked (None: a limit was written), and why."""
    seconds: float
    sample: int
    group: Group
    limit: Group
    asker: Optional[Group]
    lines: List[str]


@dataclass
class Reclaim:
    """What was reclaimed of a group for a limit or memory.high: from when to when, and how many frames."""
    first: float
    last: float
    frames: int = 0


@dataclass(frozen=True)
class Wish:
    """How many pages of each kind a group wants."""
    group: Group
    anon: int
    file: int

    @property
    def more_anon(self) -> int:
        """How many of anonymous memory it lacks."""
        return max(0, self.anon - len(self.group.anon))

    @property
    def more_file(self) -> int:
        """How many of files it lacks."""
        return max(0, self.file - len(self.group.file))


@dataclass(frozen=True)
class Change:
    """A setting of a group that changes at a sample."""
    kind: str
    group: Group
    value: Optional[int]


@dataclass
class Cause:
    """For which group's limit ("max") or memory.high ("high") something was reclaimed or killed, and who asked."""
    limit: Group
    bound: str
    asker: Optional[Group]


class Replay:
    """The groups while samples are played. All amounts are in frames."""

    def __init__(self, session: Session, usage: Usage, how: How) -> None:
        self.session, self.usage, self.how = session, usage, how
        self.groups = {path: Group(path) for path in usage.groups}
        self.ups = {path: [self.groups[above] for above in path_up(path)] for path in usage.groups}
        self.below = {path: [group for group in self.groups.values() if is_below(group.path, path)] for path in usage.groups}
        self.places: Dict[int, Tuple[Group, int]] = {}  # of each frame of a file's page: whose, and which of its pages it is
        self.deaths: List[Death] = []
        self.refused, self.seconds, self.sample = 0, usage.times[0], 0
        self.reclaims: Dict[Tuple[str, str, str], Reclaim] = {}  # of a limit's group, its kind and a group
        self.handlers: Dict[str, Callable[[Line, Cause, str], None]] = {
            "limit": self.on_limit, "high": self.on_high, "low": self.on_low, "round": self.on_round,
            "reclaimed": self.on_reclaimed, "more": self.on_more, "oom": self.on_oom, "killed": self.on_killed,
            **dict.fromkeys(("refused", "zone", "asked", "stock", "spared", "victim", "group"), lambda *_: None)}
        session.comment(f"# {seconds_text(self.seconds)}")
        self.make(self.groups.values(), "to a new group: is that Tempolemon's memcg? --memcg PATH names it")
        self.set(self.groups["/"], "max", usage.host)
        self.changes: Dict[int, List[Change]] = {}
        for path, track in usage.tracks.items():
            for kind, values in track.settings.items():
                for one in values:
                    self.changes.setdefault(one.at, []).append(Change(kind, self.groups[path], one.value))

    def play(self, sample: int) -> None:
        """A sample: settings that changed, then what became less, then what became more, then what is used."""
        seconds = self.usage.times[sample]
        self.count_above(seconds - self.seconds)
        self.seconds, self.sample = seconds, sample
        if sample > 0:
            self.session.comment(f"# {seconds_text(seconds)}")
        if self.how.restart is not None:
            self.revive(self.how.restart)
        changes = self.changes.get(sample, [])
        for kind in ORDER:
            for change in changes:
                if change.kind == kind:
                    self.set(change.group, kind, change.value)
        wishes = []
        for group in self.groups.values():
            anon, file = self.wanted(group)
            if anon < len(group.anon):
                self.fall(group, group.anon, anon)
            if file < len(group.file):
                self.fall(group, group.file, file)
            if not group.death:
                wishes.append(Wish(group, anon, file))
        self.grow(wishes)
        for group in self.groups.values():
            if group.there:
                touches.add(group.uses, group.there)

    def wanted(self, group: Group) -> Tuple[int, int]:
        """What a group wants at this sample: as recorded, or as recorded of the life that began anew."""
        track = self.usage.tracks[group.path]
        at = group.life.sample(self.usage.times, self.seconds) if group.life else self.sample
        return max(0, track.anon[at]), max(0, track.file[at])

    # What the program answers

    def note(self, answer: str, asker: Optional[Group]) -> None:
        """Takes over what the explanation of a line says."""
        if "\n" in answer:
            cause = Cause(self.groups["/"], "max", asker)
            for text in answer.split("\n")[1:]:
                line = read_line(text)
                self.handlers[line.kind](line, cause, answer)

    def on_limit(self, line: Line, cause: Cause, _: str) -> None:
        """A limit had no room."""
        group = cause.limit = self.groups[from_node(line.path)]
        cause.bound = "max"
        group.times_without_room += 1
        if group.first_without_room is None:
            group.first_without_room = self.seconds

    def on_high(self, line: Line, cause: Cause, _: str) -> None:
        """A charge would have exceeded memory.high, or it was written below the usage."""
        group = cause.limit = self.groups[from_node(line.path)]
        cause.bound = "high"
        if line.need:
            group.times_over += 1
            if group.first_over is None:
                group.first_over = self.seconds

    def on_low(self, line: Line, _: Cause, __: str) -> None:
        """A round took what memory.low protects."""
        self.groups[from_node(line.path)].times_broken += 1

    def on_round(self, *_: object) -> None:
        """A round made active pages inactive, perhaps: so a use may matter that didn't."""
        for group in self.groups.values():
            group.settled = None

    def on_reclaimed(self, line: Line, cause: Cause, _: str) -> None:
        """Frames were reclaimed."""
        self.lose(line.frames, cause)

    def on_more(self, _: Line, cause: Cause, __: str) -> None:
        """An explanation didn't name all frames that were reclaimed: the groups are asked for those that they have."""
        answers = self.session.ask([f"1 units {group.node}" for group in self.groups.values()])
        there = {int(line.split(" ")[0]) for answer in answers for line in answer.split("\n") if line != "none"}
        self.lose([frame for frame in self.places if frame not in there], cause)

    def on_oom(self, line: Line, cause: Cause, _: str) -> None:
        """A limit kills."""
        cause.limit = self.groups[from_node(line.path)]

    def on_killed(self, line: Line, cause: Cause, answer: str) -> None:
        """A group was killed."""
        self.bury(self.groups[from_node(line.path)], cause, answer)

    def count_above(self, seconds: float) -> None:
        """The groups whose usage is above memory.high were so for so long."""
        for group in self.groups.values():
            if group.settings["high"] is not None and group.usage > group.settings["high"]:
                group.seconds_above += seconds

    def lose(self, frames: Iterable[int], cause: Cause) -> None:
        """Frames of files' pages were reclaimed."""
        for frame in frames:
            group, at = self.places.pop(frame)
            group.file[at] = None
            group.there -= 1
            self.count(group, -1)
            for above in self.ups[group.path]:
                above.reclaimed += 1
            key = cause.limit.path, cause.bound, group.path
            reclaim = self.reclaims.setdefault(key, Reclaim(self.seconds, self.seconds))
            reclaim.last = self.seconds
            reclaim.frames += 1

    def bury(self, group: Group, cause: Cause, answer: str) -> None:
        """A group died, and what it had was freed. One that died for lack of its first page may be killed later too."""
        if group.death:
            return
        lines = [line for line in answer.split("\n")[1:] if not line.startswith("# refused ")]
        group.death = Death(self.seconds, self.sample, group, cause.limit, cause.asker, lines)
        group.kills += 1
        began = group.life.begin if group.life else self.usage.times[0]
        group.kills_in_row = 1 if self.seconds - began >= CALM else group.kills_in_row + 1
        self.deaths.append(group.death)
        for frame in group.file:
            if frame is not None:
                del self.places[frame]
        self.count(group, -sum(frame is not None for frame in group.anon + group.file))
        group.anon, group.file, group.there, group.uses, group.settled = [], [], 0, [], None

    def count(self, group: Group, frames: int) -> None:
        """A group and all above it use so many frames more."""
        for above in self.ups[group.path]:
            above.usage += frames
            if above.usage > above.peak:
                above.peak = above.usage

    # Groups that begin, and restart

    def make(self, groups: Iterable[Group], what: str) -> None:
        """Makes groups, and writes what they have of settings."""
        groups = [*groups]
        lines = [*(f"1 mkdir {group.node}" for group in groups),
                 *(f"1 write {group.node} memory.oom.group 1" for group in groups if group.path in self.how.flags),
                 *(group.line_of(kind) for kind in ORDER for group in groups if group.settings[kind] != DEFAULTS[kind])]
        for answer in self.session.ask(lines):
            if not (answer.startswith("group ") or answer == "ok"):
                raise Fault(f"{self.session.memcg} answered '{answer.partition(chr(10))[0]}' {what}")

    def revive(self, restart: Restart) -> None:
        """Killed groups whose time has come are made anew, each with all below it if nothing there lives."""
        for group in self.groups.values():
            if group.death and group.death.seconds + restart.wait(group.kills_in_row) <= self.seconds:
                if group.usage:
                    group.times_away += 1
                    continue
                anew = self.below[group.path]
                self.session.tell([f"1 rmdir {each.node}" for each in reversed(anew)])
                self.make(anew, f"to {group.path}, which restarted")
                self.begin_anew(group, group.death)

    def begin_anew(self, group: Group, death: Death) -> None:
        """A group begins a life, as its record began before it died."""
        times, starts = self.usage.times, self.usage.tracks[group.path].starts
        reached = group.life.sample(times, death.seconds) if group.life else death.sample
        group.life, group.death = Life(self.seconds, start_before(starts, reached)), None
        if group.life.start not in group.starts:
            group.starts.append(group.life.start)

    # What a sample asks for

    def set(self, group: Group, kind: str, value: Optional[int]) -> None:
        """A setting is written if it is another one."""
        if value != group.settings[kind]:
            group.settings[kind] = value
            if kind in ("max", "high"):
                self.send_touches(self.below[group.path])
            line = group.line_of(kind)
            answer = self.session.ask([line])[0]
            if answer.partition("\n")[0] != "ok":
                raise Fault(f"memcg answered '{answer.partition(chr(10))[0]}' to '{line}'")
            self.note(answer, None)

    def fall(self, group: Group, pages: List[Optional[int]], wanted: int) -> None:
        """The newest pages are released, until no more are there than wanted."""
        gone = [frame for frame in pages[wanted:] if frame is not None]
        del pages[wanted:]
        if pages is group.file:
            group.there -= len(gone)
            touches.cut(group.uses, group.there)
            for frame in gone:
                del self.places[frame]
        self.session.tell([f"1 release {frame}" for frame in reversed(gone)])
        self.count(group, -len(gone))

    def grow(self, wishes: List[Wish]) -> None:
        """Groups grow to so many pages of each kind: together if no limit or memory.high can lack room, and else one after the
        other."""
        growing, more = [], dict.fromkeys(self.groups, 0)
        for wish in wishes:
            self.forget_reclaimed(wish.group)
            lacks = wish.more_anon + wish.more_file
            if lacks:
                growing.append(wish)
                for above in self.ups[wish.group.path]:
                    more[above.path] += lacks
        short = [group for path, group in self.groups.items() if more[path]
                 and any(group.usage + more[path] > bound for bound in group.bounds())]
        if not short:
            self.grow_with_room(growing)
            return
        self.send_touches({id(each): each for group in short for each in self.below[group.path]}.values())
        for wish in wishes:
            self.forget_reclaimed(wish.group)
            self.grow_anon(wish.group, wish.more_anon)
            self.grow_file(wish.group, wish.more_file)

    def grow_with_room(self, wishes: List[Wish]) -> None:
        """Pages for which there is room, in the order in which single growths ask for them."""
        answers = self.session.ask([line for wish in wishes for line in
                                    [f"1 alloc {wish.group.node} 0"] * (wish.more_anon + wish.more_file)])
        frames = iter([self.frame_of(answer) for answer in answers])
        for wish in wishes:
            dirty, read = ([next(frames) for _ in range(count)] for count in (wish.more_anon, wish.more_file))
            wish.group.anon += dirty
            self.session.tell([f"1 dirty {frame}" for frame in dirty])
            self.add_file(wish.group, read)
            self.count(wish.group, len(dirty) + len(read))

    @staticmethod
    def frame_of(answer: str) -> int:
        """The frame of an allocation for which there was room."""
        if not answer.startswith("frame ") or "\n" in answer:
            raise Fault(f"memcg answered '{answer.partition(chr(10))[0]}' to an alloc with room")
        return int(answer[6:])

    def placed(self, group: Group, answer: str) -> Optional[int]:
        """The frame that an allocation was given; None if the group died."""
        self.note(answer, group)
        words = answer.partition("\n")[0].split(" ")
        if words[0] == "frame":
            self.count(group, 1)
            return int(words[1])
        if words[1] == "15" and self.session.is_no_kill:
            self.refused += 1
            return None  # the page isn't given, and nobody dies
        if words[1] == "15" and not group.death:
            # Nobody below the limit had anything that a kill could free. A task would die that can't have its page.
            self.bury(group, Cause(self.groups[from_node(words[3])], "max", group), answer)
        if not group.death:
            raise Fault(f"memcg answered '{answer.partition(chr(10))[0]}' to an alloc of {group.node}")
        return None

    def room(self, group: Group) -> int:
        """How many frames the group may have without any reclaim."""
        return min(bound - above.usage for above in self.ups[group.path] for bound in above.bounds())

    def grow_anon(self, group: Group, count: int) -> None:
        """So many pages more are allocated, and each is dirty before a line could reclaim it."""
        while count > 0 and not group.death:
            part = min(count, max(1, self.room(group)))
            answers = self.session.ask([f"1 alloc {group.node} 0"] * part)
            frames = [self.placed(group, answer) for answer in answers]
            given = [frame for frame in frames if frame is not None]
            group.anon += given
            self.session.tell([f"1 dirty {frame}" for frame in given])
            count = 0 if None in frames else count - part  # one more wouldn't be given either

    def grow_file(self, group: Group, count: int) -> None:
        """So many pages more are read."""
        if group.death or count <= 0:
            return
        for answer in self.session.ask([f"1 alloc {group.node} 0"] * count):
            frame = self.placed(group, answer)
            if frame is not None:
                self.add_file(group, [frame])

    def forget_reclaimed(self, group: Group) -> None:
        """Reclaimed pages are read again: they are the newest then, so until then they aren't among the pages."""
        if self.how.is_reread and group.there < len(group.file):
            kept = [frame for frame in group.file if frame is not None]
            group.file = [*kept]
            self.places.update((frame, (group, at)) for at, frame in enumerate(kept))

    def add_file(self, group: Group, frames: List[int]) -> None:
        """Pages of files that were read."""
        for frame in frames:
            self.places[frame] = (group, len(group.file))
            group.file.append(frame)
        group.there += len(frames)
        for above in self.ups[group.path]:
            above.read += len(frames)

    def send_touches(self, groups: Iterable[Group]) -> None:
        """The uses of file pages since the last reclaim, which decide what the next one takes."""
        for group in groups:
            if not group.uses:
                continue
            there = [frame for frame in group.file if frame is not None]
            twice, order = touches.due(group.uses, len(there))
            group.uses = []
            frames = [there[at] for at in order]
            if frames != group.settled:
                self.session.tell([f"1 touch {there[at]}" for at in twice] + [f"1 touch {frame}" for frame in frames])
            group.settled = frames if len(twice) == len(order) or frames == group.settled else None


def start(usage: Usage, how: How, is_kept: bool = False) -> Session:
    """A session for a usage in frames."""
    if (usage.host or 0) > MOST_FRAMES:
        raise Fault(f"all groups together need {usage.host} frames, and a zone has at most {MOST_FRAMES}: a greater --frame is "
                    "due")
    # The root of the zone is above /node, which is the record's /.
    zone = sizes((usage.host or 0) + SPARE, len(usage.tracks) + 1)
    return Session(how.memcg, zone, how.choices, is_kept)


def always(_: Replay) -> bool:
    """Whatever came of it so far, the replay goes on."""
    return True


def played(usage: Usage, how: How, is_hopeful: Callable[[Replay], bool] = always) -> Replay:
    """The replay of a usage, up to its end or to the first sample after which it isn't hopeful."""
    with start(usage, how) as session:
        replay = Replay(session, usage, how)
        for sample in range(len(usage.times)):
            replay.play(sample)
            if not is_hopeful(replay):
                break
        return replay
