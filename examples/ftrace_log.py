"""A log of steps with the groups, units and stocks that it has so far, for from-ftrace.py."""
import re

from ftrace_events import Fault, MOST_CPUS, MOST_FRAMES

ROOT, MOST_GROUPS, MOST_NAMES = 1, 1024, 8
# A log has room for so many groups at once, with the root, if its first line doesn't say.
USUAL_GROUPS = 64


class Unit:
    """Allocated frames. `state` is new, accounted (allocated as kernel memory), charged, uncharged or moved."""

    def __init__(self, frame, length, group, state):
        self.frame, self.length, self.group, self.state = frame, length, group, state


class Group:
    """A group of the log. `rest` are the frames of its pages that no event names, `kernel` of them are kernel memory. An
    old group was made before the trace. `ends` is its usage at its last mark, and memory.current and memory.peak then."""

    def __init__(self, key, number, path, parent, is_old=False):
        self.key, self.number, self.path, self.parent, self.is_old = key, number, path, parent, is_old
        self.limit, self.usage, self.peak, self.children = MOST_FRAMES, 0, 0, 0
        self.rest, self.most_rest, self.kernel = [], 0, 0
        self.is_removed = self.is_offline = False
        self.ends = None

    def up(self):
        group = self
        while group:
            yield group
            group = group.parent

    def limit_text(self):
        return f"limit {self.number} {self.limit if self.limit < MOST_FRAMES else 'max'}"


class Log:
    """The log. Subclasses have for each event that makes steps a method `on_EVENT`."""

    def __init__(self, frames):
        self.frames, self.event = frames, None
        self.groups = {ROOT: Group(ROOT, 0, "", None)}
        self.most_groups = USUAL_GROUPS
        self.made, self.steps, self.lines = [], [], []
        self.units, self.used, self.seen = {}, set(), set()
        self.stocks = [(None, 0)] * MOST_CPUS

    def add(self, event):
        """Adds the steps of an event, which its CPU makes under the lock."""
        self.event = event
        getattr(self, f"on_{event.name}", lambda event: None)(event)
        if self.steps:
            steps, seat = [f"0 {step}" for step in self.steps], event.cpu + 1
            self.lines += [f"# line {event.line}: {event.name}", f"{seat} lock > done", *steps, f"{seat} unlock > done"]
            self.steps = []

    def step(self, text, answer="done"):
        self.steps.append(f"{text} > {answer}")

    def make(self, key, path, is_old=False):
        """Makes a group. Its path ends with its key if a removed group of that path still has pages."""
        groups = self.groups.values()
        path = re.sub("[^!-~]", "?", path)
        parent = next((group for group in groups if group.path == path.rpartition("/")[0]), self.groups[ROOT])
        path += f"~{key}" if path in (group.path for group in groups) else ""
        number = min(set(range(MOST_GROUPS)) - {group.number for group in groups}, default=None)
        if number is None or path.count("/") > MOST_NAMES:
            raise Fault(f"line {self.event.line}: {path}: a log has at most {MOST_GROUPS} groups at once, "
                        f"and {MOST_NAMES} names in a path")
        self.step(f"make {path}", f"number {number}")
        group = self.groups[key] = Group(key, number, path, parent, is_old)
        self.made.append(group)
        self.most_groups = max(self.most_groups, len(self.groups))
        parent.children += 1
        return group

    def remove_unused(self, group):
        """Removes a group that the kernel removed, once no page is charged to it, and then its parent alike."""
        while group.is_removed and group.is_offline and not group.usage and not group.children:
            self.step(f"remove {group.number}")
            del self.groups[group.key]
            group = group.parent
            group.children -= 1

    def grant(self, group, pages):
        self.step(f"grant {group.number} {pages}", "granted")
        for above in group.up():
            above.usage += pages
            above.peak = max(above.peak, above.usage)

    def grant_again(self, group, pages):
        """Charges pages that change their place: they were charged before, so no limit decides about them."""
        full = [above for above in group.up() if above.usage + pages > above.limit]
        peaks = [(above, above.peak) for above in group.up()]
        for above in full:
            self.step(f"limit {above.number} max")
        self.grant(group, pages)
        for above in full:
            self.step(above.limit_text())
        for above, peak in peaks:
            above.peak = peak

    def shrink(self, group, pages):
        for above in group.up():
            above.usage -= pages

    def ungrant(self, group, pages):
        self.step(f"ungrant {group.number} {pages}")
        self.shrink(group, pages)

    def place(self, group, frame, length):
        order = length.bit_length() - 1
        self.step(f"place {group.number} {order}", f"placed {frame} {order}")
        self.step(f"unfreeze {frame} 1")

    def end(self, group, frame, length):
        self.step(f"put {frame}", "last")
        self.step(f"return {frame}")
        self.shrink(group, length)

    def begin(self, frame, length, state):
        """Begins a unit of the root, which has each allocated frame that no group is charged for."""
        self.grant(self.groups[ROOT], length)
        self.place(self.groups[ROOT], frame, length)
        self.units[frame] = Unit(frame, length, self.groups[ROOT], state)
        self.used.update(range(frame, frame + length))
        self.seen.update(range(frame, frame + length))

    def give_back(self, unit, state):
        """Makes a group's unit the root's."""
        self.end(unit.group, unit.frame, unit.length)
        self.begin(unit.frame, unit.length, state)

    def add_rest(self, group, pages):
        """Places granted pages that no event names."""
        for _ in range(pages):
            group.rest.append(self.frames.take())
            self.place(group, group.rest[-1], 1)
        group.most_rest = max(group.most_rest, len(group.rest))

    def take_rest(self, group, pages):
        """Ends pages that no event names. If there are too few, that isn't legal."""
        for _ in range(min(pages, len(group.rest))):
            self.frames.give(group.rest[-1])
            self.end(group, group.rest.pop(), 1)
            pages -= 1
        if pages:
            self.ungrant(group, pages)

    def fill_stock(self, cpu, group, pages):
        """Adds granted pages to what a stock has."""
        owner, held = self.stocks[cpu]
        self.step(f"open {cpu + 1}")
        if owner is group and held:
            self.step(f"drain {cpu + 1}", f"pages {held}")
            pages += held
        self.step(f"fill {cpu + 1} {group.number} {pages}")
        self.step(f"shut {cpu + 1}")
        self.stocks[cpu] = (group, pages)
