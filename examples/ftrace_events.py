"""The events of a trace that examples/trace-kernel.sh wrote, and the frames that they name, for from-ftrace.py."""
import collections
import heapq
import re

LINE = re.compile(r" *.*-(\d+) +(?:\([ \d-]+\) +)?\[(\d+)\] +(?:(\S+) +)?\d+\.\d+: (\w+): (.*)")
# What each event has. Of the others that are read, nothing is.
FORMS = {
    "mm_page_alloc": "pfn=HEX order=N .. gfp_flags=NAME",
    "mm_page_free": "pfn=HEX order=N",
    "cgroup_mkdir": "root=N id=N .. path=PATH",
    "cgroup_rmdir": "root=N id=N .. path=PATH",
    "base": "base=HEX",
    "charge": "page=HEX",
    "charged": "ret=N",
    "try": "id=N pages=N",
    "tried": "ret=N",
    "count": "id=N pages=N",
    "counted": "(NAME <- page_counter_try_charge) ret=N",
    "force": "id=N pages=N caller=NAME",
    "uncount": "id=N pages=N caller=NAME",
    "refill": "id=N pages=N",
    "uncharge": "page=HEX",
    "migrate": "page=HEX ..",
    "limit": "id=N value=TEXT",
    "offline": "id=N",
    "bulk": "",
    "bulked": "ret=N",
    "mapped": "from=HEX to=HEX pages={PAGES}",
    "tracing_mark_write": "group id=N current=N peak=N max=LIMIT .. path=PATH",
}
PARTS = {"HEX": "(?:0x)?([0-9a-f]+)", "N": r"(-?\d+)", "NAME": r"([^+ ]+)\S*", "PATH": r"(\S+)", "TEXT": '"([^"]*)"?',
         "LIMIT": r"(max|\d+)", "PAGES": "([0-9a-fx,]*)", r"\.\.": ".*"}
PART = re.compile(r"\b(?:HEX|NAME|N|PATH|TEXT|LIMIT|PAGES)\b|\\\.\\\.")
VALUES = {name: re.compile(".*?" + PART.sub(lambda part: PARTS.get(part[0], ".*"), re.escape(form)) + "$")
          for name, form in FORMS.items()}
# The calls, by the event of their end.
CALL_OF = {"charged": "charge", "tried": "try", "counted": "count", "bulked": "bulk"}
MOST_CPUS, MOST_FRAMES, GREATEST_BLOCK = 64, 1 << 20, 1024


class Fault(Exception):
    """Why the trace can't be converted."""


class Event:
    """An event. `call` is the innermost call of its task or interrupt that it is part of, `begin` the call that it ends."""

    def __init__(self, line, task, cpu, name, values):
        self.line, self.task, self.cpu, self.name, self.values = line, task, cpu, name, values
        self.call = self.begin = None
        # Of a `try`: what paid for it, how often its counter was tried, and the pages of a batch that is to be shared out.
        self.source, self.attempts, self.batch = None, 0, 0

    def is_in(self, name):
        return self.call is not None and self.call.name == name


def event_of(number, line):
    """The event of the line, None if it isn't one that is read."""
    match = LINE.match(line.rstrip("\r\n"))
    # (a value that was written with a line feed ends on the next line)
    if not match and line.strip() not in ("", '"') and not line.startswith("#"):
        if line.startswith("CPU:") and "LOST" in line:
            raise Fault(f"line {number}: events were lost: a greater BUFFER keeps more")
        raise Fault(f"line {number}: " + ("not a line of a trace" if line.endswith("\n") else "the trace is cut here"))
    if not match or match[4] not in FORMS or match[4] == "tracing_mark_write" and not match[5].startswith("group "):
        return None
    pid, cpu, flags, name = int(match[1]), int(match[2]), match[3] or "", match[4]
    values = VALUES[name].match(match[5])
    if not values:
        raise Fault(f"line {number}: {name} has the form {FORMS[name]!r}, this is {match[5]!r}")
    if cpu >= MOST_CPUS:
        raise Fault(f"line {number}: CPU {cpu}, and a log has at most {MOST_CPUS} CPUs")
    interrupt = flags[2:3] if flags[2:3] in ("h", "H", "s", "z", "Z") else ""
    return Event(number, (pid, interrupt, cpu if interrupt or not pid else None), cpu, name, values.groups())


def link(events):
    """Says of each event of which call it is part, and of each `try` what paid for it."""
    calls = collections.defaultdict(list)
    for event in events:
        stack = calls[event.task]
        if event.name in CALL_OF and stack:
            event.begin = stack.pop()
            if event.begin.name != CALL_OF[event.name]:
                raise Fault(f"line {event.line}: {event.name} can't end the {event.begin.name} of line {event.begin.line}")
        event.call = stack[-1] if stack else None
        if event.name in CALL_OF.values():
            stack.append(event)
        if event.name == "counted" and event.begin and event.is_in("try") and event.values[0] == "try_charge_memcg":
            event.call.attempts += 1
            event.call.source = event if event.values[1] != "0" else None
        elif event.name == "force" and event.is_in("try") and event.values[2] == "try_charge_memcg":
            event.call.source = event
        elif event.name == "tried" and event.begin and event.values[0] == "0" and not event.begin.source:
            # The CPU's stock paid: at once, or after the last attempt.
            event.begin.source = event if event.begin.attempts else event.begin


def read(lines):
    """What the head says, and the events, in the trace's order: the size of the kernel's `struct page`, and how many
    events `refill` were missed, because an interrupt came within another probe."""
    size, missed, events = None, 0, []
    for number, line in enumerate(lines, 1):
        head = re.match(r"# (?:memcg .*\bpage=(\d+)|missed (\w+) (\d+))", line)
        if head and head[1]:
            size = int(head[1])
        elif head and head[2] != "refill":
            raise Fault(f"line {number}: {head[3]} events {head[2]} were missed, as interrupts came within others: "
                        "trace again")
        elif head:
            missed = int(head[3])
        event = event_of(number, line)
        if event:
            events.append(event)
    if not size:
        raise Fault("no line '# memcg ..': examples/trace-kernel.sh writes it")
    for name in ("mm_page_alloc", "base", "try"):
        if not any(event.name == name for event in events):
            raise Fault(f"no event {name}: of such a trace any log would be legal")
    link(events)
    return size, missed, events


class Frames:
    """The frames of the log. Of the kernel's it has each greatest block in which some are allocated, and beyond these
    it has frames for pages that no event names."""

    def __init__(self, size, events):
        self.base, self.size = next(int(event.values[0], 16) for event in events if event.name == "base"), size
        blocks = {int(event.values[0], 16) // GREATEST_BLOCK for event in events if event.name == "mm_page_alloc"}
        self.places = {block: place for place, block in enumerate(sorted(blocks))}
        self.named = self.count = len(blocks) * GREATEST_BLOCK
        self.spare = []

    def of(self, number):
        """The log's number of the kernel's frame, None if it has none."""
        block, at = divmod(number, GREATEST_BLOCK)
        return self.places[block] * GREATEST_BLOCK + at if block in self.places else None

    def of_page(self, page):
        return self.of((int(page, 16) - self.base) // self.size)

    def block(self, event):
        """The frames that are allocated or freed. A failed allocation has none."""
        frame = self.of(int(event.values[0], 16)) if int(event.values[0], 16) else None
        return range(0) if frame is None else range(frame, frame + (1 << int(event.values[1])))

    def take(self):
        """A frame for a page that no event names."""
        if self.spare:
            return heapq.heappop(self.spare)
        self.count += 1
        if self.count > MOST_FRAMES:
            raise Fault(f"more than {MOST_FRAMES} frames, and a log has no more")
        return self.count - 1

    def give(self, frame):
        heapq.heappush(self.spare, frame)

    def comments(self):
        for block, place in self.places.items():
            yield f"# frame {place * GREATEST_BLOCK} is frame {block * GREATEST_BLOCK} of the kernel, and so on"
        yield f"# from frame {self.named} on are pages that no event names"


def parts_of(events, frames):
    """The units of each allocation, by its line: the block, or, if it is freed in parts, these. Each has its first frame
    and its length."""
    parts, freed = {}, {}
    for event in reversed(events):
        if event.name not in ("mm_page_alloc", "mm_page_free"):
            continue
        block = frames.block(event)
        if event.name == "mm_page_alloc":
            parts[event.line] = []
            frame, is_whole = block.start, freed.keys().isdisjoint(block)
            while frame < block.stop:
                part = block if is_whole else freed.get(frame, range(1))
                length = len(part) if part.stop <= block.stop else 1
                parts[event.line].append((frame, length))
                frame += length
        for frame in block:
            freed.pop(frame, None)
        if block and event.name == "mm_page_free":
            freed[block.start] = block
    return parts
