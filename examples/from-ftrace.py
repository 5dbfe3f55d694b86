#!/usr/bin/env python3
"""Writes a log of steps from a trace of a Linux kernel, for `memcg check`.

Usage: examples/from-ftrace.py [TRACE] > run.log

TRACE is what examples/trace-kernel.sh wrote, by default standard input. docs/KERNEL.md, "A log from a running kernel",
says which events become which steps. On standard error is what the log has and lacks, beside the kernel's own amounts.

Status 0: the log's usage is the kernel's, of each group that was made in the trace. Status 1: it isn't; the group's line
says so. Status 2: the trace is bad.
"""
import collections
import re
import sys

sys.dont_write_bytecode = True
from ftrace_events import FORMS, Fault, Frames, MOST_FRAMES, parts_of, read  # noqa: E402
from ftrace_log import Log, ROOT, USUAL_GROUPS  # noqa: E402

PAGE_SIZE = 4096


class Conversion(Log):
    """The log of a trace's events so far."""

    def __init__(self, size, missed, events):
        super().__init__(Frames(size, events))
        self.missed, self.parts, self.marks = missed, parts_of(events, self.frames), {}
        for event in events:
            if event.name == "tracing_mark_write":
                self.marks.setdefault(int(event.values[0]), event.values)
        self.counts = collections.Counter()
        self.refills, self.gathered = {}, collections.defaultdict(list)
        # The group and the pages of what is being counted: by the call, and, of an uncharge, which has no end, by its CPU
        # until the next event there.
        self.underway = {}
        # Pages allocated without an event: all, and those of a task since its last event `mapped`.
        self.unseen, self.unmapped, self.is_migrated = 0, collections.Counter(), False

    def add(self, event):
        self.counts[event.name] += 1
        self.underway.pop(event.cpu, None)
        super().add(event)

    def group(self, key):
        """The group, or None if it is old, and the mark with what it has is still to come."""
        key = int(key)
        if key not in self.groups and key not in self.marks:
            raise Fault(f"line {self.event.line}: {self.event.name} of group {key}, which was never made")
        return self.groups.get(key)

    # Pages of groups.

    def units_for(self, call, pages):
        """The units of the page that a `try` charges, if they have as many pages."""
        frame = self.frames.of_page(call.call.values[0]) if call.is_in("charge") else None
        units, length = [], 0
        while length < pages and frame is not None and frame + length in self.units:
            units.append(self.units[frame + length])
            length += units[-1].length
        return units if length == pages else []

    def pay(self, call, group):
        """Places the granted pages of a `try`: for the page that it charges, or without a name."""
        pages = int(call.values[1])
        units = self.units_for(call, pages)
        for unit in units:
            if unit.group.key == ROOT:
                self.end(unit.group, unit.frame, unit.length)
                unit.group, unit.state = group, "charged"
            self.place(group, unit.frame, unit.length)  # isn't legal if it was charged before
        if not units:
            self.add_rest(group, pages)
            group.kernel += 0 if call.is_in("charge") else pages
        self.counts["pages charged" if units else "pages without a name"] += pages

    def pay_from_stock(self, call, cpu):
        group, pages = self.group(call.values[0]), int(call.values[1])
        owner, held = self.stocks[cpu]
        if not group or group.is_old and (owner is not group or held < pages):
            return  # the stock was filled before the trace: its pages are in the rest already
        held = self.restock(cpu, group, pages)
        owner = group if held else owner
        self.step(f"open {cpu + 1}")
        if owner is group:
            self.step(f"drain {cpu + 1}", f"pages {held}")
            self.stocks[cpu] = (group, max(held - pages, 0))
        self.pay(call, group)
        if owner is group and held > pages:
            self.step(f"fill {cpu + 1} {group.number} {held - pages}")
        self.step(f"shut {cpu + 1}")

    def restock(self, cpu, group, pages):
        """What the group has in the stock. If that is too little and events `refill` were missed, more is taken from its
        rest."""
        owner, held = self.stocks[cpu]
        held = held if owner is group else 0
        if held < pages and self.missed and (owner is group or not self.stocks[cpu][1]):
            lack = pages - held
            self.counts["pages of refills that were missed"] += lack
            self.take_rest(group, lack)
            group.kernel -= lack
            self.grant_again(group, lack)
            self.fill_stock(cpu, group, lack)
            return pages
        return held

    def drain_stock(self, cpu, group, pages):
        """Drains as many pages as the kernel says. Of an old group the others are in the rest."""
        held = self.restock(cpu, group, pages) if not group.is_old else self.stocks[cpu][1]
        stocked = pages if not group.is_old else held if self.stocks[cpu][0] is group else 0
        if stocked:
            self.step(f"drain {cpu + 1}", f"pages {stocked}")
            self.ungrant(group, stocked)
            self.stocks[cpu] = (None, 0)
        if pages > stocked:
            self.take_rest(group, pages - stocked)
        if cpu in self.refills:
            self.on_refill(self.refills.pop(cpu))

    def uncharge_batch(self, task, group, pages):
        for unit in self.gathered.pop(task, []):
            if unit.state == "accounted":
                group.kernel -= min(unit.length, pages)
            elif unit.group is group and unit.length <= pages:
                self.give_back(unit, "uncharged")
                pages -= unit.length
            else:
                self.step(f"return {unit.frame}")  # another group's, or uncharged before: isn't legal
        if pages:
            self.take_rest(group, pages)

    # What each event becomes.

    def on_mm_page_alloc(self, event):
        block = self.frames.block(event)
        if event.is_in("bulk"):
            self.unseen -= 1
            self.unmapped[event.task] -= 1
        self.counts["pages allocated"] += len(block)
        if not self.used.isdisjoint(block):
            self.grant(self.groups[ROOT], len(block))
            self.place(self.groups[ROOT], block.start, len(block))  # isn't legal: it is allocated
            return
        for frame, length in self.parts[event.line]:
            self.begin(frame, length, "accounted" if "ACCOUNT" in event.values[2] else "new")

    def on_mm_page_free(self, event):
        block = self.frames.block(event)
        units = [self.units.pop(frame) for frame in block if frame in self.units]
        for unit in units:
            if unit.group.key == ROOT:
                self.end(unit.group, unit.frame, unit.length)
            else:
                self.step(f"return {unit.frame}")  # isn't legal: it is charged
        if not units and block and block.start in self.seen:
            self.counts["pages freed that bulk allocation had"] += len(block)
            self.unseen -= len(block)
            if self.unseen < 0 and not self.is_migrated:
                self.step(f"put {block.start}", "last")  # isn't legal: it is free
        elif not units:
            self.counts["pages freed that were allocated before"] += 1 << int(event.values[1])
        self.used.difference_update(block)
        self.seen.update(block)

    def on_bulked(self, event):
        """Pages without an event. If they are mapped next, they are seen then; of others the number is known."""
        if event.begin:
            self.unseen += int(event.values[0])
            self.unmapped[event.task] += int(event.values[0])

    def on_mapped(self, event):
        start, end, pages = event.values
        for page in pages.split(",")[:(int(end, 16) - int(start, 16)) // PAGE_SIZE]:
            frame = self.frames.of_page(page)
            if self.unmapped[event.task] > 0 and frame not in self.used:
                self.unmapped[event.task] -= 1
                self.unseen -= 1
                if frame is not None:
                    self.begin(frame, 1, "accounted")

    def on_migrate(self, event):
        """What is charged for the old page, and later for the new one, has no name."""
        self.is_migrated = True
        unit = self.units.get(self.frames.of_page(event.values[0]))
        if unit and unit.group.key != ROOT:
            group = unit.group
            self.give_back(unit, "moved")
            self.grant_again(group, unit.length)
            self.add_rest(group, unit.length)

    def on_charged(self, event):
        """A charge without a `try` is one to the root, which counts nothing."""
        unit = self.units.get(self.frames.of_page(event.begin.values[0])) if event.begin else None
        if unit and unit.group.key == ROOT and event.values[0] == "0":
            unit.state = "charged"

    def on_try(self, event):
        if event.source is event:
            self.pay_from_stock(event, event.cpu)

    def on_tried(self, event):
        if event.begin and event.begin.source is event:
            self.pay_from_stock(event.begin, event.cpu)

    def on_count(self, event):
        if event.is_in("try"):
            self.underway[event] = (self.group(event.call.values[0]), int(event.values[1]))

    def on_counted(self, event):
        call = event.call
        self.underway.pop(event.begin, None)
        group = self.group(call.values[0]) if event.begin and event.is_in("try") else None
        if not group or event.values[0] != "try_charge_memcg":
            return
        pages = int(event.begin.values[1])
        if event.values[1] == "0":
            self.refuse(group, pages)
        elif pages == int(call.values[1]):
            self.grant(group, pages)
            self.pay(call, group)
        else:
            call.batch = pages  # the next event, `refill`, gives the stock what the charge leaves
            self.underway[call] = (group, pages)

    def refuse(self, group, pages):
        """The kernel's peaks below the full group stay raised. What others are charging or uncharging may take the room:
        a charge is added first, and taken back if there is no room."""
        full = next((above for above in group.up() if above.usage + pages > above.limit), None)
        others = {above: sum(more for other, more in self.underway.values() if other and above in other.up())
                  for above in group.up()}
        if not full and any(above.usage + pages + more > above.limit for above, more in others.items()):
            self.lines.append(f"# line {self.event.line}: refused, since others were counted at the same time")
            self.counts["charges refused beside others"] += 1
            return
        full = full or group
        for below in group.up():
            if below is full:
                break
            below.peak = max(below.peak, below.usage + pages)
        self.step(f"grant {group.number} {pages}", f"over {full.number}")

    def on_force(self, event):
        key, pages, caller = event.values
        group = self.group(key) if not re.search("swap|hugetlb", caller) else None
        if not group:
            return
        self.grant(group, int(pages))
        if event.is_in("try") and event.call.source is event:
            self.pay(event.call, group)
        else:
            self.add_rest(group, int(pages))

    def on_refill(self, event):
        group, pages, call = self.group(event.values[0]), int(event.values[1]), event.call
        owner, held = self.stocks[event.cpu]
        if not group:
            return
        if held and owner is not group:
            self.refills[event.cpu] = event  # the next event drains the other group's pages
            return
        if event.is_in("try") and call.batch:
            self.grant(group, call.batch)
            self.pay(call, group)
            call.batch = 0
            del self.underway[call]
        else:
            self.take_rest(group, pages)
            group.kernel -= pages
            self.grant_again(group, pages)
        self.fill_stock(event.cpu, group, pages)

    def on_uncharge(self, event):
        unit = self.units.get(self.frames.of_page(event.values[0]))
        if not unit or unit.state == "moved":
            return
        if unit.state == "new":
            raise Fault(f"line {event.line}: uncharge of a page that was allocated and never charged")
        if unit.state == "uncharged":
            self.step(f"return {unit.frame}")  # isn't legal: it was uncharged before
        elif unit.group.key == ROOT and unit.state == "charged":
            unit.state = "uncharged"
        else:
            self.gathered[event.task].append(unit)

    def on_uncount(self, event):
        key, pages, caller = event.values
        group = self.group(key) if not re.search("swap|hugetlb", caller) else None
        if not group:
            return
        if "stock" in caller:
            self.drain_stock(event.cpu, group, int(pages))
        elif caller == "uncharge_batch":
            self.uncharge_batch(event.task, group, int(pages))
        else:
            self.take_rest(group, int(pages))
        self.underway[event.cpu] = (group, int(pages))
        self.remove_unused(group)

    def on_limit(self, event):
        """As the kernel reads the text: whole pages, rounded down; octal after a 0, hexadecimal after 0x."""
        group, text = self.group(event.values[0]), event.values[1].strip()
        match = re.fullmatch(r"(0x[0-9a-f]+|0[0-7]*|[1-9]\d*)([kmgtpe]?)", text, re.I)
        if not group or not match and text != "max":
            return  # the kernel refuses it
        group.limit = MOST_FRAMES
        if match:
            base = 16 if "x" in match[1].lower() else 8 if match[1][0] == "0" else 10
            size = int(match[1], base) * 1024 ** " kmgtpe".index(match[2].lower() or " ")
            group.limit = min(size // PAGE_SIZE, MOST_FRAMES)
        self.step(group.limit_text())

    def on_offline(self, event):
        """The kernel memory of a removed group becomes its parent's."""
        group = self.groups.get(int(event.values[0]))
        if not group:
            return
        pages = max(0, min(group.kernel, len(group.rest)))
        if pages:
            self.take_rest(group, pages)
            self.grant_again(group.parent, pages)
            self.add_rest(group.parent, pages)
            group.parent.kernel += pages
        group.is_offline = True
        self.remove_unused(group)

    def on_cgroup_mkdir(self, event):
        hierarchy, key, path = event.values
        if hierarchy == "0":  # that of cgroup v2
            self.make(int(key), path)

    def on_cgroup_rmdir(self, event):
        hierarchy, key, _ = event.values
        if hierarchy == "0" and int(key) in self.groups:
            self.groups[int(key)].is_removed = True
            self.remove_unused(self.groups[int(key)])

    def on_tracing_mark_write(self, event):
        """What a group has. An old one begins with it, as pages without names."""
        key, current, peak, most, path = event.values
        group = self.groups.get(int(key))
        if not group:
            group = self.make(int(key), path, is_old=True)
            below = sum(int(mark[1]) for mark in self.marks.values() if mark[4].rpartition("/")[0] == path)
            own = max(int(current) - below, 0) // PAGE_SIZE
            if own:
                self.grant(group, own)
                self.add_rest(group, own)
            group.limit = MOST_FRAMES if most == "max" else min(int(most) // PAGE_SIZE, MOST_FRAMES)
            self.step(group.limit_text())
        group.ends = (group.usage, int(current) // PAGE_SIZE, int(peak) // PAGE_SIZE)


def account(log):
    """What the log has and lacks."""
    yield "events: " + ", ".join(f"{log.counts[name]} {name}" for name in FORMS if log.counts[name])
    yield "; ".join(f"{name}: {log.counts[name]}" for name in (
        "pages allocated", "pages charged", "pages without a name", "pages freed that were allocated before",
        "pages freed that bulk allocation had", "charges refused beside others", "pages of refills that were missed"))
    for group in log.made:
        line = f"{group.path}{' (made before the trace)' if group.is_old else ''}: greatest usage {group.peak} pages, at most {group.most_rest} of them without a name"
        if group.ends:
            usage, current, peak = group.ends
            line += f"; memory.peak {peak}; at the end {usage}, memory.current {current}"
            if usage != current:
                line += f": the log has {abs(usage - current)} {'more' if usage > current else 'fewer'}"
        yield line


def convert(lines):
    """Converts the trace. Whether the log's usage is the kernel's."""
    size, missed, events = read(lines)
    log = Conversion(size, missed, events)
    for event in events:
        log.add(event)
    cpus = max(event.cpu for event in events) + 1
    groups = f" groups {log.most_groups}" if log.most_groups > USUAL_GROUPS else ""
    print("\n".join([f"zone {log.frames.count} {cpus}{groups}", *log.frames.comments(), *log.lines]))
    for line in account(log):
        print(f"from-ftrace: {line}", file=sys.stderr)
    return all(group.is_old or not group.ends or group.ends[0] == group.ends[1] for group in log.made)


def main(words):
    if words in (["--help"], ["-h"]):
        print(__doc__.strip())
        return 0
    if len(words) > 1 or words and words[0].startswith("-"):
        print(f"from-ftrace: {' '.join(words)}: one file can be named; --help says more", file=sys.stderr)
        return 2
    try:
        with open(words[0] if words else 0, encoding="utf-8", errors="replace", newline="\n") as file:
            return 0 if convert(file) else 1
    except (Fault, OSError) as fault:
        print(f"from-ftrace: {fault}", file=sys.stderr)
        return 2


if __name__ == "__main__":
    sys.exit(main(sys.argv[1:]))
