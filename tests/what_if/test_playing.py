"""Restarts, uses of pages, explanations, what a record hides, and formulas."""
import os
import random
import re
import unittest
from array import array
from dataclasses import replace

from what_if import censored, explanations, kubernetes, touches
from what_if.amounts import Fault
from what_if.fleet import kept_text
from what_if.lives import Life, Restart, start_before, starts_of
from what_if.least import bisect, needed
from what_if.margins import for_linux, read_margin, with_percent
from what_if.packing import packed
from what_if.patches import need_of, patch_of
from what_if.prepare import keep_greatest
from what_if.replay import How, Replay, start
from what_if.usage import MOST_FRAMES, NONE, Setting, Track, usage_of, with_settings

ROOT = os.path.dirname(os.path.dirname(os.path.dirname(os.path.realpath(__file__))))
MIB = 1 << 20


def track(anon, file=None, **more):
    """A track of these amounts."""
    return Track(array("q", anon), array("q", file or [0] * len(anon)), **more)


def usage(step=1, **tracks):
    """The usage of tracks by the names of groups."""
    count = len(next(iter(tracks.values())).anon)
    return usage_of(array("d", [at * step for at in range(count)]), {f"/{name}": one for name, one in tracks.items()}, 1000)


class Lives(unittest.TestCase):
    def test_starts(self):
        starts = starts_of(track([-1, 100, 30, 26, 6, 90, 20]))
        self.assertEqual(starts, [1, 4, 6])
        self.assertEqual([start_before(starts, at) for at in (1, 3, 4, 5, 6)], [1, 1, 4, 4, 6])

    def test_a_life_follows_the_record(self):
        life = Life(begin=100.0, start=2)
        times = array("d", [0, 10, 20, 30, 40])
        self.assertEqual([life.sample(times, seconds) for seconds in (100, 109, 110, 125)], [2, 2, 3, 4])

    def test_backoff(self):
        self.assertEqual([Restart(0.0, True).wait(kills) for kills in (1, 2, 5, 6, 2000)], [10, 20, 160, 300, 300])
        self.assertEqual(Restart(7.0).wait(3), 7)


class Pages:
    """A group's file pages as the program keeps them: inactive and active ones, oldest first, and the marked ones."""

    def __init__(self):
        self.inactive, self.active, self.marked = [], [], set()

    def add(self, page):
        self.inactive.append(page)

    def remove(self, page):
        (self.active if page in self.active else self.inactive).remove(page)
        self.marked.discard(page)

    def touch(self, page):
        if page in self.inactive and page not in self.marked:
            self.marked.add(page)
            return
        self.remove(page)
        self.active.append(page)

    def state(self):
        return self.inactive, self.active, self.marked


class Touches(unittest.TestCase):
    def test_late_uses_leave_the_same_lists(self):
        draw = random.Random(1)
        for _ in range(1000):
            at_once, late, pages, uses, number = Pages(), Pages(), [], [], 0
            for _ in range(draw.randint(1, 20)):
                count = draw.randint(0, 9)
                for page in reversed(pages[count:]):
                    at_once.remove(page)
                    late.remove(page)
                del pages[count:]
                touches.cut(uses, count)
                while len(pages) < count:
                    number += 1
                    pages.append(number)
                    at_once.add(number)
                    late.add(number)
                for page in pages[count // 2:]:
                    at_once.touch(page)
                touches.add(uses, count)
                if draw.random() < 0.3:
                    twice, order = touches.due(uses, count)
                    uses = []
                    for at in [*twice, *order]:
                        late.touch(pages[at])
                    self.assertEqual(late.state(), at_once.state())


def manual_lines():
    """A line of each kind of explanation that the manual lists."""
    with open(f"{ROOT}/docs/MANUAL.md", encoding="utf-8") as file:
        text = file.read()
    rows = re.findall(r"^\| ((?:`# [^|]*`(?:, )?)+) \|", text, re.M)
    for form in (form for row in rows for form in re.findall(r"`(# [^`]*)`", row)):
        form = re.sub(r"\bA-B\b", "3-5", re.sub(r", next.*", ", next /node/b frames 7", form))
        form = form.replace("PATH", "/node/a").replace("WHY", "the group was killed")
        yield re.sub(r"\b(?:MAX|HIGH|BYTES|[A-Z])\b", "4", form)


class Session:
    """A session that has answers ready."""
    memcg, is_no_kill = "memcg", False

    def __init__(self):
        self.lines = []

    def ask(self, lines):
        self.lines += lines
        return ["ok"] * len(lines)

    def tell(self, lines):
        self.lines += lines

    def comment(self, _):
        pass


class Explanations(unittest.TestCase):
    def test_each_kind_of_the_manual_is_played(self):
        lines, kinds = [*manual_lines()], set()
        for line in lines:
            replay = Replay(Session(), usage(a=track([1]), b=track([1])), How("memcg"))
            replay.places = {number: (replay.groups["/a"], 0) for number in range(3, 6)}
            replay.groups["/a"].file, replay.groups["/a"].there = [3], 3
            replay.session.ask = lambda asked: ["none"] * len(asked)
            replay.note(f"ok\n{line}", None)
            kinds.add(explanations.read_line(line).kind)
        self.assertEqual(kinds, set(explanations.FORMS))
        self.assertEqual(set(replay.handlers), set(explanations.FORMS))

    def test_an_unknown_word_is_refused(self):
        for line in ("# swapped /node/a 3", "# limit /node/a", "# reclaimed 3 pages", "reclaimed /node/a 3"):
            self.assertRaisesRegex(Fault, "doesn't know", explanations.read_line, line)


class Refused(unittest.TestCase):
    def test_a_setting_that_memcg_does_not_take(self):
        """Else it would be as if the limit held."""
        session = Session()
        replay = Replay(session, usage(a=track([1], settings={"max": [Setting(0, 5)]})), How("memcg"))
        session.ask = lambda lines: ["refused 13 BadNumber"] * len(lines)
        self.assertRaisesRegex(Fault, "answered 'refused 13 BadNumber' to '1 write /node/a memory.max 20480'", replay.play, 0)

    def test_more_frames_than_a_zone_has(self):
        made = replace(usage(a=track([1])), host=MOST_FRAMES + 1)
        self.assertRaisesRegex(Fault, "a greater --frame is due", start, made, How("memcg"))


class Hidden(unittest.TestCase):
    def test_a_kill_is_counted_at_its_limit(self):
        made = censored.with_killed(usage(a=track([100, 160, 20], [90, 50, 5], oom_kills=[2],
                                                  settings={"max": [Setting(0, 503)]})))
        # Limits that are given change nothing of what was recorded.
        made = with_settings(made, {"max": {"/a": 170}})
        raised = censored.with_kills(made, 10).tracks["/a"]
        self.assertEqual(([*raised.anon], [*raised.file]), ([100, 500, 20], [90, 0, 5]))
        self.assertEqual(censored.floors(made), {"/a": 503})
        self.assertEqual(censored.lines(made)[0].partition(". ")[0],
                         "/a was killed once while it was recorded, first at 2 s, with a limit of 503 B")
        self.assertTrue(censored.marked(made, "/") and not censored.marked(made, "/b"))

    def test_a_kill_of_a_limit_above_is_counted_there(self):
        """Who of those below wanted the rest isn't known."""
        made = censored.with_killed(usage(**{"p": track([NONE] * 3, [NONE] * 3, settings={"max": [Setting(0, 400)]}),
                                             "p/a": track([100, 205, 20], [90, 50, 5], oom_kills=[2]),
                                             "p/b": track([10, 10, 10], [0, 90, 0]), "q": track([7, 7, 7], oom_kills=[1])}))
        raised = censored.with_kills(made, 10).tracks
        self.assertEqual([(raised[path].anon[1], raised[path].file[1]) for path in ("/p", "/p/a", "/p/b")],
                         [(180, 0), (205, 0), (10, 0)])
        self.assertEqual(censored.floors(made), {"/p": 400})
        self.assertIn("by the limit of /p, 400 B", made.killed["/p/a"].text())
        self.assertIn("by no limit that was recorded", made.killed["/q"].text())

    def test_a_kill_of_a_merged_group_is_named(self):
        made = censored.with_killed(usage(**{"p": track([9, 9], [0, 0], settings={"max": [Setting(0, 400)]}),
                                             "p/a": track([100, 5], oom_kills=[1], settings={"max": [Setting(0, 120)]})}))
        made = keep_greatest(made, 1, set(), lambda _: None)
        self.assertEqual([*censored.with_kills(made, 10).tracks["/p"].anon], [109, 14])
        self.assertEqual((censored.floors(made), censored.marked(made, "/p")), ({"/p/a": 120}, True))
        self.assertIn("/p/a was killed once", censored.lines(made)[0])

    def test_a_peak_between_samples(self):
        lines = [*censored.peak_lines(usage(a=track([100, 160], peak=171), b=track([100, 160], peak=169)))]
        self.assertEqual(len(lines), 1)
        self.assertIn("/a had 171 B at its peak, and at most 160 B", lines[0])


def pod(*containers, overhead=0):
    """A pod of containers (limit, is_init, is_sidecar)."""
    return kubernetes.Pod("n", "p", "/p", [kubernetes.Container(f"c{at}", limit, limit, is_init, is_sidecar, False)
                                           for at, (limit, is_init, is_sidecar) in enumerate(containers)], overhead)


class Formulas(unittest.TestCase):
    def test_sidecars(self):
        def limit(*containers, overhead=0):
            return kubernetes.whole(pod(*containers, overhead=overhead), lambda one: one.limit)

        self.assertEqual(limit((256, True, True), (512, False, False)), 768)
        self.assertEqual(limit((1000, True, False), (256, True, True), (512, False, False)), 1000)
        self.assertEqual(limit((256, True, True), (1000, True, False), (512, False, False), overhead=5), 1261)
        self.assertEqual(limit((None, True, True), (512, False, False)), None)

    def test_patches(self):
        def container(limit, request, restarts=False):
            return kubernetes.Container("app", limit, request, False, False, restarts)

        self.assertEqual(need_of(container(100, 50), 200), "in place")
        self.assertIn("not alone in a Guaranteed pod", need_of(container(100, 100), 200))
        mesh = kubernetes.Container("mesh", 100, 50, True, True, False)
        line = [*patch_of("/p/mesh", 200, [kubernetes.Pod("n", "p", "/p", [mesh], 0)])][1]
        self.assertIn('{"spec": {"initContainers": [{"name": "mesh"', line)
        self.assertIn("Kubernetes 1.33 needs a new pod", need_of(container(100, 50), 80))
        self.assertEqual(need_of(container(100, 50, True), 80), "the container restarts")
        self.assertRaisesRegex(Fault, "40 bytes .*below its request of 50 bytes", need_of, container(100, 50), 40)

    def test_needed_counts_the_page_that_is_read(self):
        made = usage(**{"p/a": track([5, 9, 2]), "p/b": track([1, 1, 3], [0, 0, 2])})
        self.assertEqual(needed(made), {"/": 10, "/p": 10, "/p/a": 9, "/p/b": 4})

    def test_bisect(self):
        self.assertEqual(bisect(-1, 100, lambda amount: amount >= 37), 37)

    def test_margin_is_of_whole_pages(self):
        self.assertEqual(with_percent({"/a": 3}, 4096, 10), {"/a": 4 * 4096})

    def test_margin_for_linux(self):
        """224 KiB a process, 0.3 % of the limit and 0.6 % of the greatest file pages; 192 KiB and 0.3 % of the file pages if
        kernel memory is known, and 3 % of those that a memory.min below the limit protects."""
        made = usage(**{"p/a": track([5], [1000], pids=3), "p/b": track([5], [1000]), "q": track([9], [2000], most_kernel=4096)})
        self.assertEqual(for_linux(made, 4096, "/p", 1000), 4096 * (1000 + 4 * 56 + 3 + 12))
        self.assertEqual(for_linux(made, 4096, "/q", 9), 4096 * (9 + 48 + 6))
        kept = track([9], [2000], most_kernel=4096, settings={"min": [Setting(0, 2009)]})
        made = usage(**{"r/a": kept, "r/b": track([1], [1000], most_kernel=4096)})
        self.assertEqual(for_linux(made, 4096, "/r", 50), 4096 * (50 + 48 + 9 + 60))
        self.assertEqual(for_linux(made, 4096, "/r/a", 9), 4096 * (9 + 48 + 6))
        self.assertEqual((read_margin("linux"), read_margin("2.5")), ("linux", 2.5))
        for word in ("-1", "nan", "kernel"):
            self.assertRaises(Fault, read_margin, word)

    def test_packed(self):
        one, other = usage(a=track([1, 2, 3])), usage(step=2, a=track([10, 20]))
        made = packed([("x/one.csv", one), ("y/one.csv", other)], 50)
        self.assertEqual((made.groups, [*made.times]), (["/", "/one", "/one/a", "/one-2", "/one-2/a"], [0, 1, 2]))
        self.assertEqual([*made.tracks["/one-2/a"].anon], [10, 10, 20])
        both = [usage(**{"": track([4, 4]), name: track([1, 1])}) for name in ("a", "b")]
        self.assertEqual(packed([("one.csv", both[0]), ("two.csv", both[1])], 50).groups, ["/", "/one", "/one/a", "/two", "/two/b"])

    def test_kept(self):
        self.assertEqual(kept_text({"reclaimed_bytes": 25, "read_bytes": 100}), "75 %")


if __name__ == "__main__":
    unittest.main()
