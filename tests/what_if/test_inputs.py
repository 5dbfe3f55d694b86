"""Amounts, series, rows, and how they are filled."""
import io
import os
import tempfile
import unittest
from argparse import Namespace
from array import array

from what_if import cgroupfs, grafana, kubernetes, prometheus, rows, signs
from what_if.amounts import Fault, amount_text, read_amount
from what_if.importing import import_lines
from what_if.joining import join
from what_if.prepare import filled, keep_greatest, not_cumulative
from what_if.series import Series, read_number, read_time
from what_if.usage import NONE, Track, frame_size, in_frames, least_limit, usage_of, with_kernel
from what_if.usage_csv import read_rows, usage_lines

MIB = 1 << 20


def usage(rows_text, host=1 << 30):
    """The usage of rows `seconds,group,anon,file,max[,..]`."""
    header = {5: "seconds,group,anon,file,max", 6: "seconds,group,anon,file,max,kernel",
              7: "seconds,group,anon,file,max,oom_kill,peak"}
    lines = rows_text.split()
    reading = read_rows([header[len(lines[0].split(","))], *lines], "usage.csv", str)
    return usage_of(reading.times, reading.tracks, host)


def series(kind, values, **labels):
    """A series of (time, value)."""
    return Series(kind, labels, array("d", [time for time, _ in values]), array("q", [value for _, value in values]))


def in_file(text, read):
    """What a reader makes of a file with this text."""
    with tempfile.TemporaryDirectory() as folder:
        path = os.path.join(folder, "file")
        with open(path, "w", encoding="utf-8") as file:
            file.write(text)
        notes = []
        return read(path, None, notes.append), notes


class Amounts(unittest.TestCase):
    def test_words(self):
        for word, count in (("300M", 300 * MIB), ("300Mi", 300 * MIB), ("1k", 1024), ("128974848000m", 123 * MIB), ("0", 0)):
            self.assertEqual(read_amount(word), count)
        for word in ("500m", "0.5G", "M", "-1", "3MM", "16E", "99999999999999999999"):
            self.assertRaises(Fault, read_amount, word)
        self.assertRaisesRegex(Fault, "'500m' is 0.5 bytes.*500M", read_amount, "500m")

    def test_quantities(self):
        for word, count in (("1.5e9", 1_500_000_000), ("50M", 50_000_000), ("1Gi", 1 << 30), ("128974848000m", 123 * MIB)):
            self.assertEqual(kubernetes.quantity(word), count)
        self.assertRaisesRegex(Fault, "500Mi", kubernetes.quantity, "500m")
        self.assertRaisesRegex(Fault, "more than any host has", kubernetes.quantity, "1e400")
        self.assertRaisesRegex(Fault, "no quantity", kubernetes.quantity, "1e1000000")

    def test_texts(self):
        self.assertEqual([amount_text(count) for count in (0, 1023, 1024, 1536, 1 << 40)],
                         ["0 B", "1023 B", "1 KiB", "1.5 KiB", "1 TiB"])

    def test_numbers_and_times(self):
        self.assertEqual([read_number(word) for word in ("1.5 KiB", "1e3", "2 MB", "-5", "x", "1m")],
                         [1536, 1000, 2_000_000, -5, None, None])
        self.assertEqual([read_time(word) for word in ("5", "1769860800000", "2026-01-31T12:00:00Z")],
                         [5.0, 1769860800.0, 1769860800.0])


class Joined(unittest.TestCase):
    def made(self, *found):
        notes = []
        return join([*found], notes.append), notes

    def test_kind_that_begins_late_hides_nothing(self):
        times = range(0, 1200, 60)
        made, notes = self.made(series("rss", [(at, 900 * MIB if at == 60 else 100 * MIB) for at in times], pod="p"),
                                series("active_file", [(at, MIB) for at in times if at >= 600], pod="p"),
                                series("inactive_file", [(at, MIB) for at in times if at >= 600], pod="p"))
        track = made.tracks["/p"]
        self.assertEqual((track.anon[1], track.file[9], track.file[10]), (900 * MIB, 0, 2 * MIB))
        self.assertIn("active_file of /p begins late, after 600 s", notes[0])

    def test_gap_of_one_kind_is_named(self):
        made, notes = self.made(series("rss", [(at, MIB) for at in range(0, 600, 10)], pod="p"),
                                series("cache", [(at, 7) for at in (0, 10, 20, 400, 410, 420, 430)], pod="p"))
        self.assertEqual(list(made.tracks["/p"].file), [7] * 60)
        self.assertIn("cache of /p has no value for 380 s from 20 s on", notes[0])

    def test_what_is_left_out_is_named(self):
        _, notes = self.made(series("anon", [(0, 5)], pod="p"), series("anon", [], pod="q"), series("limit", [(0, 5)], pod="r"))
        self.assertEqual(notes, ["1 series have no value, and are left out: anon of /q",
                                 "of /r no kind has an amount: their settings and counts are left out"])
        text = "Time,/a\n5,1 MiB\n6,1 Mb\n7,null\n"
        found, notes = in_file(text, lambda path, _, note: grafana.read(path, "rss", note))
        self.assertEqual(([*found[0].values], notes[0].partition(": ")[2]), ([MIB], "1 cells are no numbers, and are left out: 1 Mb"))

    def test_series_at_different_times(self):
        made, _ = self.made(series("rss", [(0, 5), (30, 6)], pod="p"), series("cache", [(15, 1), (45, 2)], pod="p"))
        self.assertEqual(([*made.times], [*made.tracks["/p"].anon], [*made.tracks["/p"].file]),
                         ([0, 15, 30, 45], [5, 5, 6, 6], [0, 1, 1, 2]))

    def test_namespaces(self):
        made, _ = self.made(*(series("rss", [(0, 5)], pod="p", namespace=name) for name in ("a", "b")),
                            series("rss", [(0, 5)], pod="q", namespace="a"))
        self.assertEqual(made.groups, ["/", "/a_p", "/b_p", "/q"])

    def test_two_nodes(self):
        with self.assertRaisesRegex(Fault, r'add a matcher to the query, such as node="one"'):
            self.made(*(series("rss", [(0, 5)], pod=name, node=name) for name in ("one", "two")))

    def test_negative(self):
        self.assertRaisesRegex(Fault, "memory isn't negative", Series("rss", {"pod": "p"}).add, 0, -5)
        self.assertRaisesRegex(Fault, "no host has so much", Series("rss", {"pod": "p"}).add, 0, 1 << 60)

    def test_what_does_not_part_memory_is_named(self):
        """A working set has what is active of the cache, so what is anonymous in it can't be told by the cache alone."""
        parts = {"active_file": 20, "inactive_file": 50}
        for kinds, pages, says in (
                ({"working_set": 100}, (100, 0), "only the working set is known"),
                ({"usage": 100}, (100, 0), "only the usage is known"),
                ({"working_set": 100, "cache": 70}, (100, 0), "only the working set is known"),
                ({"working_set": 100, **parts}, (80, 70), None),
                ({"usage": 150, "cache": 70}, (80, 70), "shared memory isn't known"),
                ({"rss": 60, "cache": 90}, (60, 90), "shared memory isn't known"),
                ({"rss": 60, "cache": 90, **parts}, (80, 70), None),
                ({"rss": 60, "cache": 90, "shmem": 20}, (80, 70), None),
                ({"rss": 60, "working_set": 100, "kernel": 5}, (60, 35), "shared memory isn't known"),
                ({"rss": 60, "working_set": 105, "kernel": 5, **parts}, (80, 70), None),
                ({"rss": 60}, (60, 0), "shared memory isn't played"),
                ({"cache": 90}, (0, 90), "it isn't played"),
                ({"anon": 60, "file": 9}, (60, 9), None)):
            made, notes = self.made(*(series(kind, [(0, value)], pod="p") for kind, value in kinds.items()))
            track = made.tracks["/p"]
            self.assertEqual((track.anon[0], track.file[0]), pages, kinds)
            self.assertEqual([says in note for note in notes], [True] * (says is not None), kinds)

    def test_greater_than_any_host(self):
        found = series("limit", [], pod="p")
        found.add(0, 1 << 64)
        made, _ = self.made(found, series("anon", [(0, 5)], pod="p"))
        self.assertIsNone(made.tracks["/p"].setting("max", 0))

    def test_kills_and_peak(self):
        made, _ = self.made(series("rss", [(at, 5) for at in range(5)], pod="p"),
                            series("oom_kill", list(enumerate((7, 7, 8, 1, 1))), pod="p"), series("peak", [(0, 9)], pod="p"))
        self.assertEqual((made.tracks["/p"].oom_kills, made.tracks["/p"].peak), ([2, 3], 9))

    def test_first_count_of_a_group_that_came_later_is_of_kills(self):
        made, _ = self.made(series("anon", [(0, 5), (1, 5), (2, 5)], pod="q"),
                            *(series(kind, [(1, value), (2, value)], pod="p") for kind, value in (("anon", 5), ("oom_kill", 1))))
        self.assertEqual(made.tracks["/p"].oom_kills, [1])
        made = usage("0,/a,5,6,9,4,8 1,/a,5,0,max,4,9 1,/b,1,0,max,2,")
        self.assertEqual([made.tracks[path].oom_kills for path in ("/a", "/b")], [[], [1]])


class Formats(unittest.TestCase):
    ANSWER = ('{"status":"success","warnings":["half is lacking"],"data":{"resultType":"matrix","result":[{"metric":'
              '{"__name__":"container_memory_rss","pod":"p"},"values":[[0,"5"],[30,"NaN"],[60,"7.5"]]}]}}')

    def test_prometheus(self):
        (found,), notes = in_file(self.ANSWER, prometheus.read)
        self.assertEqual(([*found.times], [*found.values], found.kind), ([0, 60], [5, 8], "rss"))
        self.assertIn("half is lacking", notes[0])

    def test_prometheus_in_parts(self):
        text = prometheus.Text(io.StringIO(self.ANSWER.replace("],[", "] , [") * 1))
        prometheus_part, prometheus.PART = prometheus.PART, 3
        try:
            self.assertIn("status", text.upto(r'"result"\s*:\s*(?=\[)'))
            text.at += 1
            self.assertEqual(text.value()["values"][2], [60, "7.5"])
            self.assertEqual(text.skip(" "), "]")
        finally:
            prometheus.PART = prometheus_part

    def test_rows(self):
        found, notes = in_file("name,time,rss,cache,oom_kill\nb,5,1KiB,0,3\n# a, b\n", rows.read)
        self.assertEqual([(one.kind, one.labels, [*one.values]) for one in found],
                         [("anon", {"path": "b"}, [1024]), ("file", {"path": "b"}, [0]), ("oom_kill", {"path": "b"}, [3])])
        self.assertEqual(notes, ["a, b"])

    def test_cgroupfs(self):
        text = ("100\n/sys/fs/cgroup/a/memory.stat:anon 5\n/sys/fs/cgroup/a/memory.events:oom_kill 4\n"
                "/sys/fs/cgroup/a/memory.events.local:oom_kill 2\nControlGroup=/a\nMemoryPeak=77\n")
        found, _ = in_file(text, cgroupfs.read)
        kinds = {one.kind: one.values[0] for one in found}
        self.assertEqual((kinds["rss"], kinds["oom_kill"], kinds["peak"]), (5, 2, 77))

    def test_what_an_import_lacks_is_in_its_usage(self):
        """Also what its files warned of, and with no quote that would end no field."""
        def lines(path, _, note):
            return [*import_lines(Namespace(format="prometheus", files=[path], names=None, host=None), note)]

        made, notes = in_file(self.ANSWER.replace("half is", ',\\"half\\" is'), lines)
        self.assertEqual(read_rows(made, "usage.csv", str).remarks, [note.replace('"', "'") for note in notes[:-1]])
        self.assertIn(",'half' is lacking", made[-2])

    def test_written_and_read_again(self):
        made = usage("0,/a,5,6,9,0,8 1,/a,5,0,max,2,9 1,/b,1,0,max,0,")
        again = "\n".join(list(usage_lines(made))[1:]).split("\n")
        self.assertEqual(again[0], "0.000,/,0,0,1073741824,0,")
        self.assertEqual(again[1:], ["0.000,/a,5,6,9,0,9", "1.000,/,0,0,1073741824,0,", "1.000,/a,5,0,max,1,9",
                                     "1.000,/b,1,0,max,0,"])


class Prepared(unittest.TestCase):
    ROWS = "0,/p/a,100,0,max 0,/p/b,30,0,40 60,/p/b,30,0,40 120,/p/a,50,0,max 120,/p/b,30,0,40"

    def test_filling(self):
        notes = []
        self.assertEqual([*filled(usage(self.ROWS), None, notes.append).tracks["/p/a"].anon], [100, 100, 50])
        self.assertEqual([*filled(usage(self.ROWS), 30, notes.append).tracks["/p/a"].anon], [100, NONE, 50])
        self.assertEqual(len(notes), 1)

    def test_cumulative(self):
        notes = []
        made = not_cumulative(usage("0,/p,100,9,max 0,/p/a,30,4,max 1,/p,10,0,max 1,/p/a,30,0,max"), notes.append)
        self.assertEqual(([*made.tracks["/p"].anon], [*made.tracks["/p"].file]), ([70, 0], [5, 0]))
        self.assertIn("/p: in 1 rows less than the groups below", notes[0])

    def test_merged(self):
        notes = []
        made = keep_greatest(usage(self.ROWS), 2, set(), notes.append)
        self.assertEqual((made.groups, made.merged), (["/", "/p", "/p/b"], {"/p": ["/p/a"]}))
        made = keep_greatest(usage(self.ROWS), 1, set(), notes.append)
        self.assertEqual((made.merged["/p"], [*made.tracks["/p"].anon]), (["/p/a", "/p/b"], [130, 30, 80]))
        self.assertIn("/p/b limit 40 B", notes[0])

    def test_kernel_memory(self):
        """It is filled, parted and written like other amounts, and counts as anonymous where the last value holds."""
        made = usage("0,/p,100,50,max,30 0,/p/a,40,10,max,20 9,/p,100,50,max, 9,/p/a,40,10,max,25")
        self.assertEqual([line.split(",")[-1] for line in usage_lines(made)], ["kernel", "", "30", "20", "", "", "25"])
        own = with_kernel(not_cumulative(made, None)).tracks
        self.assertEqual(([*own["/p"].anon], [*own["/p/a"].anon]), ([70, 70], [60, 65]))
        self.assertEqual((own["/p"].most_kernel, own["/p/a"].most_kernel, own["/"].most_kernel), (10, 25, None))

    def test_kernel_memory_of_a_whole_usage_is_in_it(self):
        for kind, kernel in (("rss", [5]), ("usage", [])):
            made = join([series(kind, [(0, 100)], path="/a"), series("kernel", [(0, 5)], path="/a")], lambda _: None)
            self.assertEqual(([*made.tracks["/a"].anon], [*made.tracks["/a"].kernel]), ([100], kernel))

    def test_order_is_that_of_the_record(self):
        self.assertEqual(usage("0,/z/a,1,0,max 0,/b,1,0,max").groups, ["/", "/z", "/z/a", "/b"])

    def test_frames(self):
        self.assertEqual([frame_size(host << 30, least) for host, least in
                          ((16, None), (512, None), (512, 32 * MIB), (512, MIB), (16, 1000))],
                         [256 << 10, 8 * MIB, MIB, MIB, 32 << 10])
        made = usage("0,/a,4097,1,8191")
        self.assertEqual(least_limit(made), 8191)
        track = in_frames(made, 4096).tracks["/a"]
        self.assertEqual((track.anon[0], track.file[0], track.setting("max", 0)), (2, 0, 1))

    def test_a_finer_frame_changes_a_group_by_less_than_a_frame(self):
        made = usage("0,/a,5000,5000,max 1,/a,100,9000,max 2,/a,8192,1,max")
        for size in (1024, 2048, 4096):
            track = in_frames(made, size).tracks["/a"]
            for at, whole in enumerate((10_000, 9100, 8193)):
                self.assertIn(size * track.total(at) - whole, range(size))
                self.assertIn(size * track.anon[at] - made.tracks["/a"].anon[at], range(size))

    def test_hole(self):
        made = usage_of(array("d", [0, 30, 60, 3660, 3690]), {"/a": Track(array("q", [1] * 5), array("q", [1] * 5))}, None)
        self.assertIn("no group has a sample for 3600 s after 60 s", next(signs.holes(made)))


if __name__ == "__main__":
    unittest.main()
