"""Each call of the package, what it returns and how it is refused."""
import gc
import os
import re
import threading
import unittest

import tempolemon
from tempolemon import Kind, Zone, errors

HERE = os.path.dirname(os.path.realpath(__file__))


class Calls(unittest.TestCase):
    def setUp(self):
        self.zone = Zone(frames=64, cpus=2)
        self.cpu = self.zone.take(1)

    def tearDown(self):
        with self.zone, self.cpu:
            pass  # so that both are returned

    def refuses(self, error, call, *words):
        with self.assertRaises(error) as caught:
            call(*words)
        return caught.exception

    def test_each_call_is_answered(self):
        cpu = self.cpu
        a = cpu.mkdir("/a")
        cpu.write("/a", "memory.max", "128K")
        self.assertEqual(cpu.read("/a", "memory.max"), "131072\n")
        self.assertEqual((cpu.max(a), cpu.high(a), cpu.usage(a)), (32, None, 0))
        cpu.set_max(a, None)
        cpu.set_high(a, 16)
        self.assertEqual((cpu.max(a), cpu.high(a)), (None, 16))
        cpu.set_low(a, 2)
        cpu.set_min(a, None)
        self.assertEqual((cpu.read("/a", "memory.low"), cpu.read("/a", "memory.min")), ("8192\n", "max\n"))
        cpu.set_min(a, 0)
        self.refuses(tempolemon.Again, cpu.reclaim, a, 1)
        self.refuses(tempolemon.BadGroup, cpu.usage, 63)
        frame = cpu.alloc(a)
        self.assertEqual(cpu.release(frame), (Kind.LISTED, 0))
        self.assertEqual(cpu.owner(frame), (Kind.CPU, 1))
        unit = cpu.alloc_dirty(a, 1)
        self.assertEqual(cpu.owner(unit), (Kind.CHARGED, a))
        self.assertEqual(cpu.owner(60), (Kind.FREE, 0))
        self.assertEqual([cpu.touch(unit), cpu.touch(unit)], [Kind.MARKED, Kind.ACTIVE])
        cpu.clean(unit)
        cpu.dirty(unit)
        with cpu.get(unit) as pin, cpu.get(unit) as other:
            self.assertEqual(pin.frame, unit)
            self.assertEqual(cpu.release(unit), (Kind.LEFT, 2))
            self.assertEqual(other.put(), (Kind.LEFT, 1))
            self.refuses(tempolemon.NotPinned, other.put)
            self.assertEqual(pin.put(), (Kind.LAST, 0))
        self.refuses(tempolemon.Zero, cpu.get, unit)
        cpu.settle()
        self.assertEqual(cpu.release(cpu.alloc_dirty(a, 1)), (Kind.RETURNED, 0))
        with cpu.alloc_pinned(a, 1) as pin:
            self.assertEqual(cpu.release(pin.frame), (Kind.LEFT, 1))
        self.refuses(tempolemon.BadOrder, cpu.alloc_pinned, a, 0)
        for text in cpu.show(), cpu.blocks(), cpu.stock():
            self.assertTrue(text.endswith("\n"))
        self.assertEqual(cpu.units("/a"), "none\n")
        self.assertGreaterEqual(cpu.peak(a), 2)
        cpu.rmdir("/a")
        cpu.give_back()
        self.assertEqual(self.zone.end()[0::5], (0, 64))

    def test_a_long_text_gets_a_longer_buffer(self):
        group = self.cpu.mkdir("/a")
        for name in range(60):
            self.cpu.mkdir(f"/{'long' * 20}{name}")
        self.cpu.alloc(group)
        self.assertGreater(len(self.cpu.show()), 4096)

    def test_refusals_are_exceptions(self):
        cpu = self.cpu
        self.refuses(tempolemon.BadConfig, Zone, 64, 2, 4, 1)
        self.refuses(tempolemon.BadConfig, lambda: Zone(64, 2, reclaim_batch=65))
        self.refuses(tempolemon.BadConfig, lambda: Zone(64, 2, groups=1025))
        with Zone(64, 1, groups=2) as zone, zone.take(1) as one:
            one.mkdir("/a")
            self.refuses(tempolemon.TreeFull, one.mkdir, "/b")
        self.refuses(tempolemon.CpuOut, self.zone.take, 1)
        self.refuses(tempolemon.BadCpu, self.zone.take, 3)
        self.refuses(tempolemon.NoParent, cpu.mkdir, "/a/b")
        a = cpu.mkdir("/a")
        self.refuses(tempolemon.NoFile, cpu.write, "/a", "/a", "/a")
        self.refuses(tempolemon.NoGroup, cpu.units, "/b")
        cpu.write("/a", "memory.max", "4K")
        refused = self.refuses(tempolemon.OverLimit, cpu.alloc, a, 1)
        self.assertEqual((refused.status, refused.group), (15, a))
        self.assertEqual(str(refused), "refused 15: the charge goes over the limit of a group")
        self.refuses(tempolemon.BadGroup, cpu.alloc, 9)
        self.refuses(tempolemon.NotKept, cpu.release, 9)
        self.refuses(tempolemon.BadFrame, cpu.release, 64)
        for word in -1, 1 << 32:
            self.refuses(OverflowError, cpu.release, word)

    def test_what_has_ended_refuses(self):
        self.refuses(tempolemon.CpusOut, self.zone.end)
        self.cpu.give_back()
        self.refuses(tempolemon.NotLive, self.cpu.settle)
        self.zone.end()
        self.refuses(tempolemon.NotLive, self.zone.end)
        self.refuses(tempolemon.NotLive, self.zone.take, 1)

    def test_an_exception_of_a_block_goes_through(self):
        pin = self.cpu.get(self.cpu.alloc_dirty(self.cpu.mkdir("/a")))
        with self.assertRaises(KeyError), self.cpu._lock, pin:
            raise KeyError
        with self.assertRaises(KeyError), self.zone:
            raise KeyError
        with self.assertRaises(tempolemon.CpusOut), self.zone:
            pass
        pin.put()
        self.cpu.settle()

    def test_what_is_dropped_is_returned_with_a_warning(self):
        with self.assertWarnsRegex(ResourceWarning, "CPU 2 wasn't returned"):
            self.zone.take(2)
            gc.collect()
        with self.assertWarnsRegex(ResourceWarning, "a zone wasn't ended"):
            Zone(frames=64, cpus=1)
            gc.collect()
        self.zone.take(2).give_back()

    def test_an_argument_of_another_type_is_named(self):
        cpu = self.cpu
        for name, call, *words in (
                ("order", cpu.alloc, 1, 1.0), ("group", cpu.usage, "1"), ("frame", cpu.get, None), ("path", cpu.mkdir, b"/a"),
                ("file", cpu.read, "/a", 1), ("value", cpu.write, "/a", "memory.max", 4096), ("pages", cpu.reclaim, 0, None),
                ("number", self.zone.take, "1"), ("frames", Zone, "64", 2), ("no_kill", lambda: Zone(64, 2, no_kill=1))):
            self.assertRegex(str(self.refuses(TypeError, call, *words)), rf"\A{name} must be \w+, not \w+\Z")

    def test_a_cpu_that_another_thread_is_inside_of_refuses(self):
        with self.cpu._lock:
            self.refuses(tempolemon.InUse, self.cpu.settle)
        self.cpu.settle()

    def test_a_pin_that_isnt_put_is_put_at_the_end(self):
        self.cpu.get(self.cpu.alloc_dirty(self.cpu.mkdir("/a")))
        self.cpu.give_back()
        self.assertEqual(self.zone.end().held, 1)

    def test_threads_have_a_cpu_each(self):
        other = self.zone.take(2)
        threads = [threading.Thread(target=lambda cpu=cpu: [cpu.settle() for _ in range(2000)]) for cpu in (self.cpu, other)]
        for thread in threads:
            thread.start()
        for thread in threads:
            thread.join()
        self.cpu.give_back()
        other.give_back()
        self.assertEqual(self.zone.end().free, 64)

    def test_the_library_says_what_is_known_of_its_proof(self):
        self.assertRegex(tempolemon.PROOF, r"\Aunproved: .*\Z|\A.* logic .*\nsources sha256 \w{64}\nproved\Z")

    def test_the_page_runs(self):
        with open(f"{HERE}/README.md", encoding="utf-8") as page:
            code = re.search(r"```python\n(.*?)```", page.read(), re.S)[1]
        self.assertLessEqual(len(code.splitlines()), 60)
        exec(code, {"print": lambda line: self.assertEqual(line, "1024 of 1024 frames are free")})

    def test_statuses_have_one_exception(self):
        self.assertEqual(sorted(errors.BY_STATUS), sorted({it.status for it in errors.Error.__subclasses__()} - {0}))


if __name__ == "__main__":
    unittest.main()
