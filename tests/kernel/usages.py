"""Usages of many kinds by a seed, for tests/kernel/beside: leaks, spikes, sawteeth and walks of one group, of three below
a parent, and of nested ones; with memory.low, memory.min and memory.oom.group."""
import random

PAGE, MIB, HOST = 4096, 1 << 20, 512 << 20
SHARE_OF_ANON = {"anon": 0.85, "mixed": 0.5, "file": 0.25}
SHAPES = ["leak", "spike", "sawtooth", "steady", "walk"]
THREE, NESTED = ["/p/a", "/p/b", "/p/c"], ["/p/a", "/p/q/b", "/p/q/c", "/p/q/r/d"]


class Series:
    """A usage: of each group its (anon, file) at each sample, in bytes. `limited` is the group that gets the limits."""

    def __init__(self, name, limited, groups, settings, flag):
        self.name, self.limited, self.groups, self.settings, self.flag = name, limited, groups, settings, flag
        self.count = len(next(iter(groups.values())))

    def paths(self):
        """The groups, a parent before those below it."""
        return sorted({"/".join(path.split("/")[:depth]) for path in self.groups for depth in range(2, path.count("/") + 2)})

    def wanted(self):
        """The most that the limited group and those below it want at once."""
        below = [values for path, values in self.groups.items() if (path + "/").startswith(self.limited + "/")]
        return max(sum(sum(values[sample]) for values in below) for sample in range(self.count))

    def csv(self):
        """The usage as tools/whatif reads it."""
        yield "seconds,group,anon,file,max,high,low,min"
        for sample in range(self.count):
            yield f"{sample},/,0,0,{HOST},max,0,0"
            for path, values in sorted(self.groups.items()):
                own = self.settings.get(path, {})
                amounts = f"{values[sample][0]},{values[sample][1]}"
                yield f"{sample},{path},{amounts},max,max,{own.get('low', 0)},{own.get('min', 0)}"

    def plan(self):
        """The orders of tests/kernel/play.c. What falls falls first, then the groups grow in the order of their paths."""
        paths = self.paths()
        numbers = {path: number for number, path in enumerate(paths)}
        yield from (f"group {path}{' own' if path in self.groups else ''}" for path in paths)
        yield f"limited {numbers[self.limited]}"
        if self.flag:
            yield f"flag {numbers[self.flag]}"
        yield from (f"set {numbers[path]} memory.{kind} {value}"
                    for path, own in sorted(self.settings.items()) for kind, value in own.items())
        before = {path: (0, 0) for path in self.groups}
        for sample in range(self.count):
            now = {path: self.groups[path][sample] for path in sorted(self.groups)}
            for path, (anon, file) in now.items():
                if anon < before[path][0] or file < before[path][1]:
                    yield f"fall {numbers[path]} {anon} {file}"
            for path, (anon, file) in now.items():
                if anon > before[path][0]:
                    yield f"anon {numbers[path]} {anon}"
                if file > before[path][1]:
                    yield f"file {numbers[path]} {file}"
            yield from (f"use {numbers[path]}" for path, (_, file) in now.items() if file)
            yield "sample 0"
            before = now


def shape(chance, kind, top, count):
    """So many amounts of a kind, of at most `top` bytes."""
    top *= chance.uniform(0.9, 1)
    if kind == "leak":
        low = chance.uniform(0.1, 0.4)
        values = [(low + (1 - low) * at / (count - 1)) * chance.uniform(0.97, 1) for at in range(count)]
    elif kind == "spike":
        spike, base = chance.randrange(count // 3, count - 1), chance.uniform(0.3, 0.6)
        values = [1 if at == spike else base * chance.uniform(0.85, 1.05) for at in range(count)]
    elif kind == "sawtooth":
        tooth = chance.randrange(3, 6)
        values = [(0.35 + 0.65 * (at % tooth) / (tooth - 1)) * chance.uniform(0.92, 1) for at in range(count)]
    elif kind == "steady":
        values = [min(1, 0.4 + 0.3 * at) * chance.uniform(0.97, 1) for at in range(count)]
    else:
        value, values = chance.uniform(0.3, 0.7), []
        for _ in range(count):
            value = min(1, max(0.15, value + chance.uniform(-0.2, 0.25)))
            values.append(value)
    return [int(top * value) // PAGE * PAGE for value in values]


def made(chance, number, kind, paths, mib, balances, anon_kind=None, limited=None, protects=None, flag=None):
    """A series of so many MiB. `protects` is a setting and the part of the first group's file pages that it protects."""
    count = chance.randrange(10, 17)
    parts = [chance.uniform(0.6, 1.4) for _ in paths]
    groups, settings = {}, {}
    for path, part, balance in zip(paths, parts, balances):
        total, share = mib * MIB * part / sum(parts), SHARE_OF_ANON[balance] * chance.uniform(0.9, 1.1)
        anon = shape(chance, anon_kind or chance.choice(SHAPES), total * share, count)
        file = shape(chance, chance.choice(["leak", "steady", "walk", "sawtooth"]), total * (1 - share), count)
        groups[path] = list(zip(anon, file))
    if protects:
        anon, file = (max(values) for values in zip(*groups[paths[0]]))
        settings[paths[0]] = {protects[0]: int(anon + protects[1] * file) // PAGE * PAGE}
    limited = limited or "/" + paths[0].split("/")[1]
    return Series(f"{number:02}-{kind}", limited, groups, settings, flag)


def kinds(chance, is_small):
    """What the series are: the words of `made` after the number."""
    if is_small:
        yield "one-anon", ["/a"], 16, ["anon"], "leak"
        yield "one-file", ["/a"], 16, ["file"], "walk"
        yield "three", THREE, 24, ["anon", "mixed", "file"]
        yield "low-100", THREE, 24, ["file", "mixed", "mixed"], None, None, ("low", 1)
        return
    for balance in ("anon", "mixed", "file"):
        for kind in ("leak", "spike", "sawtooth", "walk"):
            yield f"one-{balance}-{kind}", ["/a"], chance.choice([32, 48, 64, 96]), [balance], kind
    yield "one-anon-big", ["/a"], 256, ["anon"], "leak"
    yield "one-file-big", ["/a"], 224, ["file"], "spike"
    for balances in (["anon"] * 3, ["file"] * 3, ["mixed"] * 3, ["anon", "mixed", "file"], ["file", "anon", "mixed"]):
        for _ in range(2):
            yield "three-" + "".join(b[0] for b in balances), THREE, chance.choice([48, 64, 96, 128]), balances
    for balances in (["anon", "mixed", "file", "mixed"], ["file", "file", "anon", "anon"]):
        for limited in ("/p", "/p/q"):
            yield "nested-" + "".join(b[0] for b in balances), NESTED, chance.choice([64, 96, 128]), balances, None, limited
    for setting in ("low", "min"):
        for part in (0.5, 1):
            for balances in (["file", "mixed", "mixed"], ["mixed", "anon", "file"]):
                yield f"{setting}-{int(100 * part)}", THREE, chance.choice([64, 96]), balances, None, None, (setting, part)
    for balances in (["file", "mixed", "anon"], ["file", "file", "mixed"], ["mixed"] * 3, ["anon", "file", "file"]):
        yield "three-more", THREE, chance.choice([64, 96]), balances
    yield "oomgroup-three", THREE, 64, ["mixed", "mixed", "anon"], None, None, None, "/p"
    yield "oomgroup-nested", NESTED, 96, ["mixed", "anon", "mixed", "file"], None, "/p", None, "/p/q"


def series(seed, is_small):
    """The series of the seed: 42, or four small ones."""
    chance = random.Random(seed)
    return [made(chance, number, *words) for number, words in enumerate(kinds(chance, is_small))]
