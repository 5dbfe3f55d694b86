"""What the page cache for SQLite refuses, each with its words; tests/gate/sqlite gives the path of its shared object."""
import ctypes
import resource
import sys

CACHE = ctypes.CDLL(sys.argv[1], mode=ctypes.RTLD_GLOBAL)
MIB = 1 << 20


def call(name, *words):
    """What the page cache answers: None, or why not."""
    function = getattr(CACHE, f"tempolemon_pcache_{name}")
    function.restype = ctypes.c_char_p
    said = function(*(ctypes.c_size_t(it) if isinstance(it, int) else it for it in words))
    return said and said.decode()


def want(said, wanted):
    """Ends if another answer was wanted."""
    if said != wanted:
        sys.exit(f"{said!r}, not {wanted!r}")


BUDGET = "a budget is 1M to 2G"
NAME = "a tenant's name has 1 to 31 bytes without /"
want(call("install", MIB - 1), BUDGET)
want(call("install", 2048 * MIB + 4096), BUDGET)
want(call("install", 8 * MIB), None)
import sqlite3  # noqa: E402 - it initializes SQLite

want(call("install", 16 * MIB), "SQLite is initialized already")
for name in (b"", b"a/b", b"x" * 32):
    want(call("tenant", name), NAME)
    want(call("limit", name, MIB), NAME)
want(call("limit", b"a", 262143), "a limit is at least 256K")
want(call("limit", b"a", 262144), None)
text = ctypes.create_string_buffer(257)
want(call("read", b"b", b"memory.max", text), "no group or file of this name")
want(call("read", b"a", b"memory.pressure", text), "no group or file of this name")
want(call("read", b"a", b"memory.max", text), None)
want(text.value, b"262144\n")
want(call("read", b"a", b"cache.stat", text), "no group or file of this name")

# a database in memory can't be reclaimed: at its tenant's limit it gets SQLITE_NOMEM, and the limit can't be lowered below it
want(call("tenant", b"a"), None)
database = sqlite3.connect(":memory:")
database.execute("create table t(x)")
try:
    database.execute("insert into t values(zeroblob(1000000))")
    sys.exit("a limit of 256 KiB holds 1 MB")
except MemoryError:
    pass
want(call("limit", b"a", 2 * MIB), None)
database.execute("insert into t values(zeroblob(1000000))")
want(call("limit", b"a", MIB // 2), "its databases have pinned more than that")
database.close()
want(call("limit", b"a", MIB // 2), None)

# a cache's number and counts; what was discarded or has ended isn't counted
database = sqlite3.connect(":memory:")
database.execute("create table t(x)")
want(call("read", b"a/c1", b"cache.stat", text), None)
counts = dict(line.split() for line in text.value.decode().splitlines())
want((counts["caches"], counts["pages"], counts["pinned"]), ("1", "2", "2"))
database.close()
want(call("read", b"a/c1", b"cache.stat", text), "no group or file of this name")

# caches aren't groups: there may be any number of them, but 62 tenants, of which "main" is one
want(call("limit", b"a", 2047 * MIB), None)
opened = [sqlite3.connect(":memory:") for _ in range(1000)]
for each in opened[:500]:
    each.execute("create table t(x)")
for number in range(60):
    want(call("tenant", b"t%d" % number), None)
want(call("tenant", b"c"), "no group of this name can be made")

# plain SQLite lets a host shut down with a connection open, and the connection goes on
sqlite = ctypes.CDLL("libsqlite3.so.0")
want(sqlite.sqlite3_shutdown(), 0)
want(call("install", 64 * MIB), "a connection is open")
opened[-1].execute("create table t(x)")
opened[-1].execute("insert into t values(7)")
want(opened[-1].execute("select x from t").fetchall(), [(7,)])
want(sqlite.sqlite3_initialize(), 0)
for each in opened:
    each.close()
want(sqlite.sqlite3_shutdown(), 0)

# the refused installations changed nothing
want(sqlite.sqlite3_initialize(), 0)
want(call("read", b"", b"memory.max", text), None)
want(text.value, b"8388608\n")
want(sqlite.sqlite3_shutdown(), 0)

# without memory SQLite can't be initialized; with it, it can
want(call("install", 1024 * MIB), None)
limits = resource.getrlimit(resource.RLIMIT_AS)
resource.setrlimit(resource.RLIMIT_AS, (1024 * MIB, limits[1]))
want(sqlite.sqlite3_initialize(), 7)
resource.setrlimit(resource.RLIMIT_AS, limits)
want(sqlite.sqlite3_initialize(), 0)
want(call("read", b"", b"memory.max", text), None)
want(text.value, b"1073741824\n")
