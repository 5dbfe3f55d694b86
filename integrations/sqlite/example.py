"""A server with two tenants: one serves a hot database, the other scans a large one below a limit. See README.md.

    python3 integrations/sqlite/example.py ./libtempolemon_pcache.so
"""
import ctypes
import os
import sys
import tempfile

MIB = 1 << 20
CACHE = ctypes.CDLL(os.path.abspath(sys.argv[1]), mode=ctypes.RTLD_GLOBAL)


def call(name, *words):
    """Calls the page cache, which says why it refuses."""
    function = getattr(CACHE, f"tempolemon_pcache_{name}")
    function.restype = ctypes.c_char_p
    why = function(*(ctypes.c_size_t(it) if isinstance(it, int) else it for it in words))
    if why:
        sys.exit(f"{name}: {why.decode()}")


def read(group, file):
    """The text of a file of a group."""
    text = ctypes.create_string_buffer(257)
    call("read", group, file, text)
    return text.value.decode()


call("install", 16 * MIB)
import sqlite3  # noqa: E402 - it initializes SQLite, so the page cache is installed before


def open_for(tenant, path, mib):
    """Opens a database for a tenant, with so many MiB in it."""
    call("tenant", tenant)
    database = sqlite3.connect(path)
    database.executescript(f"""
        pragma cache_size = -{16 * 1024}; pragma synchronous = off; create table t(id integer primary key, text);
        with recursive c(x) as (select 1 union all select x + 1 from c where x < {mib * 1000})
        insert into t select x, printf('%01000d', x) from c""")
    return database


def read_all(database):
    """Reads each page of the table."""
    database.execute("select sum(length(text)) from t").fetchone()


with tempfile.TemporaryDirectory() as folder:
    call("limit", b"reports", 4 * MIB)
    web = open_for(b"web", f"{folder}/web.db", 8)
    reports = open_for(b"reports", f"{folder}/reports.db", 64)
    read_all(web)
    before = int(read(b"web", b"memory.current"))
    read_all(reports)
    after = int(read(b"web", b"memory.current"))
    print(f"web has {before / MIB:.1f} MiB before reports is scanned, and {after / MIB:.1f} MiB after it")
    print(f"reports has {int(read(b'reports', b'memory.current')) / MIB:.1f} MiB of 4; its memory.events:")
    print(read(b"reports", b"memory.events"), end="")
    web.close()
    reports.close()
