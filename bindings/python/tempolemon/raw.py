"""The exported calls of tempolemon_threads.h, in the shared library."""
import ctypes
import os
from ctypes import POINTER, c_bool, c_char_p, c_size_t, c_uint8, c_uint32, c_uint64, c_void_p

# The version of the headers that this package was written for.
VERSION = 3
DONE, SMALL_BUFFER, BUSY = 0, 103, 109


class Sizes(ctypes.Structure):
    _fields_ = [(name, c_uint32) for name in ("frames", "cpus", "batch", "high", "stock", "reclaim_batch", "no_kill", "proportional",
                                              "groups")]


class Handle(ctypes.Structure):
    _fields_ = [("raw", c_void_p), ("is_live", c_bool)]


class TypedResult(ctypes.Structure):
    _fields_ = [("number", c_uint64), ("kind", c_uint8)]


class Report(ctypes.Structure):
    _fields_ = [(name, c_uint64) for name in ("held", "last_puts", "freezes", "drops", "returns")] + \
               [(name, c_uint32) for name in ("frames", "free", "charged")]


def _path() -> str:
    """The library below TEMPOLEMON_PREFIX if that is set, else in the clone or the installation that has this package."""
    here = os.path.dirname(os.path.realpath(__file__))
    prefix = os.environ.get("TEMPOLEMON_PREFIX")
    prefixes = [prefix] if prefix else [f"{here}/../../../out", f"{here}/../../../../.."]
    for it in prefixes:
        path = f"{it}/lib/tempolemon/libtempolemon.so"
        if os.path.exists(path):
            return path
    raise ImportError("no libtempolemon.so: run ./memcg lib in the clone, or set TEMPOLEMON_PREFIX to an installation")


# No call waits, so each is made under the interpreter's lock, if there is one: that is faster than to release it.
library = ctypes.PyDLL(_path())
_TEXT, _ROOM, _OUT = (c_char_p, c_size_t), (c_void_p, c_size_t), (POINTER(TypedResult),)
_FORMS = {
    "zone_end": (POINTER(Report),), "try_take": (c_uint32, POINTER(Handle)),
    "try_return": (), "cpu_get": (c_uint32, *_OUT), "cpu_put": (c_uint32, *_OUT),
    "try_alloc": (c_uint32, c_uint32, *_OUT), "try_alloc_dirty": (c_uint32, c_uint32, *_OUT),
    "try_alloc_pinned": (c_uint32, c_uint32, *_OUT),
    "try_release": (c_uint32, *_OUT), "try_touch": (c_uint32, *_OUT), "try_dirty": (c_uint32, *_OUT),
    "try_clean": (c_uint32, *_OUT), "try_owner": (c_uint32, *_OUT), "try_settle": _OUT,
    "try_mkdir": (*_TEXT, *_OUT), "try_rmdir": (*_TEXT, *_OUT), "try_write": (*_TEXT * 3, *_OUT),
    **{f"try_{name}": (c_uint32, *_OUT) for name in ("usage", "peak", "max", "high")},
    **{f"try_{name}": (c_uint32, c_uint64, *_OUT) for name in ("set_max", "set_high", "set_low", "set_min", "reclaim")},
    "try_read": (*_TEXT * 2, *_ROOM, *_OUT), "try_show": (*_ROOM, POINTER(c_size_t)),
    "try_blocks": (*_ROOM, POINTER(c_size_t)), "try_stock": (*_ROOM, POINTER(c_size_t)),
    "try_units": (*_TEXT, *_ROOM, POINTER(c_size_t)),
}
for _name, _form in _FORMS.items():
    _call = getattr(library, f"tempolemon_{_name}")
    _call.restype = c_uint8
    _call.argtypes = (POINTER(Handle), *_form)
library.tempolemon_zone_boot_as.restype = c_uint8
library.tempolemon_zone_boot_as.argtypes = (c_uint32, POINTER(Sizes), POINTER(Handle))
library.tempolemon_proof.restype = c_char_p
