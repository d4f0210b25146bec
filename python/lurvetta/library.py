"""The library for C, and what its calls are handed."""
from __future__ import annotations

import ctypes
import os
import threading

OK, NO_MEMORY, NO_ROOM, NOT_OPEN, NOT_UTF8, INVALID_TIMEZONE, INVALID_LOCALE, INVALID_LANGUAGE, INVALID_MOMENT = range(9)

# The refusals of a book that is opened, by their statuses.
REFUSALS = {
    INVALID_TIMEZONE: "InvalidTimezone",
    INVALID_LOCALE: "InvalidLocale",
    INVALID_LANGUAGE: "InvalidLanguage",
}

_HERE = os.path.dirname(os.path.realpath(__file__))


class Room(ctypes.Structure):
    """What C has for a book, or for tables: one pointer, which the library alone reads."""

    _fields_ = [("at", ctypes.c_void_p)]


def _path() -> str:
    """Where the shared library is: what LURVETTA_LIBRARY names, in the package, or in the sources' folder `lib`."""
    named = os.environ.get("LURVETTA_LIBRARY")
    if named:
        return named
    for place in (_HERE, os.path.join(_HERE, "..", "..", "lib")):
        path = os.path.join(place, "liblurvetta.so")
        if os.path.exists(path):
            return path
    raise ImportError("liblurvetta.so isn't there: ./build-c makes it, and LURVETTA_LIBRARY can name another")


def _load() -> ctypes.CDLL:
    library = ctypes.CDLL(_path())
    at, text = ctypes.c_void_p, [ctypes.c_char_p, ctypes.c_size_t]
    library.lurvetta_open.argtypes = [at, at, *text, *text, *text, *text, ctypes.c_int64]
    library.lurvetta_close.argtypes = [at]
    library.lurvetta_close.restype = None
    # The calls that follow have no argtypes, since to convert six arguments takes longer than a call: they are handed what
    # needs no conversion alone, which is bytes, what byref gives, and sizes as c_size_t.
    for name in ("open", "answer", "run", "copy"):
        getattr(library, f"lurvetta_{name}").restype = ctypes.c_uint8
    return library


library = _load()

# The tables of all books of this process, and the lock that gives them to one call at a time.
tables = Room()
tables_lock = threading.Lock()
