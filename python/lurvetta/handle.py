"""A book of the library: opened, asked lines, closed. `Book` has a method for each command over it."""
from __future__ import annotations

import ctypes
import threading
from collections.abc import Iterable
from datetime import datetime, timedelta, timezone

from .errors import Closed, LurvettaError, Refused, WantOfMemory
from .library import INVALID_MOMENT, NO_MEMORY, NO_ROOM, NOT_OPEN, OK, REFUSALS, Room, library, tables, tables_lock
from .words import unescaped

# The bytes that a reply has room for before it is asked for again, at first.
_ROOM = 4096

# The largest room that is kept for the next reply.
_MOST_KEPT = 1 << 20

_answer, _run = library.lurvetta_answer, library.lurvetta_run

_EPOCH = datetime(1970, 1, 1, tzinfo=timezone.utc)


class Handle:
    """The room of a book, with a lock that gives it to one call at a time."""

    def __init__(self, name: str, locale: str, language: str, zone: str, moment: datetime | None) -> None:
        self._lock = threading.Lock()
        self._room, self._given, self._told = Room(), ctypes.c_size_t(), ctypes.c_size_t()
        self._room_at, self._told_at = ctypes.byref(self._room), ctypes.byref(self._told)
        self._make_out(_ROOM)
        words = [it.encode() for it in (name, locale, language, zone)]
        with tables_lock:
            status = library.lurvetta_open(
                self._room_at, ctypes.byref(tables), *(part for it in words for part in (it, len(it))), _milliseconds(moment)
            )
        if status == NO_MEMORY:
            raise WantOfMemory
        if status == INVALID_MOMENT:
            raise LurvettaError("The moment is outside the years -9999 to 9999")
        if status != OK:
            raise Refused(REFUSALS[status])
        self._name = name

    def _make_out(self, size: int) -> None:
        self._out, self._out_len = ctypes.create_string_buffer(size), ctypes.c_size_t(size)
        self._out_at = ctypes.byref(self._out)

    def _ask(self, call, given: bytes) -> bytes:
        """The replies that a call leaves which answers lines."""
        with self._lock:
            self._given.value = len(given)
            status = call(self._room_at, given, self._given, self._out_at, self._out_len, self._told_at)
            length = self._told.value
            if status == OK:
                return self._out[:length]
            if status == NOT_OPEN:
                raise Closed
            if length > self._out_len.value:
                self._make_out(length)
            library.lurvetta_copy(self._room_at, self._out_at, self._out_len, self._told_at)
            replies = self._out[:length]
            if self._out_len.value > _MOST_KEPT:
                self._make_out(_ROOM)
        if status == NO_MEMORY:
            raise WantOfMemory(_lines(replies))
        return replies

    def answer(self, line: str) -> str:
        r"""The reply to a command line, without the line feed that ends it.

        >>> from lurvetta import Book
        >>> Book().answer("get_locale")
        'ok\ten'
        """
        return self._ask(_answer, str.encode(line))[:-1].decode()

    def run(self, lines: Iterable[str]) -> list[str]:
        """The replies to command lines, in one call. No line has a line feed in it.

        Where memory runs out, `WantOfMemory` has the replies to the lines that were answered.
        """
        lines = list(lines)
        for line in lines:
            if "\n" in line:
                raise ValueError(f"a line feed stands in {line!r}")
        return _lines(self._ask(_run, "".join(f"{line}\r\n" for line in lines).encode()))

    def run_bytes(self, lines: bytes) -> bytes:
        """The replies to the lines of a file, as the program of command lines writes them."""
        return self._ask(_run, bytes(memoryview(lines)))

    def _command(self, *words: str) -> list[str]:
        """The fields of the reply to a command, whose words may be joined by tabs."""
        told = self._ask(_answer, "\t".join(words).encode())
        if told == b"ok\n":
            return []
        reply = told[:-1].decode()
        kind, *fields = reply.split("\t")
        if kind == "error":
            raise Refused(fields[0])
        return [unescaped(it) for it in fields] if "\\" in reply else fields

    def close(self) -> None:
        """Closes the book and frees it. It may be called again."""
        with self._lock:
            library.lurvetta_close(self._room_at)

    def __enter__(self):
        return self

    def __exit__(self, *_: object) -> None:
        self.close()

    def __del__(self) -> None:
        if hasattr(self, "_out_at"):
            library.lurvetta_close(self._room_at)


def _lines(replies: bytes) -> list[str]:
    return replies.decode().split("\n")[:-1]


def _milliseconds(moment: datetime | None) -> int:
    """After the Unix epoch; a moment without a zone is local time, and none is now."""
    if moment is None:
        moment = datetime.now(timezone.utc)
    return (moment.astimezone(timezone.utc) - _EPOCH) // timedelta(milliseconds=1)
