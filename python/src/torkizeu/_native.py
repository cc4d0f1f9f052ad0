"""The calls of hayagriva.h, version 2."""
from __future__ import annotations

import ctypes
from ctypes import POINTER, Structure, byref, c_bool, c_char, c_char_p, c_size_t, c_uint32, c_uint64, c_void_p
from functools import partial
from pathlib import Path
from typing import Any, Callable, Tuple

OK, END, NO_ENTRY, NO_FIELD, WRONG_KIND, NOT_TEXT, OUT_OF_MEMORY, NO_FORMAT, TOO_DEEP, NOT_ONE_ENTRY = range(10)
GUESSED, LINES, JSON, CSL, JSON_LINES, YAML, BIBTEX = range(7)
MARKED_UP, PLAIN, SHORT = range(3)
NOWHERE = c_size_t(-1).value
VERSION = 2


class Text(Structure):
    _fields_ = [("at", c_void_p), ("len", c_size_t)]

    def __bytes__(self) -> bytes:
        return ctypes.string_at(self.at, self.len) if self.len else b""

    def __str__(self) -> str:
        return bytes(self).decode()


class Place(Structure):
    """Which entry of a library is meant."""

    _fields_ = [("place", c_size_t), ("step", c_size_t)]
    place: int
    step: int


class Fault(Structure):
    _fields_ = [
        ("code", c_uint32),
        ("offset", c_size_t),
        ("line", c_size_t),
        ("column", c_size_t),
        ("pointer", Text),
        ("name", Text),
        ("reason", Text),
        ("words", c_void_p),
    ]
    code: int
    offset: int
    line: int
    column: int
    pointer: Text
    name: Text
    reason: Text


class Written(Structure):
    _fields_ = [("text", Text), ("bytes", c_void_p)]
    text: Text


_shared = ctypes.CDLL(str(Path(__file__).with_name("libtorkizeu.so")))


def _call(name: str, result: Any, *arguments: Any) -> Callable[..., Any]:
    call: Any = getattr(_shared, "haya_" + name)
    call.restype, call.argtypes = result, arguments
    checked: Callable[..., Any] = call
    return checked


_LEN, _PLACE = POINTER(c_size_t), POINTER(Place)

version = _call("version", c_uint32)
version_least = _call("version_least", c_uint32)
message_call = _call("message", c_size_t, c_uint32, POINTER(c_char), c_size_t)
library_read = _call(
    "library_read",
    c_uint32,
    *(c_char_p, c_size_t, c_uint32, c_uint64, c_uint64, POINTER(c_void_p), POINTER(Fault)),
)
library_free = _call("library_free", None, c_void_p)
library_len = _call("library_len", c_size_t, c_void_p)
library_next = _call("library_next", c_uint32, c_void_p, c_void_p, _LEN, _PLACE, _PLACE, c_size_t)
library_notes = _call("library_notes", c_size_t, c_void_p)
library_note = _call(
    "library_note", c_uint32, c_void_p, c_size_t, POINTER(c_char), c_size_t, _LEN, POINTER(c_uint64)
)
library_push = _call("library_push", c_uint32, c_void_p, c_char_p, c_size_t, POINTER(Fault))
library_remove = _call("library_remove", c_uint32, c_void_p, c_char_p, c_size_t)
library_write = _call("library_write", c_uint32, c_void_p, c_uint32, POINTER(Written))
written_free = _call("written_free", None, POINTER(Written))
selector_read = _call("selector_read", c_uint32, c_char_p, c_size_t, _LEN, POINTER(c_void_p), POINTER(Fault))
selector_free = _call("selector_free", None, c_void_p)
selector_names = _call("selector_names", c_size_t, c_void_p)
selector_name = _call("selector_name", c_uint32, c_void_p, c_size_t, POINTER(c_char), c_size_t, _LEN)
entry_matches = _call("entry_matches", c_uint32, c_void_p, c_void_p, _PLACE, POINTER(c_bool))
entry_has = _call("entry_has", c_bool, c_void_p, _PLACE, c_char_p, c_size_t)
entry_text_as = _call(
    "entry_text_as",
    c_uint32,
    *(c_void_p, _PLACE, c_char_p, c_size_t, c_uint32, POINTER(c_char), c_size_t, _LEN),
)
fault_free = _call("fault_free", None, POINTER(Fault))

if not version_least() <= VERSION <= version():
    raise ImportError(f"libtorkizeu.so is of version {version()}, and this package of {VERSION}")


def message(code: int) -> str:
    """What a code says, in words."""
    room = ctypes.create_string_buffer(64)
    length = int(message_call(code, room, len(room)))
    return room.raw[: min(length, len(room))].decode()


def _text(number: int, call: Callable[..., Any], *more: Any) -> str:
    """The text that a call writes into room, with as much of it as it needs."""
    length = c_size_t()
    room = ctypes.create_string_buffer(64)
    while True:
        if int(call(room, len(room), byref(length), *more)) != OK:
            raise IndexError(number)
        if length.value <= len(room):
            return room.raw[: length.value].decode()
        room = ctypes.create_string_buffer(length.value)


def name_of(selector: c_void_p, number: int) -> str:
    """A name that a selector binds."""
    return _text(number, partial(selector_name, selector, number))


def note_of(library: c_void_p, number: int) -> Tuple[str, int]:
    """A name that was passed over of a library's text, and how often it came."""
    count = c_uint64()
    return _text(number, partial(library_note, library, number), byref(count)), count.value
