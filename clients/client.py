"""ARCHIVE-AS-SHARED-OBJECT SELECTOR [FIELD FORM] < LIBRARY: prints the hits as the program hayagriva_query does; behind the key
of each the text of a field that is set, in the form `marked-up`, `plain` or `short`."""
import ctypes
import os
import secrets
import sys
from ctypes import POINTER, byref, c_char_p, c_size_t, c_uint32, c_uint64, c_void_p


class Text(ctypes.Structure):
    _fields_ = [("at", c_void_p), ("len", c_size_t)]

    def __bytes__(self):
        return ctypes.string_at(self.at, self.len) if self.len else b""


class Entry(ctypes.Structure):
    _fields_ = [("place", c_size_t), ("step", c_size_t)]


class Fault(ctypes.Structure):
    _fields_ = [("code", c_uint32), ("offset", c_size_t), ("line", c_size_t), ("column", c_size_t)]
    _fields_ += [("pointer", Text), ("name", Text), ("reason", Text), ("words", c_void_p)]


VERSION, OK, END, NO_FIELD, LINES = 2, 0, 1, 3, 1
FORMS = ["marked-up", "plain", "short"]
NOWHERE = c_size_t(-1).value
LEN, ENTRY, ENTRIES, FAULT, BYTES = POINTER(c_size_t), POINTER(Entry), POINTER(Entry), POINTER(Fault), c_char_p
FUNCTIONS = {
    "version": (c_uint32,),
    "message": (c_size_t, c_uint32, BYTES, c_size_t),
    "library_read": (c_uint32, BYTES, c_size_t, c_uint32, c_uint64, c_uint64, POINTER(c_void_p), FAULT),
    "library_free": (None, c_void_p),
    "library_next": (c_uint32, c_void_p, c_void_p, LEN, ENTRY, ENTRIES, c_size_t),
    "entry_key": (c_uint32, c_void_p, ENTRY, BYTES, c_size_t, LEN),
    "entry_text_as": (c_uint32, c_void_p, ENTRY, BYTES, c_size_t, c_uint32, BYTES, c_size_t, LEN),
    "selector_read": (c_uint32, BYTES, c_size_t, LEN, POINTER(c_void_p), FAULT),
    "selector_names": (c_size_t, c_void_p),
    "selector_name": (c_uint32, c_void_p, c_size_t, BYTES, c_size_t, LEN),
    "selector_free": (None, c_void_p),
    "fault_free": (None, FAULT),
}


def load(path):
    shared = ctypes.CDLL(path)
    calls = {}
    for name, (result, *arguments) in FUNCTIONS.items():
        call = getattr(shared, "haya_" + name)
        call.restype, call.argtypes = result, arguments
        calls[name] = call
    assert calls["version"]() == VERSION
    return calls


def text_of(call, *arguments):
    """What a call writes, in as much room as it asks for, or None where there is no such field."""
    length, room = c_size_t(), ctypes.create_string_buffer(64)
    code = call(*arguments, room, len(room), byref(length))
    if code == OK and length.value > len(room):
        room = ctypes.create_string_buffer(length.value)
        code = call(*arguments, room, len(room), byref(length))
    if code == NO_FIELD:
        return None
    assert code == OK, code
    return room.raw[: length.value]


def lines(haya, library, selector, asked):
    """The lines of the hits, as the program prints them, with the text that is asked for."""
    count = haya["selector_names"](selector)
    names = {text_of(haya["selector_name"], selector, number): number for number in range(count)}
    place, hit, bound = c_size_t(0), Entry(), (Entry * (count + 1))()
    while (code := haya["library_next"](library, selector, byref(place), byref(hit), bound, count + 1)) == OK:
        line = text_of(haya["entry_key"], library, byref(hit))
        if asked is not None:
            text = text_of(haya["entry_text_as"], library, byref(hit), *asked)
            line += b"" if text is None else b"\t" + text
        for name in sorted(names):
            entry = bound[names[name]]
            if entry.place != NOWHERE:
                line += b"\t" + name + b"=" + text_of(haya["entry_key"], library, byref(entry))
        yield line + b"\n"
    assert code == END, code


def complain(haya, fault):
    """The fault as the program shows it; the status 1."""
    room = ctypes.create_string_buffer(64)
    length = haya["message"](fault.code, room, len(room))
    said = room.raw[: min(length, len(room))]
    if fault.line != 0:
        said = b"line %d: " % fault.line + said
    if fault.name.len != 0:
        said += b": `" + bytes(fault.name) + b"`"
    sys.stderr.buffer.write(said + b"\n")
    return 1


def answer(haya, words, asked, library, selector, fault):
    content, used = sys.stdin.buffer.read(), c_size_t()
    keys = secrets.randbits(64), secrets.randbits(64)
    if haya["library_read"](content, len(content), LINES, *keys, byref(library), byref(fault)) != OK:
        return complain(haya, fault)
    if haya["selector_read"](words, len(words), byref(used), byref(selector), byref(fault)) != OK:
        return complain(haya, fault)
    sys.stdout.buffer.writelines(lines(haya, library, selector, asked))
    return 0


def main():
    if len(sys.argv) not in (3, 5) or not set(sys.argv[4:]) <= set(FORMS):
        sys.stderr.write("usage: client SELECTOR [FIELD marked-up|plain|short]\n")
        return 2
    path, words, *more = sys.argv[1:]
    asked = (os.fsencode(more[0]), len(os.fsencode(more[0])), FORMS.index(more[1])) if more else None
    haya, library, selector, fault = load(path), c_void_p(), c_void_p(), Fault()
    try:
        return answer(haya, os.fsencode(words), asked, library, selector, fault)
    finally:
        haya["selector_free"](selector)
        haya["library_free"](library)
        haya["fault_free"](byref(fault))


sys.exit(main())
