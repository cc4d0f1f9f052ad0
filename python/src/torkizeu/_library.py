"""Libraries, their entries, and the hits of a selector."""
from __future__ import annotations

import json
import os
import secrets
import threading
import weakref
from contextlib import contextmanager
from ctypes import Array, byref, c_bool, c_size_t, c_void_p
from typing import Any, Dict, Iterator, List, Mapping, MutableMapping, Optional, Tuple, Union

from . import _native as n
from ._errors import Error, OutOfMemory, parse_failed, selector_failed
from ._values import FORMED, Date, Person, TextForm, formed, listed, text_of

#: The names of the formats, as those of the command `haya`.
Format = str
_FORMATS = {
    "lines": n.LINES,
    "hayagriva": n.JSON,
    "yaml": n.YAML,
    "csl-json": n.CSL,
    "json-lines": n.JSON_LINES,
    "bibtex": n.BIBTEX,
}

# How many lines of JSON are read at once.
_AT_ONCE = 64


def _refused(code: int) -> Error:
    kind = OutOfMemory if code == n.OUT_OF_MEMORY else Error
    return kind(n.message(code), code)


class _Gate:
    """Lets any number of threads read, or one change."""

    __slots__ = ("_free", "_readers")

    def __init__(self) -> None:
        self._free, self._readers = threading.Condition(), 0

    def __enter__(self) -> None:
        with self._free:
            self._readers += 1

    def __exit__(self, *_: object) -> None:
        with self._free:
            self._readers -= 1
            if not self._readers:
                self._free.notify_all()

    @contextmanager
    def alone(self) -> Iterator[None]:
        """No thread reads then, and none begins to."""
        with self._free:
            self._free.wait_for(lambda: not self._readers)
            yield


class Selector:
    """A selector that was read once, and may be asked of any library, by any thread. Raises SelectorError.

    >>> Selector("article > (p:periodical | b:blog)").names
    ('p', 'b')
    """

    __slots__ = ("text", "names", "_held", "_slots", "__weakref__")

    def __init__(self, text: str) -> None:
        data, held, used, fault = text.encode(), c_void_p(), c_size_t(), n.Fault()
        if n.selector_read(data, len(data), byref(used), byref(held), byref(fault)) != n.OK:
            selector_failed(fault, text)
        weakref.finalize(self, n.selector_free, held).atexit = False
        self.text, self._held = text, held
        rest = data[used.value :].strip()
        if rest:
            raise ValueError(f"behind the selector {data[: used.value].decode()!r} there is {rest.decode()!r}")
        #: The names that it binds, from left to right.
        names = [n.name_of(held, number) for number in range(n.selector_names(held))]
        self.names: Tuple[str, ...] = tuple(dict.fromkeys(names))
        self._slots = {name: number for number, name in enumerate(names)}

    def __repr__(self) -> str:
        return f"Selector({self.text!r})"


class Entry(Mapping[str, Any]):
    """An entry of a library, or one of its ancestors: a mapping of the names of hayagriva's file format to values of
    JSON, and the values that most programs want as attributes.

    >>> entry = Library.parse("0\\ta\\tbook\\ttitle=It\\tauthor=Lee, Ann\\tdoi=10.1/x\\n")["a"]
    >>> entry.title, entry.authors[0].given, entry.doi, entry["title"], entry.type
    ('It', 'Ann', '10.1/x', 'It', 'book')
    """

    __slots__ = ("key", "_data")

    def __init__(self, key: str, data: Dict[str, Any]) -> None:
        #: The key: of an ancestor its own, where it has one, otherwise that of the entry below.
        self.key = key
        self._data = data

    def __getitem__(self, name: str) -> Any:
        return self._data[name]

    def __iter__(self) -> Iterator[str]:
        return iter(self._data)

    def __len__(self) -> int:
        return len(self._data)

    def to_dict(self) -> Dict[str, Any]:
        """All of it as in hayagriva's file format, parents too: a copy."""
        copy: Dict[str, Any] = json.loads(json.dumps(self._data))
        return copy

    @property
    def type(self) -> str:
        """Its type, as in a selector: `article`."""
        return str(self._data["type"])

    @property
    def title(self) -> Optional[str]:
        """The title as it is shown, without markup."""
        return self.text("title")

    @property
    def short_title(self) -> Optional[str]:
        """The title's short form as it is shown, or the title where it has none."""
        return self.text("title", "short")

    @property
    def authors(self) -> Tuple[Person, ...]:
        """The authors, in order."""
        return tuple(map(Person.of, listed(self._data.get("author"))))

    @property
    def editors(self) -> Tuple[Person, ...]:
        """The editors, in order."""
        return tuple(map(Person.of, listed(self._data.get("editor"))))

    @property
    def date(self) -> Optional[Date]:
        """When it came out."""
        value = self._data.get("date")
        return None if value is None else Date.of(value)

    @property
    def doi(self) -> Optional[str]:
        """The DOI of its serial numbers."""
        return self.serial("doi")

    @property
    def url(self) -> Optional[str]:
        """Its address."""
        return text_of(self._data.get("url"))

    def serial(self, scheme: str) -> Optional[str]:
        """The serial number of a scheme: `doi`, `isbn`, `issn`, `pmid`, `arxiv` and others."""
        numbers = self._data.get("serial-number")
        if isinstance(numbers, dict):
            return text_of(numbers.get(scheme))
        return text_of(numbers) if scheme == "serial" else None

    def text(self, name: str, form: TextForm = "plain") -> Optional[str]:
        """The text of a field, None where it isn't set or is a list. It is `plain`, as it is shown, with dollars around formulas alone;
        `marked-up`, as in hayagriva's file format; or the `short` form as it is shown, and the long one where there is none. What isn't
        marked up, as an address or a number, has one text in all forms.

        >>> title = {"value": "The {ACM} of $x$", "short": "{ACM}"}
        >>> entry = Library.parse(json.dumps({"a": {"type": "book", "title": title}}))["a"]
        >>> entry.text("title"), entry.text("title", "marked-up"), entry.text("title", "short"), entry.text("note")
        ('The ACM of $x$', 'The {ACM} of $x$', 'ACM', None)
        """
        if form not in ("plain", "marked-up", "short"):
            raise ValueError(f"no form {form!r}: there are plain, marked-up and short")
        value = self._data.get(name)
        return formed(value, form) if name in FORMED else text_of(value)

    @property
    def parents(self) -> Tuple[Entry, ...]:
        """What it appears in."""
        return tuple(Entry(parent.get("key", self.key), parent) for parent in listed(self._data.get("parent")))

    def ancestors(self) -> Iterator[Entry]:
        """All of them, each before its own parents."""
        waiting = list(reversed(self.parents))
        while waiting:
            entry = waiting.pop()
            yield entry
            waiting.extend(reversed(entry.parents))

    def __repr__(self) -> str:
        return f"<{self.type} {self.key}>"


class Hit:
    """An entry that a selector picks, and the entries that its names stand for.

    >>> (hit,) = Library.parse("0\\ta\\tarticle\\n1\\tb\\tblog\\n").query("article > b:blog")
    >>> hit.key, hit["b"].type, dict(hit.bound)
    ('a', 'blog', {'b': <blog b>})
    """

    __slots__ = ("library", "selector", "place", "_steps", "_changes")

    def __init__(self, library: Library, selector: Selector, place: int, steps: Dict[str, int]) -> None:
        self.library, self.selector = library, selector
        #: The place of the entry in the library, from 0 on.
        self.place = place
        self._steps, self._changes = steps, library._changes

    @property
    def key(self) -> str:
        return self.entry.key

    @property
    def entry(self) -> Entry:
        """The entry. RuntimeError where the library has changed since."""
        with self.library._gate:
            self.library._is_still(self._changes)
            return self.library.at(self.place)

    @property
    def bound(self) -> Dict[str, Entry]:
        """What the names stand for, by name."""
        return {name: self[name] for name in self._steps}

    def __getitem__(self, name: str) -> Entry:
        """The entry that a name stands for; KeyError where it stands for none here."""
        step = self._steps[name]
        entry = self.entry
        if step == 0:
            return entry
        for number, ancestor in enumerate(entry.ancestors(), 1):
            if number == step:
                return ancestor
        raise KeyError(name)

    def __contains__(self, name: object) -> bool:
        return name in self._steps

    def __repr__(self) -> str:
        return f"<Hit {self.key}{''.join(' ' + name for name in self._steps)}>"


class Library(MutableMapping[str, Entry]):
    """Entries in order, each under its key. Any number of threads may ask it, and change it: who changes waits for those
    who ask.

    >>> library = Library.parse("0\\ta\\tbook\\n0\\tb\\tarticle\\n")
    >>> list(library), len(library), library["b"].type, "c" in library
    (['a', 'b'], 2, 'article', False)
    >>> library["c"] = {"type": "book", "title": "It"}
    >>> del library["a"]
    >>> [(entry.key, entry.title) for entry in library.entries()]
    [('b', None), ('c', 'It')]
    """

    __slots__ = ("source", "_held", "_lines", "_block", "_places", "_gate", "_changes", "__weakref__")

    #: The file that it was read of.
    source: Optional[str]
    _held: c_void_p
    _lines: Optional[List[bytes]]
    _block: Tuple[int, List[Entry]]
    _places: Optional[Dict[str, int]]
    _gate: _Gate
    _changes: int

    def __init__(self) -> None:
        raise TypeError("a library is made by Library.read or Library.parse")

    @classmethod
    def read(cls, path: Union[str, os.PathLike[str], bytes], format: Optional[Format] = None) -> Library:
        """The library of a file, or of the bytes of one. Raises ParseError with the place of the first fault, and
        OSError."""
        if isinstance(path, bytes):
            return cls.parse(path, format)
        with open(path, "rb") as file:
            return cls.parse(file.read(), format, source=os.fspath(path))

    @classmethod
    def parse(
        cls, data: Union[str, bytes], format: Optional[Format] = None, *, source: Optional[str] = None
    ) -> Library:
        """The library of a text, in one of the formats `lines`, `hayagriva` (in JSON), `yaml`, `csl-json`,
        `json-lines` and `bibtex`; without one the format is guessed from the first bytes, as `haya` does.

        >>> Library.parse("@book{lee, title = {It}}")["lee"].title, Library.parse("lee: {type: book}")["lee"].type
        ('It', 'book')
        """
        text = data.encode() if isinstance(data, str) else bytes(data)
        number = n.GUESSED if format is None else _FORMATS.get(format)
        if number is None:
            raise ValueError(f"no format {format!r}: there are {', '.join(_FORMATS)}")
        held, fault, self = c_void_p(), n.Fault(), object.__new__(cls)
        keys = secrets.randbits(64), secrets.randbits(64)
        if n.library_read(text, len(text), number, *keys, byref(held), byref(fault)) != n.OK:
            parse_failed(fault, source)
        weakref.finalize(self, n.library_free, held).atexit = False
        self.source, self._held, self._gate, self._changes = source, held, _Gate(), 0
        self._lines, self._block, self._places = None, (0, []), None
        return self

    def _is_still(self, changes: int) -> None:
        if self._changes != changes:
            raise RuntimeError("the library has changed since")

    def _changed(self) -> None:
        self._changes += 1
        self._lines, self._block, self._places = None, (0, []), None

    def __setitem__(self, key: str, entry: Mapping[str, Any]) -> None:
        """Puts an entry, as in hayagriva's file format, in the place of the one with its key, or last. Raises ParseError
        where it is none, and the library stays as it was.

        >>> library = Library.parse("")
        >>> library["a"] = {"type": "book", "titel": "It"}
        >>> library.notes
        {'titel': 1}
        """
        text, fault = json.dumps({key: dict(entry)}).encode(), n.Fault()
        with self._gate.alone():
            if n.library_push(self._held, text, len(text), byref(fault)) != n.OK:
                parse_failed(fault, None)
            self._changed()

    def __delitem__(self, key: str) -> None:
        """Takes the entry with a key out."""
        text = key.encode("utf-8", "surrogatepass")
        with self._gate.alone():
            if n.library_remove(self._held, text, len(text)) != n.OK:
                raise KeyError(key)
            self._changed()

    @property
    def notes(self) -> Dict[str, int]:
        """What was passed over of the text that was read last: each name with how often it came, as `haya` says it.

        >>> Library.parse('{"a": {"type": "book", "titel": 1}, "b": {"type": "book", "titel": 2}}').notes
        {'titel': 2}
        """
        with self._gate:
            return dict(n.note_of(self._held, number) for number in range(n.library_notes(self._held)))

    def _written(self, format: int) -> bytes:
        written = n.Written()
        with self._gate:
            code = n.library_write(self._held, format, byref(written))
        try:
            if code != n.OK:
                raise _refused(code)
            return bytes(written.text)
        finally:
            n.written_free(byref(written))

    def at(self, place: int) -> Entry:
        """The entry at a place, from 0 on."""
        with self._gate:
            first, block = self._block
            if not 0 <= place - first < len(block):
                many = _AT_ONCE if place == first + len(block) else 1
                first, block = self._block = place, self._read(place, many)
                if not block:
                    raise IndexError(place)
            return block[place - first]

    def _read(self, place: int, many: int) -> List[Entry]:
        """So many entries from a place on, as far as there are any."""
        with self._gate:
            lines = self._lines
            if lines is None:
                self._lines = lines = self._written(n.JSON_LINES).split(b"\n")[:-1]
        asked = lines[place : place + many] if place >= 0 else []
        return [Entry(line["key"], line["entry"]) for line in json.loads(b"[" + b",".join(asked) + b"]")]

    def entries(self) -> Iterator[Entry]:
        """The entries, in order. RuntimeError where the library has changed in between."""
        changes = self._changes
        for first in range(0, len(self), _AT_ONCE):
            with self._gate:
                self._is_still(changes)
                block = self._read(first, _AT_ONCE)
            yield from block

    def __len__(self) -> int:
        with self._gate:
            return int(n.library_len(self._held))

    def __iter__(self) -> Iterator[str]:
        return (entry.key for entry in self.entries())

    def __getitem__(self, key: str) -> Entry:
        with self._gate:
            if self._places is None:
                self._places = {entry.key: place for place, entry in enumerate(self.entries())}
            return self.at(self._places[key])

    def query(self, selector: Union[str, Selector]) -> Iterator[Hit]:
        """The hits of a selector, in the library's order, each looked for when it is asked for. Raises SelectorError
        at once, and RuntimeError where the library has changed in between."""
        return self._hits(selector if isinstance(selector, Selector) else Selector(selector))

    def _hits(self, selector: Selector) -> Iterator[Hit]:
        count = len(selector._slots) and max(selector._slots.values()) + 1
        place, hit = c_size_t(0), n.Place()
        bound: Array[n.Place] = (n.Place * (count + 1))()
        asked = (self._held, selector._held, byref(place), byref(hit), bound, count + 1)
        changes = self._changes
        while True:
            with self._gate:
                self._is_still(changes)
                code = n.library_next(*asked)
            if code == n.END:
                return
            if code != n.OK:
                raise _refused(code)
            steps = {
                name: bound[number].step
                for name, number in selector._slots.items()
                if bound[number].place != n.NOWHERE
            }
            yield Hit(self, selector, hit.place, steps)

    def matches(self, selector: Union[str, Selector], place: int) -> bool:
        """Whether a selector holds at the entry at a place."""
        asked = selector if isinstance(selector, Selector) else Selector(selector)
        holds = c_bool()
        with self._gate:
            code = n.entry_matches(self._held, asked._held, byref(n.Place(place, 0)), byref(holds))
        if code == n.NO_ENTRY:
            raise IndexError(place)
        if code != n.OK:
            raise _refused(code)
        return holds.value

    def to_bytes(self, format: Format = "hayagriva") -> bytes:
        """The library as a text in `hayagriva`, hayagriva's file format in JSON, or in `json-lines`."""
        return self._written(_FORMATS[format])

    def write(self, path: Union[str, os.PathLike[str]], format: Format = "hayagriva") -> None:
        """Writes that text to a file."""
        text = self.to_bytes(format)
        with open(path, "wb") as file:
            file.write(text)

    def __repr__(self) -> str:
        return f"<Library of {len(self)} entries{f' from {self.source!r}' if self.source else ''}>"
