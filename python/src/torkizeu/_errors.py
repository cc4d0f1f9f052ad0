"""Why there is nothing: exceptions that know the place."""
from __future__ import annotations

from ctypes import byref
from typing import NoReturn, Optional

from . import _native as n


class Error(Exception):
    """What this package raises of itself. `code` is a number of hayagriva.h."""

    code: int

    def __init__(self, text: str, code: int) -> None:
        super().__init__(text)
        self.code = code


class ParseError(Error, ValueError):
    """A text that isn't read as a library.

    `reason` has all of it in words. `line` and `column`, from 1 on, or `pointer`, the JSON Pointer to a value, say
    where, each None where it isn't known; `source` is the file.

    >>> from torkizeu import Library
    >>> try:
    ...     Library.parse('{"a": {"type": "book",\\n "date": }}')
    ... except ParseError as error:
    ...     print(error.line, error.column, error)
    2 10 line 2, column 10: invalid JSON
    """

    def __init__(self, fault: n.Fault, source: Optional[str]) -> None:
        self.reason = str(fault.reason) or n.message(fault.code)
        self.source = source
        self.line: Optional[int] = fault.line or None
        self.column: Optional[int] = fault.column or None
        self.pointer: Optional[str] = str(fault.pointer) or None
        super().__init__(f"{source}: {self.reason}" if source else self.reason, fault.code)


class SelectorError(Error, ValueError):
    """A text that is no selector: `position` is the place of the character at which it is seen, None where there is
    none, and `name` the type that there isn't.

    >>> from torkizeu import Selector
    >>> try:
    ...     Selector("book > boook")
    ... except SelectorError as error:
    ...     print(error.position, error.name, error)
    7 boook unknown entry type: 'boook' in selector 'book > boook' at 7
    """

    def __init__(self, code: int, selector: str, name: Optional[str] = None, position: Optional[int] = None) -> None:
        self.reason, self.selector, self.name, self.position = n.message(code), selector, name, position
        text = self.reason + (f": {name!r}" if name is not None else "") + f" in selector {selector!r}"
        super().__init__(text if position is None else f"{text} at {position}", code)


class OutOfMemory(Error, MemoryError):
    """An allocation of the library failed: nothing is said of the input."""


def parse_failed(fault: n.Fault, source: Optional[str]) -> NoReturn:
    try:
        if fault.code == n.OUT_OF_MEMORY:
            raise OutOfMemory(n.message(fault.code), fault.code)
        raise ParseError(fault, source)
    finally:
        n.fault_free(byref(fault))


def selector_failed(fault: n.Fault, selector: str) -> NoReturn:
    try:
        if fault.code == n.OUT_OF_MEMORY:
            raise OutOfMemory(n.message(fault.code), fault.code)
        name = str(fault.name) or None
        position = None
        if fault.code >= 100:
            position = len(selector.encode()[: fault.offset].decode(errors="ignore"))
        raise SelectorError(fault.code, selector, name, position)
    finally:
        n.fault_free(byref(fault))
