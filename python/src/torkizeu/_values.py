"""Persons and dates of an entry, from its JSON."""
from __future__ import annotations

import re
from typing import Any, Dict, Literal, NamedTuple, Optional, Tuple


class Person(NamedTuple):
    """A person in parts.

    >>> Person.of("von Goethe, Johann Wolfgang").family
    'Goethe'
    >>> str(Person.of({"name": "Lee", "given-name": "Ann"}))
    'Lee, Ann'
    """

    family: str
    given: Optional[str] = None
    prefix: Optional[str] = None
    suffix: Optional[str] = None
    alias: Optional[str] = None

    @classmethod
    def of(cls, value: Any) -> Person:
        """The person of a value in hayagriva's file format: an object of the parts, or a text of `family, given` or
        `family, suffix, given` whose family may begin with a prefix in lower case."""
        if isinstance(value, dict):
            return cls(
                value["name"],
                value.get("given-name"),
                value.get("prefix"),
                value.get("suffix"),
                value.get("alias"),
            )
        family, _, given = str(value).partition(",")
        if "," not in given and not family.lstrip()[:1].islower():
            return cls(family.strip(), given.strip() or None)
        parts = [part.strip() for part in str(value).split(",", 2)]
        words = parts[0].split(" ")
        count = 0
        while count < len(words) - 1 and words[count][:1].islower():
            count += 1
        suffix = parts[1] if len(parts) == 3 else None
        given = parts[-1] if len(parts) > 1 else None
        return cls(" ".join(words[count:]), given or None, " ".join(words[:count]) or None, suffix or None)

    def __str__(self) -> str:
        family = f"{self.prefix} {self.family}" if self.prefix else self.family
        return ", ".join(part for part in (family, self.suffix, self.given) if part)


_DATE = re.compile(r"([-+]?\d+)(?:-(\d\d))?(?:-(\d\d))?")


class Date(NamedTuple):
    """A year, and a month and a day from 1 on, or a season, where they are known.

    >>> Date.of("1987-07").month
    7
    >>> Date.of(-44).year
    -44
    """

    year: int
    month: Optional[int] = None
    day: Optional[int] = None
    season: Optional[str] = None
    approximate: bool = False

    @classmethod
    def of(cls, value: Any) -> Date:
        """The date of a value in hayagriva's file format: a year, a text as `1987-07-05`, behind `~` where it is
        approximate, or an object of the parts."""
        if isinstance(value, int):
            return cls(value)
        if isinstance(value, dict):
            return cls(
                value["year"],
                value.get("month"),
                value.get("day"),
                value.get("season"),
                bool(value.get("approximate", False)),
            )
        text = str(value)
        if len(text) in (7, 10) and text[4] == "-" and text[:4].isdigit() and text[5:7].isdigit():
            if len(text) == 7:
                return cls(int(text[:4]), int(text[5:]))
            if text[7] == "-" and text[8:].isdigit():
                return cls(int(text[:4]), int(text[5:7]), int(text[8:]))
        at = _DATE.fullmatch(text.lstrip("~"))
        if at is None:
            raise ValueError(f"no date: {value!r}")
        month, day = (int(part) if part else None for part in (at[2], at[3]))
        return cls(int(at[1]), month, day, None, text.startswith("~"))

    def __str__(self) -> str:
        parts = [f"{self.year:04}" if self.year >= 0 else f"-{-self.year:04}"]
        parts += [f"{part:02}" for part in (self.month, self.day) if part is not None]
        return "-".join(parts)


#: In which form a text is asked for.
TextForm = Literal["plain", "marked-up", "short"]

#: The fields whose texts have a form of each; any other has one text in all of them.
FORMED = frozenset(
    "title location organization archive archive-location call-number note abstract genre publisher".split()
)


def text_of(value: Any) -> Optional[str]:
    """The text of a value that is one, or a number, or an object of either; None of a list."""
    if isinstance(value, dict):
        inner: Dict[str, Any] = value
        return text_of(inner.get("value", inner.get("name")))
    return None if value is None or isinstance(value, list) else str(value)


def formed(value: Any, form: TextForm) -> Optional[str]:
    """The text of a value that keeps chunks by signs, or of an object of it, of its short form, or of a publisher's name.

    >>> [formed({"value": "The {ACM} of $x$", "short": "{ACM}"}, form) for form in ("plain", "marked-up", "short")]
    ['The ACM of $x$', 'The {ACM} of $x$', 'ACM']
    """
    if isinstance(value, dict) and ("name" in value or "location" in value):
        return formed(value.get("name"), form)
    text = text_of(value)
    if form == "short" and isinstance(value, dict):
        text = value.get("short", text)
    return text if text is None or form == "marked-up" else plain(text)


def plain(text: str) -> str:
    r"""A text of the file format as it is shown: `{..}` keeps its case, `$..$` is a formula, which is shown between its dollars, and a
    backslash stands before a brace, a dollar or a backslash that means itself.

    >>> plain(r"The {ACM} and \{braces\} of $x$")
    'The ACM and {braces} of $x$'
    """
    if "{" not in text and "\\" not in text and "}" not in text:
        return text
    return re.sub(r"\\(.)|[{}]", lambda at: at[1] or "", text)


def listed(value: Any) -> Tuple[Any, ...]:
    """The values of one that may be a list."""
    if value is None:
        return ()
    return tuple(value) if isinstance(value, list) else (value,)
