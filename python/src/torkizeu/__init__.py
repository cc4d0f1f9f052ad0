"""A proved literature library, and the selectors that pick its entries.

>>> library = Library.parse('{"a": {"type": "article", "title": "On it", "author": "Lee, Ann", "date": "1987-07",'
...                         ' "parent": {"type": "periodical", "title": "Things"}}}')
>>> for hit in library.query("article > p:periodical"):
...     print(hit.key, hit.entry.title, hit.entry.date.year, hit.entry.authors[0].family, "in", hit["p"].title)
a On it 1987 Lee in Things
"""
from ._errors import Error, OutOfMemory, ParseError, SelectorError
from ._library import Entry, Format, Hit, Library, Selector
from ._values import Date, Person, TextForm

__version__ = "0.2.0"
__all__ = [
    "Library",
    "Entry",
    "Hit",
    "Selector",
    "Person",
    "Date",
    "Error",
    "ParseError",
    "SelectorError",
    "OutOfMemory",
    "Format",
    "TextForm",
    "__version__",
]
