"""The package as it is installed. TORKIZEU_EXAMPLES is the folder of the examples, ../../examples where it isn't set."""
from __future__ import annotations

import ctypes
import doctest
import gc
import json
import os
import threading
import unittest
from pathlib import Path
from typing import Any, Optional

import torkizeu
from torkizeu import Date, Entry, Library, ParseError, Person, Selector, SelectorError, _values

HERE = Path(__file__).resolve().parent
EXAMPLES = Path(os.environ.get("TORKIZEU_EXAMPLES", HERE.parent.parent / "examples"))


def load_tests(loader: unittest.TestLoader, tests: unittest.TestSuite, pattern: Any) -> unittest.TestSuite:
    from torkizeu import _errors, _library, _values

    for module in (torkizeu, _errors, _library, _values):
        tests.addTests(doctest.DocTestSuite(module, extraglobs={"Library": Library}))
    return tests


class Reading(unittest.TestCase):
    def test_formats_are_told_apart(self) -> None:
        json_files = (("zotero.json", 53), ("library.json", 31), ("xampl.json", 36))
        for name, length in (*json_files, ("library.tsv", 2), ("library.yml", 31), ("refs.bib", 9)):
            self.assertEqual(len(Library.read(EXAMPLES / name)), length, name)
        self.assertEqual(len(Library.parse(b"\xef\xbb\xbf[]")), 0)
        self.assertEqual(len(Library.read(b"0\ta\tbook\n")), 1)

    def test_each_format(self) -> None:
        texts = {
            "lines": "0\tk\tbook\ttitle=A",
            "hayagriva": '{"k": {"type": "book", "title": "A"}}',
            "yaml": "k:\n  type: book\n  title: A\n",
            "csl-json": '[{"id": "k", "type": "book", "title": "A"}]',
            "json-lines": '{"key": "k", "entry": {"type": "book", "title": "A"}}',
            "bibtex": "@book{k, title = {A}}",
        }
        for name, text in texts.items():
            for marked in (text.encode(), b"\xef\xbb\xbf" + text.encode()):
                for library in (Library.parse(marked), Library.parse(marked, name)):
                    self.assertEqual([(e.key, e.type, e.title) for e in library.entries()], [("k", "book", "A")], name)
        yaml, json_file = (Library.read(EXAMPLES / f"library.{end}") for end in ("yml", "json"))
        self.assertEqual([e.to_dict() for e in yaml.entries()], [e.to_dict() for e in json_file.entries()])

    def test_places_of_faults(self) -> None:
        with self.assertRaises(ParseError) as at:
            Library.parse("0\ta\tbook\n0\tb\tbok\n", "lines", source="x.tsv")
        fault = at.exception
        self.assertEqual((fault.line, fault.column, fault.source), (2, None, "x.tsv"))
        self.assertEqual(str(fault), "x.tsv: line 2: type")
        with self.assertRaises(ParseError) as at:
            Library.parse('{"a": ["book"]}')
        self.assertEqual((at.exception.pointer, at.exception.line), ("/a", None))
        places = {
            "k:\n  type: book\n  title: A: B\n": (3, 11, None),
            "\nk: book\n": (2, None, "/k"),
            "@book{k,\n  title {A}}": (2, 9, None),
        }
        for text, place in places.items():
            with self.assertRaises(ParseError) as at:
                Library.parse(text)
            self.assertEqual((at.exception.line, at.exception.column, at.exception.pointer), place, text)
        with self.assertRaises(ParseError):
            Library.parse(b"\xff", "lines")
        with self.assertRaises(OSError):
            Library.read("/nowhere")
        with self.assertRaises(ValueError):
            Library.parse("", "ris")
        with self.assertRaises(TypeError):
            Library()

    def test_writing(self) -> None:
        library = Library.read(EXAMPLES / "library.json")
        again = Library.parse(library.to_bytes())
        self.assertEqual([e.to_dict() for e in library.entries()], [e.to_dict() for e in again.entries()])
        lines = Library.parse(library.to_bytes("json-lines"), "json-lines")
        self.assertEqual(list(lines), list(library))
        for name in ("lines", "yaml", "csl-json", "bibtex"):
            with self.assertRaises(torkizeu.Error):
                library.to_bytes(name)


class Changing(unittest.TestCase):
    def test_what_was_passed_over(self) -> None:
        notes = Library.read(EXAMPLES / "zotero.json").notes
        self.assertEqual((next(iter(notes)), notes["source"]), ("source", 6))
        self.assertEqual(Library.parse("0\ta\tbook\n").notes, {})

    def test_entries_are_set_and_deleted(self) -> None:
        library = Library.read(EXAMPLES / "library.json")
        first, last = list(library)[0], list(library)[-1]
        library["new"] = {"type": "article", "title": "T\u00e4", "parent": {"type": "blog", "titel": "x"}}
        self.assertEqual((len(library), list(library)[-1], library.at(31).title), (32, "new", "T\u00e4"))
        self.assertEqual(library.notes, {"titel": 1})
        self.assertEqual([hit.key for hit in library.query("article > x:blog")][-1:], ["new"])
        library[first] = library[last]
        self.assertEqual((list(library)[0], library[first].to_dict()), (first, library[last].to_dict()))
        self.assertEqual(library.pop("new").title, "T\u00e4")
        del library[first]
        self.assertEqual((len(library), first in library, library.get("new")), (30, False, None))
        self.assertEqual(list(Library.parse(library.to_bytes())), list(library))
        for key in (first, "nobody", "\ud800"):
            with self.assertRaises(KeyError):
                del library[key]
        library.clear()
        self.assertEqual((len(library), list(library.query("*"))), (0, []))

    def test_what_is_no_entry(self) -> None:
        library = Library.parse("0\ta\tbook\n")
        with self.assertRaises(ParseError) as at:
            library["b"] = {"type": "book", "volume": float("nan")}
        self.assertEqual((at.exception.line, at.exception.column), (1, 34))
        with self.assertRaises(ParseError):
            library["b\ud800"] = {"type": "book"}
        self.assertEqual(list(library), ["a"])

    def test_hits_from_before(self) -> None:
        library = Library.parse("0\ta\tbook\n0\tb\tbook\n")
        hits, entry = library.query("*"), library["a"]
        hit = next(hits)
        del library["a"]
        self.assertEqual(entry.type, "book")
        with self.assertRaises(RuntimeError):
            hit.entry
        with self.assertRaises(RuntimeError):
            next(hits)

    def test_one_changes_while_others_ask(self) -> None:
        library, wrong = Library.parse("0\ta\tbook\n"), []

        def ask() -> None:
            for _ in range(200):
                try:
                    if not any(hit.key == "a" for hit in library.query("book")):
                        wrong.append(1)
                except RuntimeError:
                    pass

        threads = [threading.Thread(target=ask) for _ in range(3)]
        for thread in threads:
            thread.start()
        for number in range(200):
            library[f"k{number}"] = {"type": "book"}
        for thread in threads:
            thread.join()
        self.assertEqual((wrong, len(library)), ([], 201))


class Asking(unittest.TestCase):
    library: Library

    @classmethod
    def setUpClass(cls) -> None:
        cls.library = Library.read(EXAMPLES / "zotero.json")

    def test_a_hit_and_what_is_bound(self) -> None:
        hits = list(self.library.query("article[doi] > p:periodical"))
        self.assertEqual([hit.key for hit in hits], ["ferrante1987", "altschul1990"])
        entry, parent = hits[0].entry, hits[0]["p"]
        self.assertEqual(entry.title, "The program dependence graph and its use in optimization")
        self.assertEqual(entry.date, Date(1987, 7))
        self.assertEqual(entry.authors[0], Person("Ferrante", "Jeanne"))
        self.assertEqual((entry.type, parent.type), ("article", "periodical"))
        self.assertEqual(parent.title, "ACM Transactions on Programming Languages and Systems")
        self.assertEqual((parent.text("volume"), entry.doi), ("9", "10.1145/24039.24041"))
        self.assertEqual(entry["page-range"], "319-349")
        with self.assertRaises(KeyError):
            hits[0]["q"]

    def test_one_name_for_two_types(self) -> None:
        hits = self.library.query("(chapter > b:book) | (anthos > b:anthology)")
        self.assertEqual({hit.key: hit["b"].type for hit in hits}, {"shelley2003": "anthology", "melville1851": "book"})

    def test_mapping(self) -> None:
        self.assertEqual(self.library["ferrante1987"].key, "ferrante1987")
        self.assertNotIn("nobody", self.library)
        self.assertIsNone(self.library.get("nobody"))
        self.assertEqual(len(list(self.library.items())), 53)
        with self.assertRaises(IndexError):
            self.library.at(53)

    def test_bound_entries_are_those_of_the_tree(self) -> None:
        tree = {"type": "article", "parent": [{"type": "blog", "title": "1", "parent": {"type": "misc", "title": "2"}},
                                              {"type": "blog", "title": "3", "parent": {"type": "web", "title": "4"}}]}
        library = Library.parse(json.dumps({"a": tree}))
        for selector, title in (("* > x:blog", "1"), ("* > (blog > x:misc)", "2"), ("* > x:(blog > web)", "3"), ("* > (blog > x:web)", "4")):
            (hit,) = library.query(selector)
            self.assertEqual(hit["x"].title, title, selector)
        self.assertEqual([e.title for e in library["a"].ancestors()], ["1", "2", "3", "4"])

    def test_selectors(self) -> None:
        selector = Selector("article > p:periodical")
        self.assertEqual(selector.names, ("p",))
        self.assertTrue(self.library.matches(selector, next(iter(self.library.query(selector))).place))
        with self.assertRaises(SelectorError) as at:
            self.library.query("article > Pamphlet")
        self.assertEqual((at.exception.name, at.exception.position), ("pamphlet", 10))
        with self.assertRaises(SelectorError) as at:
            Selector("(" * 2000)
        self.assertIsNone(at.exception.position)
        with self.assertRaises(ValueError):
            Selector("article, book")

    def test_many_threads(self) -> None:
        selector, wrong = Selector("article[doi] > p:periodical"), []

        def ask() -> None:
            for _ in range(50):
                if [hit["p"].type for hit in self.library.query(selector)] != ["periodical", "periodical"]:
                    wrong.append(1)

        threads = [threading.Thread(target=ask) for _ in range(4)]
        for thread in threads:
            thread.start()
        for thread in threads:
            thread.join()
        self.assertEqual(wrong, [])

    def test_what_is_asked_outlives_its_library(self) -> None:
        hits = list(Library.parse("0\ta\tarticle\n1\tb\tblog\n").query("* > x:blog"))
        gc.collect()
        self.assertEqual(hits[0]["x"].key, "b")


class Values(unittest.TestCase):
    def test_every_entry_of_the_examples(self) -> None:
        for name in ("zotero.json", "library.json", "fields.json", "xampl.json"):
            for entry in Library.read(EXAMPLES / name).entries():
                for each in (entry, *entry.ancestors()):
                    self.assertIsInstance(each, Entry)
                    _ = (each.title, each.authors, each.editors, each.date, each.doi, each.url, each.to_dict(), repr(each))

    def test_texts_are_those_of_the_library(self) -> None:
        from torkizeu import _native as n

        short = {"value": r"The {ACM} of $x^2$ \{s\} \\ \$", "short": r"{A} $x$ \{"}
        made = {"type": "book", "title": short, "note": short["value"], "publisher": {"name": short, "location": "{B}"}}
        libraries = [Library.parse(json.dumps({"a": {**made, "parent": {"type": "blog", "publisher": short, "archive": short}}}))]
        libraries += [Library.read(EXAMPLES / name) for name in ("zotero.json", "library.json", "fields.json", "xampl.json", "refs.bib")]
        compared = 0
        for library in libraries:
            for place, entry in enumerate(library.entries()):
                for step, each in enumerate((entry, *entry.ancestors())):
                    for name in sorted((*_values.FORMED, "url", "language", "volume", "page-range", "runtime")):
                        for number, form in enumerate(("marked-up", "plain", "short")):
                            text = self.text_in_c(n, library, n.Place(place, step), name, number)
                            self.assertEqual(each.text(name, form), text, (each.key, name, form))
                            compared += text is not None
        self.assertGreater(compared, 1000)
        self.assertEqual(libraries[0]["a"].short_title, "A $x$ {")
        with self.assertRaises(ValueError):
            libraries[0]["a"].text("title", "long")  # type: ignore[arg-type]

    def text_in_c(self, n: Any, library: Library, place: Any, name: str, form: int) -> Optional[str]:
        """The text of a field as the library for C says it."""
        room, length = ctypes.create_string_buffer(1 << 16), ctypes.c_size_t()
        asked = (library._held, ctypes.byref(place), name.encode(), len(name), form, room, len(room), ctypes.byref(length))
        code = n.entry_text_as(*asked)
        self.assertIn(code, (n.OK, n.NO_FIELD))
        return room.raw[: length.value].decode() if code == n.OK else None

    def test_persons(self) -> None:
        self.assertEqual(Person.of("de la Cruz, Juana"), Person("Cruz", "Juana", "de la"))
        self.assertEqual(Person.of("King, Jr., Martin Luther"), Person("King", "Martin Luther", None, "Jr."))
        self.assertEqual(Person.of("UNESCO"), Person("UNESCO"))

    def test_dates(self) -> None:
        self.assertEqual(Date.of("~1987"), Date(1987, None, None, None, True))
        self.assertEqual(str(Date(1987, 7, 5)), "1987-07-05")


if __name__ == "__main__":
    unittest.main()
