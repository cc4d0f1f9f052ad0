#!/usr/bin/env python3
"""dask_query.py [OPTIONS] --from FORMAT SELECTOR FILE..: asks a library by haya on many machines, as workers of Dask.

Each file, in json-lines or in lines, is cut into parts where an entry begins. A worker asks a part by `haya --stream`, and the
answers are printed in the order of the parts: the bytes that one process prints. A part whose worker is lost is asked again by
another. docs/at-scale.md says more; the status is haya's.
"""
import argparse
import asyncio
import collections
import contextlib
import fcntl
import json
import logging
import os
import re
import shutil
import subprocess
import sys
import tempfile
import zlib

try:
    import dask
    import fsspec
    from dask.distributed import Client, LocalCluster
    from dask.utils import parse_bytes
    from fsspec.implementations.local import LocalFileSystem
    from fsspec.utils import seek_delimiter
except ImportError as lacking:
    print(f"haya: {lacking}: Dask is Debian's python3-distributed", file=sys.stderr)
    sys.exit(2)

# An entry begins behind the first line feed of these bytes.
ENTRY = {"lines": b"\n0\t", "json-lines": b"\n"}

# How many bytes are read at once.
PIECE = 1 << 20


class Fault(Exception):
    """What ends the run with status 2: a message, or nothing where it was told."""


# ---- parts of files

# Of the file at `path` of a file system, which messages call `name`: the entries that begin from `start` on and before `end`.
Part = collections.namedtuple("Part", "system path name start end")


def files_of(name):
    """The files that a name or a pattern means, with their file system: this machine's, or that of a protocol, as s3://."""
    system, path = fsspec.core.url_to_fs(name)
    if system.isfile(path):
        return [(system, path, name)]
    paths = sorted(it for it in system.glob(path) if system.isfile(it))
    if not paths:
        raise Fault(f"{name}: no such file")
    return [(system, it, it) for it in paths]


def parts_of(names, size):
    """The parts of these files, in order, each of about so many bytes."""
    for system, path, name in (it for each in names for it in files_of(each)):
        end = system.info(path)["size"]
        for start in range(0, end, size):
            yield Part(system, path, name, start, min(start + size, end))


def next_entry(file, place, entry):
    """The first place from this one on where an entry begins, or the end of the file. One does at the start of a file."""
    file.seek(place)
    is_found = seek_delimiter(file, entry, 1 << 16)
    return file.tell() - (len(entry) - 1 if is_found else 0)


def copy_part(part, entry, text):
    """Writes a part's whole lines: those of all parts of a file, joined, are the file. Those of a file of this machine the system hands on."""
    with part.system.open(part.path, "rb") as file:
        start, end = next_entry(file, part.start, entry), next_entry(file, part.end, entry)
        if isinstance(part.system, LocalFileSystem) and hasattr(os, "sendfile"):
            while start < end and (copied := os.sendfile(text.fileno(), file.fileno(), start, end - start)):
                start += copied
        else:
            file.seek(start)
            shutil.copyfileobj(Limited(file, end - start), text, PIECE)


class Limited:
    """The next bytes of a file, so many at most."""

    def __init__(self, file, left):
        self.file, self.left = file, left

    def read(self, size):
        piece = self.file.read(min(self.left, size))
        self.left -= len(piece)
        return piece


def line_feeds(part, entry, start):
    """How many line feeds the file of a part has from this place up to where the part's first entry begins, and that place."""
    with part.system.open(part.path, "rb") as file:
        end = next_entry(file, part.start, entry)
        file.seek(start)
        text = Limited(file, end - start)
        return sum(piece.count(b"\n") for piece in iter(lambda: text.read(PIECE), b"")), end


# ---- what a worker does

# What `haya` answers to a text: its status, and what it printed and said.
Answer = collections.namedtuple("Answer", "status out said")


def new_file():
    """A file without a name, in memory where the system has such."""
    return os.fdopen(os.memfd_create("part"), "w+b") if hasattr(os, "memfd_create") else tempfile.TemporaryFile()


def widen(pipe):
    """Has a pipe hold a megabyte where the system allows it, so that its two ends take fewer turns."""
    if hasattr(fcntl, "F_SETPIPE_SZ"):
        with contextlib.suppress(OSError):
            fcntl.fcntl(pipe, fcntl.F_SETPIPE_SZ, PIECE)


def whole(file):
    """What is in a file."""
    file.seek(0)
    return file.read()


def run(command, write=None):
    """Runs `haya` over a text that is written to it. Where it is killed there is no answer, and Dask tries the call again."""
    with new_file() as out, new_file() as said:
        with subprocess.Popen(command, stdin=subprocess.PIPE, stdout=out, stderr=said) as child:
            # (at a fault it ends before the text does)
            with contextlib.suppress(BrokenPipeError), child.stdin as text:
                widen(text)
                if write:
                    write(text)
        answer = Answer(child.returncode, whole(out), whole(said))
    if answer.status not in (0, 1, 2):
        raise ChildProcessError(f"{command[0]} ended with status {answer.status}: {answer.said.decode(errors='replace')}")
    return answer


def run_over(command, pieces):
    """Runs `haya` over a text in pieces."""
    return run(command, lambda text: text.writelines(pieces))


def ask(part, entry, command):
    """What a part answers."""
    return run(command, lambda text: copy_part(part, entry, text))


def sort(part, entry, pick, order):
    """The hits of a part in order, as lines of JSON: picked as they are read, and then sorted."""
    picked = ask(part, entry, pick)
    if picked.status == 2:
        return picked
    ordered = of_hits(run_over(order, [picked.out]))
    return ordered._replace(said=picked.said + ordered.said)


def of_hits(answer):
    """An answer to hits, and no input of the user's: its messages say so."""
    return answer._replace(said=answer.said.replace(b"haya: standard input:", b"haya: the hits:"))


def without_output(answer):
    return answer._replace(out=b"")


def sample(answer, distance):
    """How many bytes the hits of a part have, and of the hits one for each `distance` bytes."""
    chosen, passed = [], 0
    for hit in answer.out.splitlines(keepends=True):
        passed += len(hit)
        if passed >= distance:
            chosen.append(hit)
            passed = 0
    return len(answer.out), b"".join(chosen)


def choose_marks(order, size, *samples):
    """Of the samples of all parts, in order, those that separate all hits into ranges of about so many bytes."""
    chosen = run_over(order, (hits for _, hits in samples)).out.splitlines()
    number = min(sum(length for length, _ in samples) // size, len(chosen))
    marks = [json.loads(chosen[len(chosen) * at // (number + 1)]) for at in range(1, number + 1)]
    return [json.dumps(mark | {"key": mark["key"] + "\0"}).encode() + b"\n" for mark in marks]


def cut(answer, marks, order):
    """The hits of a part that come before the first mark, between two, and behind the last.

    A mark is a hit with a key that no entry has. It is read first, so in every part it comes before the hits that it ties with.
    """
    hits, marks = answer.out.splitlines(keepends=True), b"".join(marks)
    marked = set(keys_in(run_over(order, [marks]).out))
    ordered = keys_in(run_over(order, [marks, answer.out]).out)
    if len(ordered) != len(hits) + len(marked):
        raise ValueError("the hits of a part can't be cut: one has the key of a mark")
    pieces, rest = [[]], iter(hits)
    for key in ordered:
        if key in marked:
            pieces.append([])
        else:
            pieces[-1].append(next(rest))
    return [b"".join(piece) for piece in pieces]


def keys_in(hits):
    """The keys of lines that `haya` printed as json-lines, as they are written there."""
    return re.findall(rb'^\{"key":"((?:[^"\\]|\\.)*)"', hits, re.MULTILINE)


def merge(command, *pieces):
    """What `haya` prints of sorted pieces in the order of their parts: of hits that tie, the earlier comes first."""
    return of_hits(run_over(command, pieces))


def keys_of(part, entry, command, number):
    """The keys of a part's entries, as `haya` prints them, in so many lists: each key is always in the same of them."""
    lists = [[] for _ in range(number)]
    for key in ask(part, entry, command).out.splitlines():
        lists[zlib.crc32(key) % number].append(key)
    return lists


def repeated(names, *lists):
    """How many keys come more than once, in a list or in two; and the first ten with the names of their lists."""
    places = collections.defaultdict(list)
    for name, keys in zip(names, lists):
        for key in keys:
            places[key].append(name)
    found = sorted((key, where) for key, where in places.items() if len(where) > 1)
    return len(found), found[:10]


def item(lists, at):
    return lists[at]


# ---- what is said

class Messages:
    """Tells what `haya` says of the parts, which come in order, as it would say it of the files. `entry` is how an entry begins."""

    def __init__(self, entry):
        self.entry, self.told, self.passed_over = entry, set(), {}
        # Up to this place of this file there are so many line feeds. They are counted where a line is told.
        self.file, self.place, self.lines = None, 0, 0

    def lines_before(self, part):
        """How many lines of its file come before a part."""
        if (part.system, part.path) != self.file:
            self.file, self.place, self.lines = (part.system, part.path), 0, 0
        more, self.place = line_feeds(part, self.entry, self.place)
        self.lines += more
        return self.lines

    def take(self, part, answer):
        """Tells what is said of a part, each line once: the line of a fault is that of the file, and a fault comes last."""
        said = answer.said.decode(errors="replace").split("\n")[:-1]
        for at, line in enumerate(said):
            if part:
                line = re.sub(r"^haya: standard input: line (\d+)", lambda it: f"haya: {part.name}: line {int(it[1]) + self.lines_before(part)}", line)
                line = re.sub(r"^haya: standard input:", lambda _: f"haya: {part.name}:", line)
            counts = re.fullmatch(r"(.*): passed over: (.* \(\d+\))", line)
            if answer.status == 2 and at == len(said) - 1:
                self.end()
            if counts:
                self.count(*counts.groups())
            elif line not in self.told:
                self.told.add(line)
                print(line, file=sys.stderr)

    def count(self, file, names):
        counts = self.passed_over.setdefault(file, collections.Counter())
        for name, number in re.findall(r"(.*?) \((\d+)\)(?:, |$)", names):
            counts[name] += int(number)

    def end(self):
        """Tells what was passed over of each file."""
        for file, counts in self.passed_over.items():
            print(f"{file}: passed over: {', '.join(f'{name} ({number})' for name, number in counts.items())}", file=sys.stderr)


# ---- what the client does

class Library:
    """The parts of a library, and the workers that ask them what the words say."""

    def __init__(self, client, words):
        self.client, self.words = client, words
        self.parts = list(parts_of(words.file, words.part))
        self.entry = ENTRY[words.format]
        self.ahead = 4 * max(1, sum(client.ncores().values()))
        self.messages = Messages(self.entry)

    def haya(self, form, *options):
        return [self.words.haya, "--from", form, *options, *self.words.select, "--", self.words.selector]

    def submit(self, call, *values):
        """Has a worker do it; where the call itself fails, which no fault of an input is, twice more."""
        return self.client.submit(call, *values, pure=False, retries=2)

    def in_order(self, calls):
        """What these calls give, in order. A few more than the workers can do at once are begun, so that little is kept."""
        begun = collections.deque()
        for call in calls:
            begun.append(self.submit(*call))
            if len(begun) > self.ahead:
                yield begun.popleft().result()
        while begun:
            yield begun.popleft().result()

    def begin(self, command):
        """What is printed of an empty library, a table's header: so a fault of the words is told before any part is asked."""
        answer = self.submit(run, command).result()
        if answer.status == 2:
            sys.stderr.buffer.write(answer.said)
            raise Fault
        return b"" if self.words.count else answer.out

    def show(self, answers):
        """Prints the answers, or their sum; whether one has a hit. At the first fault that is told, and nothing behind it."""
        total, is_hit = 0, False
        for part, answer in answers:
            if self.words.count:
                total += int(answer.out or 0)
            else:
                write(answer.out)
            self.take(part, answer)
            is_hit |= answer.status == 0
        if self.words.count:
            write(b"%d\n" % total)
        return is_hit

    def take(self, part, answer):
        self.messages.take(part, answer)
        if answer.status == 2:
            raise Fault

    def ask(self):
        """Prints the hits in the order of the library; whether there are any."""
        form, tests = self.words.format, ["--stream", *self.words.where]
        write(self.begin(self.haya(form, *tests, *self.words.show)))
        command = self.haya(form, *tests, *self.words.show_more)
        return self.show(zip(self.parts, self.in_order((ask, part, self.entry, command) for part in self.parts)))

    def sort(self):
        """Prints the hits sorted: the sorted hits of each part are separated at the same marks, and what is between two is merged."""
        tests = [*self.words.where, self.words.sort]
        header = self.begin(self.haya(self.words.format, *tests, *self.words.show))
        pick, order = self.haya(self.words.format, "--stream", "--to=json-lines"), self.haya("json-lines", *tests, "--to=json-lines")
        hits = [self.submit(sort, part, self.entry, pick, order) for part in self.parts]
        for part, answer in zip(self.parts, self.in_order((without_output, it) for it in hits)):
            self.take(part, answer)
        distance = self.words.part // 32 + 1
        marks = self.submit(choose_marks, order, self.words.part, *(self.submit(sample, it, distance) for it in hits))
        pieces = [self.submit(cut, it, marks, order) for it in hits]
        command = self.haya("json-lines", *tests, *self.words.show_more)
        number = len(marks.result()) + 1
        write(header)
        ranges = ((merge, command, *(self.submit(item, it, at) for it in pieces)) for at in range(number))
        return self.show((None, answer) for answer in self.in_order(ranges))

    def check_keys(self):
        """Tells the first ten keys that come again, and how many more; whether there are any."""
        number = len(self.parts) // 8 + 1
        command = [self.words.haya, "--from", self.words.format, "--stream", "--no-notes", "*"]
        keys = [self.submit(keys_of, part, self.entry, command, number) for part in self.parts]
        names = [f"{part.name} from byte {part.start} on" for part in self.parts]
        calls = ((repeated, names, *(self.submit(item, it, at) for it in keys)) for at in range(number))
        numbers, found = zip(*self.in_order(calls))
        for key, places in sorted(it for some in found for it in some)[:10]:
            print(f"haya: `{key.decode(errors='replace')}` comes again: {', '.join(dict.fromkeys(places))}", file=sys.stderr)
        if sum(numbers) > 10:
            print(f"haya: {sum(numbers) - 10} more keys come again", file=sys.stderr)
        return any(numbers)


def write(text):
    sys.stdout.buffer.write(text)
    sys.stdout.buffer.flush()


# ---- the command

def size(text):
    number = parse_bytes(text)
    if number < 1:
        raise argparse.ArgumentTypeError(f"{text}: no part is so small")
    return number


def form(text):
    if text not in ("keys", "lines", "json-lines", "csv", "tsv"):
        raise argparse.ArgumentTypeError(f"{text}: it is keys, lines, json-lines, csv or tsv")
    return f"--to={text}"


def read_words():
    """The words of the command. What `haya` takes too is handed on to it, as lists of its options."""
    parser = argparse.ArgumentParser(description="Asks a library by haya on many machines, as workers of Dask.", allow_abbrev=False)
    own, handed = parser.add_argument_group("how it is asked"), parser.add_argument_group("what haya is asked")
    own.add_argument("--scheduler", metavar="ADDRESS", help="the scheduler whose workers ask, as tcp://server:8786; without one they are processes of this machine")
    own.add_argument("--workers", type=int, metavar="N", help="how many processes of this machine; of a scheduler, how many workers it waits for")
    own.add_argument("--part", type=size, default="16 MiB", metavar="SIZE", help="about how much a worker reads at once, 16 MiB if left out")
    own.add_argument("--haya", default="haya", metavar="PROGRAM", help="the program on each worker, haya if left out")
    own.add_argument("--check-keys", action="store_true", help="first tell the keys that come again, in one part or in two; with --strict they are a fault")
    handed.add_argument("-f", "--from", dest="format", choices=ENTRY, required=True)
    handed.add_argument("-w", "--where", dest="where", action="append", default=[], type="--where={}".format, metavar="TEST")
    handed.add_argument("--sort", type="--sort={}".format, metavar="KEY[,KEY..]")
    handed.add_argument("-t", "--to", dest="show", action="append", default=[], type=form, metavar="FORM")
    handed.add_argument("--columns", dest="show", action="append", type="--columns={}".format, metavar="PLACE[,PLACE..]")
    handed.add_argument("--no-header", action="store_true")
    handed.add_argument("-c", "--count", action="store_true")
    handed.add_argument("-v", "--invert", dest="select", action="append_const", const="--invert", default=[])
    handed.add_argument("-N", "--no-notes", dest="select", action="append_const", const="--no-notes", default=[])
    handed.add_argument("--strict", dest="select", action="append_const", const="--strict", default=[])
    parser.add_argument("selector", metavar="SELECTOR")
    parser.add_argument("file", nargs="+", metavar="FILE", help="a file or a pattern, perhaps behind a protocol of fsspec")
    return with_lists(parser.parse_intermixed_args())


def with_lists(words):
    """Adds what the parts are to print: of a table no header, which is printed once."""
    is_table = any(re.match("--columns|--to=[ct]sv", it) for it in words.show)
    words.show = words.show + ["--count"] * words.count + ["--no-header"] * words.no_header
    words.show_more = words.show + ["--no-header"] * (is_table and not words.no_header)
    words.haya = os.path.abspath(words.haya) if "/" in words.haya else words.haya
    return words


@contextlib.contextmanager
def workers(words):
    """A client of the scheduler, or of one with workers on this machine that end with it."""
    if words.scheduler:
        with Client(words.scheduler) as client:
            if words.workers:
                client.wait_for_workers(words.workers)
            yield client
        return
    number = words.workers or os.cpu_count()
    with tempfile.TemporaryDirectory() as room, dask.config.set({"temporary-directory": room}):
        with LocalCluster(n_workers=number, threads_per_worker=1, host="127.0.0.1", dashboard_address="127.0.0.1:0", silence_logs=logging.ERROR) as cluster:
            with Client(cluster) as client:
                yield client


def main():
    words = read_words()
    # (that a worker is lost, or slow to end, is in the scheduler's log, and is no matter of the answer)
    for name in ("asyncio", "distributed.client"):
        logging.getLogger(name).setLevel(logging.CRITICAL)
    try:
        with workers(words) as client:
            library = Library(client, words)
            if words.check_keys and library.check_keys() and "--strict" in words.select:
                return 2
            is_hit = library.sort() if words.sort else library.ask()
            library.messages.end()
            return 0 if is_hit else 1
    except Fault as fault:
        if fault.args:
            print(f"haya: {fault}", file=sys.stderr)
    except BrokenPipeError:
        os.dup2(os.open(os.devnull, os.O_WRONLY), sys.stdout.fileno())
    except asyncio.CancelledError:
        print("haya: the scheduler is lost", file=sys.stderr)
    except Exception as error:  # what a worker raised may be of any type
        print(f"haya: {type(error).__name__}: {error}", file=sys.stderr)
    return 2


if __name__ == "__main__":
    sys.exit(main())
