"""Items as a reference manager exports them, and what a command takes over them: what beside_jq and beside_bib share."""
import json
import os
import subprocess
import sys

TOP = os.path.dirname(os.path.dirname(os.path.realpath(__file__)))

ROUNDS = 5


def item(at):
    """An item as a reference manager exports it: a book each third time, and otherwise an article in a journal."""
    names = [{"family": f"Doe{at % 977}", "given": "Jane Mary"}, {"family": "Roe", "given": f"R. {at % 26}."}]
    common = {
        "id": f"work{at}",
        "title": f"On the works of kind {at}, and on what they have in common",
        "author": names,
        "issued": {"date-parts": [[1950 + at % 70, 1 + at % 12, 1 + at % 28]]},
        "language": "en",
        "URL": f"https://example.org/works/{at}",
    }
    if at % 3 == 0:
        return {**common, "type": "book", "publisher": "A Press", "publisher-place": "Berlin", "ISBN": f"978-{at:09}"}
    more = {"container-title": f"Journal of Works {at % 100}", "volume": str(at % 90), "issue": str(at % 12), "page": f"{at}-{at + 9}"}
    doi = {"DOI": f"10.1000/{at}"} if at % 2 == 0 else {}
    return {**common, "type": "article-journal", **more, **doi}


def write_items(path, number):
    """Writes so many items as a list, one by one: a program's memory at most is that of this script at least."""
    with open(path, "w") as file:
        for at in range(number):
            file.write("[\n  " if at == 0 else ",\n  ")
            file.write(json.dumps(item(at), indent=2).replace("\n", "\n  "))
        file.write("\n]")


def run(words, out):
    """The processor time and the peak memory of a command."""
    with open(out, "wb") as file:
        child = subprocess.Popen(words, stdout=file)
        _, status, used = os.wait4(child.pid, 0)
        child.returncode = os.waitstatus_to_exitcode(status)
    if child.returncode not in (0, 1):
        sys.exit(f"{words[0]} ended with status {child.returncode}")
    return used.ru_utime + used.ru_stime, used.ru_maxrss / 1024


def least(runs):
    """The least time and the least memory of these."""
    return [min(each) for each in zip(*runs)]


def in_turn(*commands):
    """The least time and memory of each of these commands, a list of words with the file of its output, of five runs in turn."""
    return map(least, zip(*([run(*it) for it in commands] for _ in range(ROUNDS))))


def program():
    """The program haya, linked."""
    subprocess.run([os.path.join(TOP, "haya"), "-q", "*"], stdin=subprocess.DEVNULL, check=False)
    path = os.path.join(TOP, "crates", "haya", "out", "haya")
    if not os.path.exists(path):
        sys.exit("the program isn't linked: run ./haya --version at the top")
    return path
