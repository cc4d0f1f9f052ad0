"""cut_off.py lines|json PROGRAM SELECTOR FILE STEP [WHOLE]
Runs the program over the file as it is cut off after each STEP bytes, and ends with status 1 and words where a run doesn't end well, as
tests/cuts says. WHOLE has what the program prints of the whole file. Input and outputs are files that are opened once: a run costs
little more than the program."""
import os, re, sys, tempfile

FAULTS = {
    "lines": rb"(line [0-9]+: (shape|depth|type|field|value)|not text)\n",
    "json": rb"haya: standard input: (line [0-9]+, column [0-9]+: invalid JSON|byte [0-9]+ is not UTF-8 .*)\n",
}


def read(path):
    with open(path, "rb") as it:
        return it.read()


def ran(words, files):
    """Returns the status of the program, and what it prints and says."""
    for it in files:
        os.lseek(it, 0, os.SEEK_SET)
    for it in files[1:]:
        os.ftruncate(it, 0)
    given = [(os.POSIX_SPAWN_DUP2, it, number) for number, it in enumerate(files)]
    status = os.waitstatus_to_exitcode(os.waitpid(os.posix_spawn(words[0], words, os.environ, file_actions=given), 0)[1])
    return (status, *(os.pread(it, 1 << 20, 0) for it in files[1:]))


def ends_well(kind, cut, whole, status, printed, said):
    is_whole_line = cut == b"" or cut.endswith(b"\n")
    if kind == "lines" and status == 0:
        return said == b"" and (not is_whole_line or whole.startswith(printed))
    return status == (1 if kind == "lines" else 2) and printed == b"" and re.fullmatch(FAULTS[kind], said)


def main(kind, program, selector, file, step, *rest):
    # White space at the end is no part of a value in JSON.
    text = read(file).rstrip() if kind == "json" else read(file)
    ends = range(1, len(text), int(step)) if kind == "json" else range(0, len(text) + 1, int(step))
    files = [tempfile.TemporaryFile() for _ in range(3)]
    numbers, whole = [it.fileno() for it in files], read(rest[0]) if rest else b""
    before = 0
    for at in ends:
        os.pwrite(numbers[0], text[before:at], before)
        before, told = at, ran([program, selector], numbers)
        if not ends_well(kind, text[:at], whole, *told):
            return f"cut off after {at} bytes: {told}"
    return 0 if len(text) > 100 else "there is too little to be cut off"


sys.exit(main(*sys.argv[1:]))
