#!/usr/bin/env python3
"""Runs the cases of tests/ on the program, side by side, and shows where it prints something else.

usage: cases.py PROGRAM [NAME..]

Each folder tests/NAME is a case: the files that the program reads, as they are, and a file `commands` with what is
typed and what must be printed, whole:

    # why an event may not end before it starts        a comment; empty lines stand for nothing either
    $ orders trench.ttl                                the words after the program's name, quoted as in a shell, but for
                                                       bytes that are no UTF-8, which stand as they are
    extents 0                                          the lines that it must print
    ..
    $ convert - < trench.nt                            with a file as standard input (else it is empty)
    $ convert - <1,7 trench.nt                         the same, then in pieces of 1 byte and in pieces of 7: each is
                                                       written once the program has taken the one before
    $ certify matrix trench.ttl > trench.certificate   what must be printed is in a file; to /dev/full, nothing is
    $ reason trench.ttl | head -2                      the pipe is closed behind so many lines
    $ check - <&-                                      standard input is closed; with >&- standard output
    $ check late.ttl >< late.ttl                       the file loses what is not read yet, once some of it is
    $ check faults.ttl
    faults 1
    [1]                                                the exit status, where it is not 0

What comes on standard error counts as printed.

A case runs in a temporary copy of its folder, which holds the folder examples/ too. A file `make.py` in it runs there
first: it writes the files that are too large to keep, or too many.
"""
import concurrent.futures
import contextlib
import difflib
import os
import re
import shlex
import shutil
import subprocess
import sys
import tempfile

from cuts import cut, run
from edges import SECONDS, at_edge

ROOT = os.path.dirname(os.path.dirname(os.path.realpath(__file__)))
# The device that takes nothing.
FULL = "/dev/full"
# The end of a line by which the machine gives or takes less than it might.
EDGE = re.compile(r"(.*) (<&-|>&-|\| head -[0-9]+|>< \S+)")
# The lines of a difference that are shown.
SHOWN = 40


def read(name):
    with open(name, "rb") as file:
        return file.read()


class Step:
    """A command of a case, with what must come of it."""

    def __init__(self, number, line):
        self.number, self.line, self.status, self.output = number, line, 0, []
        edge = EDGE.fullmatch(line)
        line, self.edge = edge.groups() if edge else (line, None)
        self.words, self.given, self.sizes, self.printed = shlex.split(line), None, [], None
        while len(self.words) > 1 and re.fullmatch(r">|<[0-9,]*", self.words[-2]):
            sign, name = self.words[-2:]
            del self.words[-2:]
            if sign == ">":
                self.printed = name
            else:
                self.given, self.sizes = name, [int(size) for size in sign[1:].split(",") if size]

    def wanted(self, folder):
        """Returns the status and the output that must come."""
        if self.printed is not None:
            return self.status, b"" if self.printed == FULL else read(f"{folder}/{self.printed}")
        return self.status, "".join(line + "\n" for line in self.output).encode(errors="surrogateescape")

    def ways(self, program, folder):
        """Gives each way in which the input is handed over, with the status and the output that came."""
        words = [program, *map(os.fsencode, self.words)]
        if self.edge:
            with open(f"{folder}/{self.given}" if self.given else os.devnull, "rb") as file:
                yield "", at_edge(words, folder, self.edge, file)
            return
        given = b"" if self.given is None else read(f"{folder}/{self.given}")
        with open(FULL, "wb") as full:
            out = full if self.printed == FULL else subprocess.PIPE
            whole = subprocess.run(words, input=given, stdout=out, stderr=subprocess.PIPE, cwd=folder, timeout=SECONDS)
        yield "", (whole.returncode, (whole.stdout or b"") + whole.stderr)
        for size in self.sizes:
            yield f", in pieces of {size}", run(words, cut(given, size), folder)


def steps_of(text):
    """Returns the commands of a case."""
    steps = []
    for number, line in enumerate(text.decode(errors="surrogateescape").split("\n"), 1):
        ended = re.fullmatch(r"\[([0-9]+)\]", line)
        if line == "$" or line.startswith("$ "):
            steps.append(Step(number, line[2:]))
        elif ended:
            steps[-1].status = int(ended[1])
        elif line and not line.startswith("#"):
            steps[-1].output.append(line)
    return steps


def difference(wanted, came):
    """Returns the lines that tell what must come from what came."""
    lines = [f"status {came[0]}, and {wanted[0]} must come"] if wanted[0] != came[0] else []
    texts = [text.decode(errors="backslashreplace").split("\n") for text in (wanted[1], came[1])]
    if texts[0] != texts[1]:
        found = list(difflib.unified_diff(*texts, "must be printed", "is printed", lineterm=""))
        lines += found[:SHOWN]
        if len(found) > SHOWN:
            lines.append(f"({len(found) - SHOWN} lines more)")
    return lines


@contextlib.contextmanager
def laid_out(name):
    """Gives a copy of the case's folder, with all the files that its commands read, and its commands."""
    with tempfile.TemporaryDirectory(prefix="case-") as room:
        folder = f"{room}/{name}"
        shutil.copytree(f"{ROOT}/tests/{name}", folder)
        os.symlink(f"{ROOT}/examples", f"{folder}/examples")
        if os.path.exists(f"{folder}/make.py"):
            subprocess.run([sys.executable, "make.py"], cwd=folder, check=True, timeout=SECONDS)
        yield folder, steps_of(read(f"{folder}/commands"))


def try_case(program, name):
    """Returns how many commands of the case were tried, and what is said of those that failed."""
    said = []
    with laid_out(name) as (folder, steps):
        for step in steps:
            wanted, head = step.wanted(folder), f"tests/{name}/commands:{step.number}: {step.line}"
            try:
                for way, came in step.ways(program, folder):
                    if wanted != came:
                        said.append([head + way, *difference(wanted, came)])
                        break
            except subprocess.TimeoutExpired:
                said.append([head, f"no end after {SECONDS} seconds"])
    return len(steps), said


def main(program, names):
    program = os.path.abspath(program)
    if not os.access(program, os.X_OK):
        sys.exit(f"{program} is no program")
    names = names or sorted(os.listdir(f"{ROOT}/tests"))
    tried = failed = 0
    with concurrent.futures.ThreadPoolExecutor(os.cpu_count()) as pool:
        for count, said in pool.map(lambda name: try_case(program, name), names):
            tried, failed = tried + count, failed + len(said)
            for lines in said:
                print("\n    ".join(lines), flush=True)
    print(f"{tried - failed} passed, {failed} failed")
    return 1 if failed or not tried else 0


if __name__ == "__main__":
    sys.exit(main(sys.argv[1], sys.argv[2:]))
