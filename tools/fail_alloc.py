#!/usr/bin/env python3
"""Fails each allocation of the program in turn, and looks at what it answers.

usage: fail_alloc.py PROGRAM [--most N] [NAME..]

The commands are those of the cases of tests/ (see cases.py): all of the cases NAME; else all of the examples and of a few
more, and of all the other cases the first of each word. Each is run once, to see its text and to
count how often it asks for memory. Then, for each number up to that count, it is run twice: that allocation fails
alone, or it fails and all behind it. Each run must end with the status and the text of the first; or with 6, having
printed a front of that text. With --most N at most N numbers of a command are tried, spread over all of them.

The memory is refused by a library of C, which is compiled here, with cc, and loaded before the system's own.
"""
import argparse
import concurrent.futures
import os
import subprocess
import sys
import tempfile

from cases import FULL, ROOT, SECONDS, laid_out, read, steps_of

# Cases of which each command is tried: a context before another, its certificate, a diamond, and incompatible classes.
WHOLE = """context_before_another certificate_of_orders matrix_of_a_diamond certificate_of_classes
    examples_of_the_readme""".split()
MEMORY = 6
# The number of an allocation that never comes.
NEVER = 1 << 62

SHIM = r"""
#include <errno.h>
#include <fcntl.h>
#include <stdlib.h>
#include <sys/mman.h>
#include <unistd.h>

void *__libc_malloc(size_t), *__libc_calloc(size_t, size_t);
void *__libc_realloc(void *, size_t), *__libc_memalign(size_t, size_t);

/* How many allocations came, and the first and the last that fails. */
static unsigned long count, *shown = &count, first, last;

__attribute__((constructor)) static void begin(void) {
    int file = open(getenv("FAIL_COUNT"), O_RDWR);
    shown = mmap(NULL, sizeof *shown, PROT_READ | PROT_WRITE, MAP_SHARED, file, 0);
    close(file);
    first = strtoul(getenv("FAIL_FIRST"), NULL, 10);
    last = strtoul(getenv("FAIL_LAST"), NULL, 10);
}

static int fails(void) {
    unsigned long number = ++*shown;
    if (number < first || last < number)
        return 0;
    errno = ENOMEM;
    return 1;
}

void *malloc(size_t n) { return fails() ? NULL : __libc_malloc(n); }
void *calloc(size_t k, size_t n) { return fails() ? NULL : __libc_calloc(k, n); }
void *realloc(void *p, size_t n) { return fails() ? NULL : __libc_realloc(p, n); }
void *aligned_alloc(size_t a, size_t n) { return fails() ? NULL : __libc_memalign(a, n); }
"""


def build(folder):
    """Compiles the library that refuses memory, and returns its name."""
    library = f"{folder}/refuses.so"
    words = ["cc", "-O2", "-shared", "-fPIC", "-Wall", "-Werror", "-x", "c", "-", "-o", library]
    subprocess.run(words, input=SHIM.encode(), check=True)
    return library


class Command:
    """A command in its folder, and what it printed when all its memory was there."""

    def __init__(self, program, library, folder, step):
        self.words = [program, *map(os.fsencode, step.words)]
        self.library, self.folder = library, folder
        self.given = b"" if step.given is None else read(f"{folder}/{step.given}")
        self.status, self.text, self.count = self.run(NEVER, NEVER)

    def run(self, first, last):
        """Returns the status, the output and how often memory was asked for, where these numbers fail."""
        with tempfile.NamedTemporaryFile(prefix="count-") as counter:
            counter.write(bytes(8))
            counter.flush()
            outside = {"LD_PRELOAD": self.library, "FAIL_COUNT": counter.name}
            outside.update(FAIL_FIRST=str(first), FAIL_LAST=str(last))
            options = {"capture_output": True, "cwd": self.folder, "env": outside, "timeout": SECONDS}
            came = subprocess.run(self.words, input=self.given, **options)
            return came.returncode, came.stdout + came.stderr, int.from_bytes(read(counter.name), sys.byteorder)

    def fault(self, numbers):
        """Returns what is wrong where the numbers from the first to the last fail, or nothing."""
        first, last = numbers
        try:
            status, text, count = self.run(first, last)
        except subprocess.TimeoutExpired:
            return f"no end after {SECONDS} seconds"
        if count < first:
            return f"memory was asked for {count} times"
        is_front = self.text.startswith(text)
        if (status, text) == (self.status, self.text) or status == MEMORY and is_front:
            return None
        return f"status {status} after {len(text)} bytes" + ("" if is_front else ", which are no front of the text")


def spread(count, most):
    """Returns at most so many of the numbers from 1 to the count, the first and the last among them."""
    if most is None or count <= most:
        return range(1, count + 1)
    return sorted({1 + (count - 1) * k // max(1, most - 1) for k in range(most)})


def are_tried(step):
    """Whether the command reads words and files, and its output is looked at."""
    return step.words and not step.edge and step.printed != FULL and step.status < MEMORY


def chosen(names):
    """Gives each case with those of its commands that are tried."""
    known = set()
    for name in names or WHOLE + sorted(set(os.listdir(f"{ROOT}/tests")) - set(WHOLE)):
        steps = [step for step in steps_of(read(f"{ROOT}/tests/{name}/commands")) if are_tried(step)]
        if not names and name not in WHOLE:
            new = [step for step in steps if step.status < 2 and step.words[0] not in known]
            steps = list({step.words[0]: step for step in reversed(new)}.values())
            known.update(step.words[0] for step in steps)
        if steps:
            yield name, steps


def try_commands(pool, program, library, most, name, steps):
    """Tries these commands of a case, says what is wrong, and gives for each the count of allocations, runs and wrong ones."""
    with laid_out(name) as (folder, _):
        for step in steps:
            command = Command(program, library, folder, step)
            numbers = spread(command.count, most)
            tries = [(k, last) for k in numbers for last in (k, NEVER)]
            wrong = 0
            for (first, last), fault in zip(tries, pool.map(command.fault, tries)):
                if fault:
                    wrong += 1
                    how = f"allocation {first} " + ("alone" if first == last else "and all behind it")
                    print(f"tests/{name}/commands:{step.number}: {step.line}, {how}: {fault}", flush=True)
            yield len(numbers), len(tries), wrong


def main(options):
    program = os.path.abspath(options.program)
    pool = concurrent.futures.ThreadPoolExecutor(os.cpu_count())
    with tempfile.TemporaryDirectory(prefix="refuses-") as room, pool:
        library = build(room)
        found = []
        for name, steps in chosen(options.name):
            found += try_commands(pool, program, library, options.most, name, steps)
    numbers, runs, wrong = map(sum, zip(*found))
    print(f"{len(found)} commands, {numbers} allocations refused, in {runs} runs, {wrong} wrong")
    return 1 if wrong or not runs else 0


def read_words():
    parser = argparse.ArgumentParser(description=__doc__, formatter_class=argparse.RawDescriptionHelpFormatter)
    parser.add_argument("program")
    parser.add_argument("name", nargs="*")
    parser.add_argument("--most", type=int, help="how many allocations of a command are tried at most")
    return parser.parse_intermixed_args()


if __name__ == "__main__":
    sys.exit(main(read_words()))
