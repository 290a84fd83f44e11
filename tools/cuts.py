#!/usr/bin/env python3
"""Feeds files to the program in pieces, and compares what it prints with what it prints of the whole.

usage: cuts.py PROGRAM FILE..

Each FILE is read from standard input, as Turtle: whole; in pieces of 1, 2, 3 and 7 bytes; and, where it has at most
2,000 bytes, in two pieces, cut at each byte. Each piece is written only once the program has taken the one before, so
that one read of the program takes one piece. What `convert` prints must be the same for every cutting, and so must
what it prints of its own output.
"""
import array
import fcntl
import subprocess
import sys
import termios

SMALL = 2000


def waiting(pipe):
    """Returns how many bytes of the pipe were not read yet."""
    count = array.array("i", [0])
    fcntl.ioctl(pipe, termios.FIONREAD, count)
    return count[0]


def run(words, pieces, folder=None):
    """Returns the status and the output of a command, in the folder, that is handed the pieces as standard input."""
    child = subprocess.Popen(words, stdin=subprocess.PIPE, stdout=subprocess.PIPE, bufsize=0, cwd=folder)
    try:
        for piece in pieces:
            child.stdin.write(piece)
            while waiting(child.stdin) and child.poll() is None:
                pass
    except BrokenPipeError:
        pass
    text, _ = child.communicate()
    return child.returncode, text


def cut(text, size):
    return [text[at : at + size] for at in range(0, len(text), size)]


def check(program, name):
    """Returns how many cuttings of the file were tried, and names those that print something else."""
    with open(name, "rb") as file:
        text = file.read()
    words = [program, "convert", "-"]
    whole = run(words, [text])
    cuttings = [(f"pieces of {size}", cut(text, size)) for size in (1, 2, 3, 7)]
    if len(text) <= SMALL:
        cuttings += [(f"cut at {at}", [text[:at], text[at:]]) for at in range(1, len(text))]
    bad = [said for said, pieces in cuttings if run(words, pieces) != whole]
    if whole[0] == 0 and run(words, [whole[1]]) != whole:
        bad.append("its own output")
    for said in bad:
        print(f"{name}: {said}: other output")
    print(f"{name}: status {whole[0]}, {len(cuttings)} cuttings, {len(bad)} differ")
    return len(bad)


if __name__ == "__main__":
    sys.exit(1 if sum(check(sys.argv[1], name) for name in sys.argv[2:]) else 0)
