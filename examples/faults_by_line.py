#!/usr/bin/env python3
"""Prints the faults of an archive, or of several files as one, each with its file, line and column, and the triple.

usage: faults_by_line.py FILE ..

Wants crm_cli (or the variable CRM_CLI). `crm_cli check` gives the place of each fault, and `crm_cli join check` of those in
several files: there a place counts the bytes of all files, so that the file is the first one that the place lies in once the
lengths of those before it are taken off. The status is 1 where there is a fault; where a file was refused, what the program
said is printed, with its status.
"""
import re
import sys

from cycle_in_words import printed


def at(files, place):
    """File, line and column of a place, counted in bytes from the head of the first file."""
    for name in files:
        with open(name, "rb") as file:
            text = file.read()
        if place < len(text):
            lines = re.split(r"\r\n|\n|\r", text[:place].decode("utf-8-sig"))
            return f"{name}:{len(lines)}:{len(lines[-1]) + 1}"
        place -= len(text)
    return "?"


def main():
    files = sys.argv[1:]
    if not files:
        sys.exit(__doc__)
    join = ["join"] if len(files) > 1 else []
    triples = printed(*join, "convert", *files)
    faults = [line.split(" ") for line in printed(*join, "check", *files) if line.startswith("fault ")]
    for _, triple, _, place, *kind in faults:
        print(f"{at(files, int(place))}: {' '.join(kind)} {triples[int(triple[1:])]}")
    return 1 if faults else 0


if __name__ == "__main__":
    sys.exit(main())
