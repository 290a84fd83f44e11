#!/usr/bin/env python3
"""Prints which periods of an archive were under way at the head of each decade, as a table in CSV.

usage: table_of_decades.py FILE FIRST LAST

FIRST and LAST are years, as 1150 and 1290; those before AD 1 have a minus, and -49 is 50 BC. A row has a period, and for each
decade `open` where it was surely under way at the first instant of that year, nothing where it never was, and `?` where
the archive leaves it open. A period has its label (or that of what it made), or its IRI. Wants crm_cli (or the variable CRM_CLI). Where the archive contradicts itself, that is
printed and the status is 1; where the file was refused, what the program said and its status.
"""
import csv
import os
import subprocess
import sys

from cycle_in_words import labels

MARKS = {"surely": "open", "never": "", "maybe": "?"}


def written(year):
    """A year as the program reads it: four digits, with a minus below the year 0."""
    return f"{'-' if year < 0 else ''}{abs(year):04}"


def when(name, year):
    """The periods of the archive with their names, and the mark of each at the head of the year."""
    done = subprocess.run([os.environ.get("CRM_CLI", "crm_cli"), "when", name, written(year)], stdout=subprocess.PIPE)
    lines = done.stdout.decode().splitlines()
    if done.returncode:
        sys.stderr.write(("the archive contradicts itself" if done.returncode == 1 else "\n".join(lines)) + "\n")
        sys.exit(done.returncode)
    words = [line.split(" ") for line in lines]
    names = {line[0]: line[2] for line in words if len(line) == 3 and line[1] == "period"}
    return names, {line[1]: MARKS[line[0]] for line in words if line[0] in MARKS}


def main():
    if len(sys.argv) != 4:
        sys.exit(__doc__)
    decades = range(int(sys.argv[2]), int(sys.argv[3]) + 1, 10)
    found = [when(sys.argv[1], year) for year in decades]
    known = labels(sys.argv[1])
    table = csv.writer(sys.stdout, lineterminator="\n")
    table.writerow(["period", *decades])
    for number, name in found[0][0].items() if found else ():
        table.writerow([known.get(name, name.strip("<>")), *(marks[number] for _, marks in found)])
    return 0


if __name__ == "__main__":
    sys.exit(main())
