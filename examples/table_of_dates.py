#!/usr/bin/env python3
"""Prints between which dates the periods of an archive start and end, as a table in CSV.

usage: table_of_dates.py FILE [WORD]

A row has a period by its label or its IRI, the first date that it can start on, the last one, and the same of its end; a side of which
nothing is known is empty. With WORD only the periods whose IRI holds it are printed, as `phase-`. A year or a month ends as the
next one begins, so what is over by the end of 1400 has `1401-01-01`. Wants crm_cli (or the variable CRM_CLI). Where the archive
contradicts itself, that is printed and the status is 1; where the file was refused, what the program said and its status.
"""
import csv
import sys

from cycle_in_words import labels, printed


def main():
    if len(sys.argv) not in (2, 3):
        sys.exit(__doc__)
    name, word = sys.argv[1], sys.argv[2] if len(sys.argv) == 3 else ""
    lines = [line.split(" ") for line in printed("dates", name)]
    if lines[0] == ["inconsistent"]:
        sys.stderr.write("the archive contradicts itself\n")
        return 1
    known = labels(name)
    table = csv.writer(sys.stdout, lineterminator="\n")
    table.writerow(["period", "starts from", "starts to", "ends from", "ends to"])
    for _, node, _, _, first, _, last, _, _, sooner, _, later in lines[1:]:
        if word in node:
            table.writerow([known.get(node, node.strip("<>"))] + ["" if date == ".." else date for date in (first, last, sooner, later)])
    return 0


if __name__ == "__main__":
    sys.exit(main())
