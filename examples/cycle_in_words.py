#!/usr/bin/env python3
"""Says in words which statements of an archive can't all be right.

usage: cycle_in_words.py FILE

Wants crm_cli (or the variable CRM_CLI). Prints a line for each order of the cycle that `crm_cli matrix` prints, with the
triple or the record that it comes from, and ends with status 1; with status 0 where the record can be true; and where the
file was refused, with what the program said and its status.
"""
import os
import re
import subprocess
import sys

DAY = 86400 * 10**9
LABEL, COMMENT = (f"<http://www.w3.org/2000/01/rdf-schema#{word}>" for word in ("label", "comment"))
FORMER = {"s": "{} had begun", "e": "{} was over", "d": "{} had come"}
LATTER = {"s": "{} began", "e": "{} ended", "d": "{} came"}


def calendar(instant):
    """The day of an instant in nanoseconds from 1970, in the proleptic Gregorian calendar; -0049 is 50 BC."""
    days = instant // DAY + 719468
    era, day = divmod(days, 146097)
    year = (day - day // 1460 + day // 36524 - day // 146096) // 365
    day -= 365 * year + year // 4 - year // 100
    month = (5 * day + 2) // 153
    number, day = (month + 2) % 12 + 1, day - (153 * month + 2) // 5 + 1
    year += 400 * era + (number < 3)
    return f"{'-' if year < 0 else ''}{abs(year):04}-{number:02}-{day:02}"


def printed(*words):
    """The lines that the program prints; where it gives no answer, this ends with what it says, and its status."""
    done = subprocess.run([os.environ.get("CRM_CLI", "crm_cli"), *words], stdout=subprocess.PIPE)
    text = done.stdout.decode()
    if done.returncode > 1:
        sys.stderr.write(text)
        sys.exit(done.returncode)
    return text.splitlines()


def labels(name):
    """The labels of the nodes of an archive; of an event without one, that of what it produced."""
    triples = [line[:-2].split(" ", 2) for line in printed("convert", name)]
    found = {start: end[1 : end.rindex('"')] for start, predicate, end in reversed(triples) if predicate == LABEL}
    return {**{start: found[end] for start, predicate, end in triples if "/AP7_" in predicate and end in found}, **found}


class Archive:
    def __init__(self, name):
        self.triples = [line[:-2].split(" ", 2) for line in printed("convert", name)]
        self.extents, self.dates, self.orders = {}, {}, {}
        for line in printed("orders", name):
            words = line.split(" ")
            if words[0][0] == "x":
                self.extents[words[0][1:]] = words[2]
            elif re.fullmatch(r"d\d+", words[0]):
                self.dates[words[0]] = calendar(int(words[1]))
            elif re.fullmatch(r"o\d+", words[0]):
                self.orders[words[0]] = words[1:]
        self.cycle = next((line.split(" ")[1:] for line in printed("matrix", name) if line.startswith("cycle ")), None)

    def text(self, node, *predicates):
        """The label or comment of a node, or of what it produced."""
        nodes = [node] + [end for start, predicate, end in self.triples if start == node and "/AP7_" in predicate]
        for start, predicate, end in self.triples:
            if start in nodes and predicate in predicates:
                return end[1 : end.rindex('"')]
        return None

    def named(self, node):
        return self.text(node, LABEL) or re.sub(r".*[/#]", "", node).rstrip(">")

    def point(self, point, words):
        return words[point[0]].format(self.dates[point] if point[0] == "d" else self.named(self.extents[point[1:]]))

    def said(self, order):
        """An order in words, with the triple that makes it and the record that is cited; an extent's own order goes unsaid."""
        low, sign, high, by = self.orders[order]
        if by[0] == "x":
            return None
        said = f"{self.point(low, FORMER)} {'before' if sign == '<' else 'when'} {self.point(high, LATTER)}"
        if by == "dates":
            return said
        source = self.text(self.triples[int(by[1:])][0], COMMENT)
        return f"{said} (triple {by[1:]}{'; ' + source if source else ''})"


def main():
    if len(sys.argv) != 2:
        sys.exit(__doc__)
    archive = Archive(sys.argv[1])
    if archive.cycle is None:
        print("the record can be true")
        return 0
    print("these can't all be right:")
    for order in archive.cycle:
        line = archive.said(order)
        if line:
            print("  " + line)
    return 1


if __name__ == "__main__":
    sys.exit(main())
