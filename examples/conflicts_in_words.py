#!/usr/bin/env python3
"""Says which statements of an archive could alone be wrong, and which can't all be right, each with its line in the file.

usage: conflicts_in_words.py FILE

Wants crm_cli (or the variable CRM_CLI). First come the suspects of `crm_cli conflicts`, then for each tangle the statements of
its shortest cycle, and then the others that are tied up with them. The status is 1 where the archive contradicts itself, 0 where
it can be true; where the file was refused, what the program said is printed, with its status.
"""
import re
import sys

from cycle_in_words import COMMENT, Archive, printed


class Conflicts(Archive):
    def __init__(self, name):
        rows = [line[:-2].split(" ", 5) for line in printed("lines", name)]
        self.name, self.lines, self.triples = name, [row[1] for row in rows], [row[3:] for row in rows]
        self.makers, self.tangles, self.suspects = {}, [], []
        for words in (line.split(" ") for line in printed("conflicts", name)):
            if re.fullmatch(r"o\d+", words[0]):
                self.makers[words[0]] = words[4]
            elif words[0] == "tangle":
                self.tangles.append([words[2:]])
            elif words[0] == "cycle":
                self.tangles[-1].insert(0, words[1:])
            elif words[0] == "suspect":
                self.suspects.append(int(words[1][1:]))

    def end_of(self, node, code):
        return next((end for start, predicate, end in self.triples if start == node and code in predicate), "?")

    def short(self, node):
        """A node by its label, its text or the end of its IRI; a time-span without a name by whose it is."""
        owner = next((start for start, predicate, end in self.triples if end == node and "/P4_" in predicate), None)
        if node.startswith("_:") and owner:
            return f"time-span of {self.named(owner)}"
        return node.partition("^^")[0] if node.startswith('"') else self.named(node)

    def said(self, number):
        """A statement in a line; of a relation that is a node, what it relates."""
        start, predicate, end = self.triples[number]
        if end == "<urn:crmtime:Relation>":
            source = self.text(start, COMMENT)
            start, predicate, end = (self.end_of(start, f"relation-{word}") for word in ("from", "type", "to"))
            return f"{self.at(number)}{self.short(start)} {self.coded(predicate)} {self.short(end)}{f' ({source})' if source else ''}"
        source = self.text(start, COMMENT)
        return f"{self.at(number)}{self.short(start)} {self.coded(predicate)} {self.short(end)}{f' ({source})' if source else ''}"

    def at(self, number):
        return f"  {self.name}:{self.lines[number]}: "

    @staticmethod
    def coded(predicate):
        return re.sub(r".*[/:#]", "", predicate).rstrip(">")

    def statements(self, orders):
        """The triples that make these orders, each once."""
        return list(dict.fromkeys(int(self.makers[order][1:]) for order in orders if self.makers[order][0] == "t"))

    def told(self):
        if self.suspects:
            yield "one of these alone could be wrong:" if len(self.suspects) > 1 else "this one alone could be wrong:"
            yield from map(self.said, self.suspects)
        else:
            yield "no statement alone is wrong: at least two are"
        for cycle, tangle in self.tangles:
            first = self.statements(cycle)
            yield "these can't all be right:"
            yield from map(self.said, first)
            rest = [number for number in self.statements(tangle) if number not in first]
            if rest:
                yield "and tied up with them:"
                yield from map(self.said, rest)


def main():
    if len(sys.argv) != 2:
        sys.exit(__doc__)
    found = Conflicts(sys.argv[1])
    print("\n".join(found.told()) if found.tangles else "the record can be true")
    return 1 if found.tangles else 0


if __name__ == "__main__":
    sys.exit(main())
