#!/usr/bin/env python3
"""Checks a certificate by what crm_cli lists of a file, with no code of crm_cli.

usage: check_certificate.py CERTIFICATE ORDERS [CHECK TRIPLES PROFILE]

    ORDERS    what `crm_cli orders FILE` prints
    CHECK     what `crm_cli check FILE` prints, for a certificate of classes
    TRIPLES   what `crm_cli convert FILE` prints, likewise
    PROFILE   docs/PROFILE.md, likewise: it has the direct parents of each class

Prints what `crm_cli verify FILE CERTIFICATE` prints, and ends with its status. It was written from docs/CERTIFICATES.md.
"""
import pathlib
import re
import sys

SIDES = {"se": ("s", "e"), "ss": ("s", "s"), "es": ("e", "s"), "ee": ("e", "e")}
LINES = {
    "crmtime 1 orders\n": ["place", "pair x", "cycle ", "end\n"],
    "crmtime 2 orders\n": ["place", "let ", "pair x", "cycle ", "end\n"],
    "crmtime 1 classes\n": ["class t", "end\n"],
    "crmtime 1 matrix\n": ["cover x", "walk x", "end\n"],
}
# Behind its first word: a capital letter stands for a part of the line, each other byte for itself.
FORMS = {"place": "R", "let": "T\n", "pair": "X xX S Q", "cycle": "T\n", "class": "N tN C C T T\n", "cover": "X xX T\n", "walk": "X xX W\n", "end": ""}
CLAIMS = {"lt ": "T\n", "le ": "T pP\n", "no p": "P\n"}
TYPE = "<http://www.w3.org/1999/02/22-rdf-syntax-ns#type>"
CRM = "http://www.cidoc-crm.org/"
SPACES = [(CRM + "cidoc-crm/CRMarchaeo/", "A"), (CRM + "extensions/crmarchaeo/", "A"), (CRM + "cidoc-crm/", "E")]


class Refused(Exception):
    pass


class Records:
    """What is listed of a file: extents, dates, orders, and for classes its type triples, faults and parents."""

    def __init__(self, orders, check="", triples="", profile=""):
        self.refusal = orders.rstrip("\n") if orders.startswith("refused") else None
        self.extents = re.findall(r"^x\d+ (period|span) ", orders, re.M)
        self.periods = [k for k, kind in enumerate(self.extents) if kind == "period"]
        self.dates = [int(instant) for instant in re.findall(r"^d\d+ (\S+)$", orders, re.M)]
        self.orders = [(x, y, sign == "<") for x, sign, y in re.findall(r"^o\d+ (\S+) (<=?) (\S+) ", orders, re.M)]
        self.due = [int(number) for number in re.findall(r"^fault t(\d+) at \d+ C2$", check, re.M)]
        self.parents = parents_in(profile)
        self.types = {}
        for number, line in enumerate(triples.split("\n")):
            subject, _, rest = line.partition(" ")
            if rest.startswith(TYPE + " <"):
                name = class_of(rest[len(TYPE) + 2 :].split(">")[0])
                if name in self.parents:
                    self.types[number] = (subject, name)


def parents_in(profile):
    """The direct parents of each class, from the table of the profile."""
    table, found = profile.partition("| Direct parents |")[2].partition("\n\n")[0], {}
    for above, names in re.findall(r"^\| (none|E\d+(?: and E\d+)?) \| (.+) \|$", table, re.M):
        found.update({name: re.findall(r"E\d+", above) for name in names.split(", ")})
    return found


def class_of(iri):
    """The code of a class, behind the longest namespace that fits, up to the first `_`."""
    letter, rest = next(((letter, iri[len(space) :]) for space, letter in SPACES if iri.startswith(space)), ("?", ""))
    return rest.partition("_")[0] if rest.startswith(letter) else None


class Reader:
    """Reads a text byte by byte, and refuses it where it stops being the beginning of a certificate."""

    def __init__(self, text):
        self.text, self.at = text, 0

    def byte(self):
        return self.text[self.at : self.at + 1].decode("latin-1")

    def choose(self, options):
        """Reads one of these words, of which none begins another."""
        count = 0
        while not any(len(option) == count for option in options):
            options = [option for option in options if option[count] == self.byte()]
            if not options:
                raise Refused("K1", self.at)
            self.at, count = self.at + 1, count + 1
        return options[0]

    def number(self, least=0, most=2**32 - 1):
        sign = -1 if least < 0 and self.byte() == "-" else 1
        self.at, most = self.at + (sign < 0), most if sign > 0 else -least
        begin = self.at
        while self.byte().isdecimal() and int(self.text[begin : self.at + 1]) <= most:
            if self.text[begin : begin + 1] == b"0" and (self.at > begin or sign < 0):
                break
            self.at += 1
        if self.at == begin:
            raise Refused("K1", self.at)
        return sign * int(self.text[begin : self.at])

    def name(self, letter):
        self.names.append((self.at - 1, letter, self.number()))
        return self.names[-1][2]

    def code(self):
        self.names.append((self.at, "code", self.choose(["E", "A"]) + str(self.number())))
        return self.names[-1][2]

    def tree(self, leaves):
        """A tree as (place, rule, parts); at most 64 of its parentheses stand open."""
        waiting = []
        while True:
            place, rule = self.at, self.byte()
            if rule in ("w", "j"):
                self.at += 1
                if self.byte() == "(" and len(waiting) == 64:
                    raise Refused("K2", self.at)
                self.choose(["("])
                waiting.append((place, rule, []))
                continue
            if leaves == "class":
                low, _ = self.code(), self.choose(["."])
                done = (place, "leaf", [low, self.code()])
            else:
                letter = self.choose(leaves)
                done = (place, "leaf", [letter, self.name(letter)])
            while waiting:
                waiting[-1][2].append(done)
                if waiting[-1][1] == "j" and len(waiting[-1][2]) == 1:
                    self.choose([","])
                    break
                self.choose([")"])
                done = waiting.pop()
            else:
                return done

    def line(self, form, head):
        leaves = {"crmtime 2 orders\n": ["o", "l"], "crmtime 1 classes\n": "class"}.get(head, ["o"])
        parts = []
        for byte in form:
            if byte in "XNP":
                parts.append(self.name({"X": "x", "N": "t", "P": "p"}[byte]))
            elif byte == "C":
                parts.append(self.code())
            elif byte in "TW":
                parts.append(self.tree(leaves if byte == "T" else ["c"]))
            elif byte == "S":
                parts.append(self.choose(list(SIDES)))
            elif byte == "R":
                while self.choose([" ", "\n"]) == " ":
                    instant, _ = self.number(least=-(2**127), most=2**127 - 1), self.choose(["/"])
                    parts.append((instant, self.number()))
            elif byte == "Q":
                parts.append(self.choose(list(CLAIMS)))
                parts += self.line(CLAIMS[parts[-1]], head)
            else:
                self.choose([byte])
        return parts


def asked(tree, fact, wanted):
    if fact != wanted:
        raise Refused("K4", tree[0])


class Judge:
    """Judges a certificate a line at a time: K1 and K2, then K6, K3, K4, K5."""

    def __init__(self, records, text):
        self.records, self.reader, self.text = records, Reader(text), text
        self.placings, self.lets, self.covers = [], [], []
        self.pairs = [(a, b, side) for a in records.periods for b in records.periods if a != b for side in SIDES][::-1]
        self.due = records.due[::-1]
        self.last, self.cycle = None, False

    def verdict(self):
        self.head, kind = self.reader.choose(list(LINES)), None
        while kind != "end":
            self.begin, self.reader.names = self.reader.at, []
            kind = self.reader.choose(LINES[self.head]).split(" ")[0].strip()
            line = self.reader.line(FORMS[kind], self.head)
            if not self.is_due(kind, line):
                raise Refused("K6", self.begin)
            self.refuse_missing(line)
            if kind != "end":
                getattr(self, "judge_" + kind)(*line)
            self.cycle, self.last = self.cycle or kind == "cycle", kind
        if self.reader.at < len(self.text):
            raise Refused("K1", self.reader.at)
        return self.head.split()[2].replace("orders", "inconsistent" if self.cycle else "consistent")

    def is_due(self, kind, line):
        if "classes" in self.head:
            return not self.due if kind == "end" else bool(self.due) and line[0] == self.due[-1]
        if "matrix" in self.head:
            return kind != "cover" or self.last in (None, "cover")
        if not self.placings:
            return kind in ("let", "cycle") + ("place",) * (self.last is None) if not self.cycle else kind == "end"
        if kind == "pair" and self.pairs:
            return tuple(line[:3]) == self.pairs[-1]
        return kind == ("let" if self.pairs else "end") or kind == self.last == "place"

    def refuse_missing(self, line):
        counts = {"o": self.records.orders, "x": self.records.extents, "p": self.placings, "l": self.lets, "c": self.covers}
        for count, (place, letter, name) in enumerate(self.reader.names):
            if letter == "t":
                subjects = [self.records.types.get(number, (None,))[0] for number in (line[0], name)]
                missing = subjects[0] != subjects[1]
            elif letter == "code" and count == 2:
                missing = line[2] == line[3] or not {line[2], line[3]} <= {"E2", "E52", "E77"}
            else:
                missing = name not in self.records.parents if letter == "code" else name >= len(counts[letter])
            if missing:
                raise Refused("K3", place)

    def concludes(self, tree, leaf, join, weaken=lambda f: (*f[:2], False) if f[2] else None):
        place, rule, parts = tree
        facts = [] if rule == "leaf" else [self.concludes(part, leaf, join, weaken) for part in parts]
        if rule == "j":
            fact = join(*facts) if facts[0][1] == facts[1][0] else None
        else:
            fact = weaken(*facts) if rule == "w" else leaf(*parts)
        if fact is None:
            raise Refused("K4", place)
        return fact

    def order_fact(self, tree):
        facts = {"o": self.records.orders, "l": self.lets}
        return self.concludes(tree, lambda letter, n: facts[letter][n], lambda f, g: (f[0], g[1], f[2] or g[2]))

    def position(self, placing, point):
        kind, number = point[0], int(point[1:])
        return (self.records.dates[number], 0) if kind == "d" else placing[2 * number + (kind == "e")]

    def judge_place(self, *positions):
        def holds(low, high, strict):
            x, y = self.position(positions, low), self.position(positions, high)
            return x < y or (x == y and not strict)

        if len(positions) != 2 * len(self.records.extents) or not all(holds(*order) for order in self.records.orders):
            raise Refused("K5", self.begin)
        self.placings.append(positions)

    def judge_let(self, tree):
        self.lets.append(self.order_fact(tree))

    def judge_cycle(self, tree):
        fact = self.order_fact(tree)
        asked(tree, fact, (fact[0], fact[0], True))

    def judge_pair(self, a, b, side, claim, *proof):
        left, right = SIDES[side][0] + str(a), SIDES[side][1] + str(b)
        if claim != "no p":
            asked(proof[0], self.order_fact(proof[0]), (left, right, claim == "lt "))
        if claim != "lt ":
            x, y = (self.position(self.placings[proof[-1]], point) for point in (left, right))
            if x < y or (claim == "no p" and x == y):
                raise Refused("K5", self.begin)
        self.pairs.pop()

    def judge_cover(self, a, b, tree):
        asked(tree, self.order_fact(tree), (f"e{a}", f"s{b}", False))
        self.covers.append((a, b, True))

    def judge_walk(self, a, b, tree):
        fact = self.concludes(tree, lambda _, n: self.covers[n], lambda f, g: (f[0], g[1], f[2] and g[2]))
        asked(tree, fact, (a, b, True))

    def judge_class(self, first, second, lower, upper, *trees):
        parents = self.records.parents
        for number, code, tree in ((first, lower, trees[0]), (second, upper, trees[1])):
            step = lambda low, high: (low, high) if low == high or high in parents[low] else None
            fact = self.concludes(tree, step, lambda f, g: (f[0], g[1]), lambda f: (f[0], "E1"))
            asked(tree, fact, (self.records.types[number][1], code))
        self.due.pop()


def judged(records, text):
    """What is printed of a certificate, and the status."""
    if records.refusal:
        return records.refusal, 2
    try:
        if len(text) > 67108864:
            raise Refused("L1", 67108864)
        text.decode()
        verdict = Judge(records, text).verdict()
    except UnicodeDecodeError as bad:
        return f"refused certificate U1 at {bad.start}", 2
    except Refused as refused:
        return "refused certificate {} at {}".format(*refused.args), 2
    return f"verified {verdict}", int(verdict == "inconsistent")


if __name__ == "__main__":
    if len(sys.argv) not in (3, 6):
        sys.exit(__doc__)
    text, *listed = (pathlib.Path(name).read_bytes() for name in sys.argv[1:])
    said, status = judged(Records(*(listing.decode() for listing in listed)), text)
    print(said)
    sys.exit(status)
