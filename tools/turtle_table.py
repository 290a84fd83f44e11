#!/usr/bin/env python3
"""Writes the machine of Turtle's terminals as a table.

The terminals stand below as patterns, as in crates/turtle_tokens/specs/Terminals.antt. The states are what the patterns still
want behind some text (their derivatives); a class holds the characters that no set of the patterns tells apart. Written are
the table itself (src/table.rt) and, for the proof that it is right, a text that leads to each state and one that leads on to
the end of a token (specs/Ways.antt). The proof computes each entry anew, so nothing rests on this script.

    tools/turtle_table.py            writes the files
    tools/turtle_table.py --check    exits 1 where a committed file differs
"""
import sys
from collections import deque
from functools import lru_cache
from pathlib import Path

CRATE = Path(__file__).resolve().parent.parent / "crates" / "turtle_tokens"
TOP = 0x10FFFF

# Patterns: a class of characters, one after another, a choice, any number.
NEVER = ("never",)
NOTHING = ("nothing",)


def one(*ranges):
    return ("one", tuple(ranges))


def then(*parts):
    rest = parts[-1]
    for part in reversed(parts[:-1]):
        rest = ("then", part, rest)
    return rest


def either(*parts):
    rest = parts[-1]
    for part in reversed(parts[:-1]):
        rest = ("either", part, rest)
    return rest


def many(part):
    return ("many", part)


def optional(part):
    return either(NOTHING, part)


def some_of(part):
    return then(part, many(part))


def char(c):
    return one(at(c))


def at(c):
    return (ord(c), ord(c))


def word(text):
    return then(*[char(c) for c in text]) if len(text) > 1 else char(text)


def in_any_case(text):
    return then(*[one(at(c.upper()), at(c.lower())) for c in text])


PN_CHARS_BASE = [
    (0x41, 0x5A), (0x61, 0x7A), (0xC0, 0xD6), (0xD8, 0xF6), (0xF8, 0x2FF), (0x370, 0x37D), (0x37F, 0x1FFF), (0x200C, 0x200D),
    (0x2070, 0x218F), (0x2C00, 0x2FEF), (0x3001, 0xD7FF), (0xF900, 0xFDCF), (0xFDF0, 0xFFFD), (0x10000, 0xEFFFF),
]
PN_CHARS_U = PN_CHARS_BASE + [at("_")]
DIGITS = [(0x30, 0x39)]
PN_CHARS = PN_CHARS_U + [at("-")] + DIGITS + [(0xB7, 0xB7), (0x300, 0x36F), (0x203F, 0x2040)]
LETTERS = [(0x41, 0x5A), (0x61, 0x7A)]

hexadecimal = one((0x30, 0x39), (0x41, 0x46), (0x61, 0x66))
digit = one(*DIGITS)
sign = optional(one(at("+"), at("-")))
exponent = then(one(at("e"), at("E")), sign, some_of(digit))

# Four or eight digits whose number is a scalar value.
scalar4 = either(
    then(one((0x30, 0x39), (0x41, 0x43), (0x45, 0x46), (0x61, 0x63), (0x65, 0x66)), hexadecimal, hexadecimal, hexadecimal),
    then(one(at("D"), at("d")), one((0x30, 0x37)), hexadecimal, hexadecimal),
)
scalar8 = then(char("0"), char("0"), either(
    then(char("0"), either(
        then(char("0"), scalar4),
        then(one((0x31, 0x39), (0x41, 0x46), (0x61, 0x66)), hexadecimal, hexadecimal, hexadecimal, hexadecimal),
    )),
    then(char("1"), char("0"), hexadecimal, hexadecimal, hexadecimal, hexadecimal),
))
uchar = either(then(char("u"), scalar4), then(char("U"), scalar8))
echar = one(*[at(c) for c in "tbnrf\"'\\"])
escape = then(char("\\"), either(echar, uchar))
iri_char = one((0x21, 0x21), (0x23, 0x3B), (0x3D, 0x3D), (0x3F, 0x5B), (0x5D, 0x5D), (0x5F, 0x5F), (0x61, 0x7A), (0x7E, TOP))


def short_string(mark):
    q = ord(mark)
    inner = one((0x0, 0x9), (0xB, 0xC), (0xE, q - 1), (q + 1, 0x5B), (0x5D, TOP))
    return then(char(mark), many(either(inner, escape)), char(mark))


def long_string(mark):
    q = ord(mark)
    inner = one((0x0, q - 1), (q + 1, 0x5B), (0x5D, TOP))
    group = then(optional(then(char(mark), optional(char(mark)))), either(inner, escape))
    return then(char(mark), char(mark), char(mark), many(group), char(mark), char(mark), char(mark))


plx = either(then(char("%"), hexadecimal, hexadecimal), then(char("\\"), one(*[at(c) for c in "_~.-!$&'()*+,;=/?#@%"])))
label_rest = optional(then(many(one(*PN_CHARS, at("."))), one(*PN_CHARS)))
pname_ns = then(optional(then(one(*PN_CHARS_BASE), label_rest)), char(":"))
pn_local = then(
    either(one(*PN_CHARS_U, at(":"), *DIGITS), plx),
    optional(then(many(either(one(*PN_CHARS, at("."), at(":")), plx)), either(one(*PN_CHARS, at(":")), plx))),
)

# The kinds in the order of `TokenKind`.
KINDS = [
    ("IriRef", then(char("<"), many(either(iri_char, then(char("\\"), uchar))), char(">"))),
    ("PnameNs", pname_ns),
    ("PnameLn", then(pname_ns, pn_local)),
    ("Blank", then(char("_"), char(":"), one(*PN_CHARS_U, *DIGITS), label_rest)),
    ("AtWord", then(char("@"), some_of(one(*LETTERS)), many(then(char("-"), some_of(one(*DIGITS, *LETTERS)))))),
    ("Integer", then(sign, some_of(digit))),
    ("Decimal", then(sign, many(digit), char("."), some_of(digit))),
    ("Double", then(sign, either(
        then(some_of(digit), char("."), many(digit), exponent),
        then(char("."), some_of(digit), exponent),
        then(some_of(digit), exponent),
    ))),
    ("Str", either(either(short_string('"'), short_string("'")), either(long_string('"'), long_string("'")))),
    ("A", word("a")),
    ("True", word("true")),
    ("False", word("false")),
    ("Prefix", in_any_case("PREFIX")),
    ("Base", in_any_case("BASE")),
    ("Dot", char(".")),
    ("Semicolon", char(";")),
    ("Comma", char(",")),
    ("OpenSquare", char("[")),
    ("CloseSquare", char("]")),
    ("OpenRound", char("(")),
    ("CloseRound", char(")")),
    ("Carets", word("^^")),
]


def within(ranges, c):
    return any(low <= c <= high for low, high in ranges)


def nullable(p):
    if p[0] == "then":
        return nullable(p[1]) and nullable(p[2])
    if p[0] == "either":
        return nullable(p[1]) or nullable(p[2])
    return p[0] in ("nothing", "many")


def then_of(p, q):
    return NEVER if p == NEVER else q if p == NOTHING else ("then", p, q)


def either_of(p, q):
    return q if p == NEVER else p if q == NEVER else ("either", p, q)


@lru_cache(None)
def derivative(p, c):
    """What the pattern still wants behind a character."""
    if p[0] == "one":
        return NOTHING if within(p[1], c) else NEVER
    if p[0] == "then":
        first = then_of(derivative(p[1], c), p[2])
        return either_of(first, derivative(p[2], c) if nullable(p[1]) else NEVER)
    if p[0] == "either":
        return either_of(derivative(p[1], c), derivative(p[2], c))
    if p[0] == "many":
        return then_of(derivative(p[1], c), p)
    return NEVER


def alternatives(p):
    if p == NEVER:
        return frozenset()
    if p[0] == "either":
        return alternatives(p[1]) | alternatives(p[2])
    return frozenset([p])


def sets_of(p, found):
    if p[0] == "one":
        found.add(p[1])
    else:
        for part in p[1:]:
            sets_of(part, found)
    return found


def classes():
    """A character of each class, and the number of each character's class."""
    sets = set()
    for _, pattern in KINDS:
        sets_of(pattern, sets)
    ordered = sorted(sets)

    def signature(c):
        return tuple(within(s, c) for s in ordered)

    numbers = {}
    samples = []
    printed = [c for c in range(0x21, 0x7F)]
    for c in printed + [c for c in range(0x80) if c not in printed] + [0xC0, 0xB7, 0x80]:
        if signature(c) not in numbers:
            numbers[signature(c)] = len(samples)
            samples.append(c)
    return samples, lambda c: numbers[signature(c)]


class Machine:
    def __init__(self, samples):
        start = tuple(pattern for _, pattern in KINDS)
        self.rests = [start]
        self.ways = [()]
        self.next = []
        numbers = {self.key(start): 0}
        queue = deque([0])
        while queue:
            state = queue.popleft()
            row = []
            for c in samples:
                rest = tuple(derivative(p, c) for p in self.rests[state])
                if all(p == NEVER for p in rest):
                    row.append(None)
                    continue
                key = self.key(rest)
                if key not in numbers:
                    numbers[key] = len(self.rests)
                    self.rests.append(rest)
                    self.ways.append(self.ways[state] + (c,))
                    queue.append(numbers[key])
                row.append(numbers[key])
            self.next.append(row)
        self.ends = [self.kind_at(rest) for rest in self.rests]
        self.final = [all(n is None for n in row) for row in self.next]
        self.on = [self.way_on(state, samples) for state in range(len(self.rests))]

    @staticmethod
    def key(rest):
        return tuple(alternatives(p) for p in rest)

    @staticmethod
    def kind_at(rest):
        kinds = [k for k, p in enumerate(rest) if nullable(p)]
        assert len(kinds) <= 1
        return kinds[0] if kinds else None

    def way_on(self, state, samples):
        """The shortest text on to the end of a token, and its kind; none in a final state."""
        if self.final[state]:
            return (), self.ends[state]
        seen = {state}
        queue = deque([(state, ())])
        while True:
            q, way = queue.popleft()
            for c, n in zip(samples, self.next[q]):
                if n is None:
                    continue
                if self.ends[n] is not None:
                    return way + (c,), self.ends[n]
                if n not in seen:
                    seen.add(n)
                    queue.append((n, way + (c,)))


def lines(items, indent, width=99):
    """The items with commas, in lines that are as long as may be."""
    out = []
    line = " " * indent
    for item in items:
        piece = item + ","
        if line.strip() and len(line) + len(piece) + (1 if line.strip() else 0) > width:
            out.append(line)
            line = " " * indent
        line += piece if not line.strip() else " " + piece
    out.append(line)
    return "\n".join(out)


def rows_text(machine):
    dead = len(machine.rests)
    out = []
    for row in machine.next:
        out.append("    [\n" + lines([str(dead if n is None else n) for n in row], 8) + "\n    ],")
    return "\n".join(out)


def table_text(samples, class_of, machine):
    states = len(machine.rests)
    none = len(KINDS)
    return f"""// The machine of the terminals. tools/turtle_table.py writes this file.

/// How many states there are.
pub(crate) const STATES: u8 = {states};

/// How many classes of characters there are.
pub(crate) const CLASSES: u8 = {len(samples)};

/// The class of letters of names from U+0080 on.
pub(crate) const LETTERS: u8 = {class_of(0xC0)};

/// The class of the characters from U+0080 on that stand inside names, but begin none.
pub(crate) const INNER: u8 = {class_of(0xB7)};

/// The class of all others from U+0080 on.
pub(crate) const OTHERS: u8 = {class_of(0x80)};

/// The class of each character of ASCII.
pub(crate) const ASCII: [u8; 128] = [
{lines([str(class_of(c)) for c in range(128)], 4)}
];

/// The state behind a character of each class, in each state; {states} where no token goes on so.
pub(crate) const NEXT: [[u8; {len(samples)}]; {states}] = [
{rows_text(machine)}
];

/// The number of the kind that ends in each state; {none} where none does.
pub(crate) const ENDS: [u8; {states}] = [
{lines([str(none if k is None else k) for k in machine.ends], 4)}
];

/// Whether no token goes on behind each state.
pub(crate) const FINAL: [bool; {states}] = [
{lines(["true" if f else "false" for f in machine.final], 4)}
];
"""


def listed(items):
    return " ∷ ".join(list(items) + ["[]"])


def texts(ways):
    return "\n    ∷ ".join(["(" + listed(f"0x{c:X}" for c in way) + ")" if way else "[]" for way in ways] + ["[]"])


def ways_text(samples, machine):
    return f"""-- Texts that lead to the states of the machine and on from them. tools/turtle_table.py writes this file.
use Rattle.std.specs.Prelude.{{ℕ, List, [], ◌∷◌}}

-- a character of each class
abbrev pub samples : List ℕ
samples = {listed(f"0x{c:X}" for c in samples)}

-- a text that leads to each state
abbrev pub ways : List (List ℕ)
ways = {texts(machine.ways)}

-- a text that leads on from each state to the end of a token
abbrev pub ways_on : List (List ℕ)
ways_on = {texts(way for way, _ in machine.on)}

-- the number of that token's kind
abbrev pub towards_numbers : List ℕ
towards_numbers = {listed(str(kind) for _, kind in machine.on)}
"""


def main():
    samples, class_of = classes()
    machine = Machine(samples)
    files = {
        CRATE / "src" / "table.rt": table_text(samples, class_of, machine),
        CRATE / "specs" / "Ways.antt": ways_text(samples, machine),
    }
    if "--check" in sys.argv[1:]:
        stale = [path for path, text in files.items() if not path.is_file() or path.read_text(encoding="utf-8") != text]
        for path in stale:
            print(f"{path.name} is not what this script writes", file=sys.stderr)
        return 1 if stale else 0
    for path, text in files.items():
        path.write_text(text, encoding="utf-8")
    print(f"{len(machine.rests)} states, {len(samples)} classes")
    return 0


if __name__ == "__main__":
    sys.exit(main())
