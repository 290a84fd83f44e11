#!/usr/bin/env python3
"""Compares what the program finds of contradictions with what the definitions say, on small archives made by chance.

usage: conflicts_check.py PROGRAM [N]

N archives (100 if it is left out) are written and handed to `PROGRAM conflicts`. From the orders that it prints, and
from nothing else, the rest of its text is worked out by the definitions:

    which points follow from which    by joining orders until nothing is new
    a tangle                          points that are before or at each other, with a strict order among its orders
    the cycle of a tangle             of all chains from one of its points to itself that show `<`, in the order of
                                      their lengths and then of their lists, the first
    a suspect                         a triple without whose orders no point is before itself

The first archive for which the two texts differ is shown, with both.
"""
import functools
import itertools
import os
import random
import re
import subprocess
import sys
import tempfile

CRM = "http://www.cidoc-crm.org/cidoc-crm/"
PRIMITIVES = ["P173", "P174", "P175", "P176", "P182", "P183", "P184", "P185"]
TYPED = ["before", "after", "same"]
DATES = ["P81a", "P81b", "P82a", "P82b"]


def archive(chance):
    """A few statements between a few periods, some of them with dates."""
    periods = [f"<http://e/{name}>" for name in "abcdef"[:chance.randint(1, 6)]]
    lines = []
    for _ in range(chance.randint(1, 8)):
        one, other = chance.choice(periods), chance.choice(periods)
        kind = chance.random()
        if kind < 0.5:
            lines.append(f"{one} <{CRM}{chance.choice(PRIMITIVES)}> {other} .")
        elif kind < 0.7:
            lines.append(f"{one} <urn:crmtime:AP13-{chance.choice(TYPED)}> {other} .")
        elif kind < 0.85:
            lines.append(f"{one} <{CRM}P4> {other} .")
        else:
            span, year = f"{one[:-1]}-span>", chance.randint(1400, 1403)
            lines.append(f"{one} <{CRM}P4> {span} .")
            lines.append(f'{span} <{CRM}{chance.choice(DATES)}> "{year}"^^<http://www.w3.org/2001/XMLSchema#gYear> .')
    return "".join(line + "\n" for line in lines)


def point_key(point, extents):
    """The place of a point in the order s0, e0, s1, e1 and so on, then d0, d1 and so on."""
    number = int(point[1:])
    return 2 * extents + number if point[0] == "d" else 2 * number + (point[0] == "e")


def follows(orders, points):
    """The pairs of points of which the first is before or at the second, and those of which it is before it."""
    weak = {(point, point) for point in points}
    strict = set()
    while True:
        grown = len(weak) + len(strict)
        for low, high, is_strict, _ in orders:
            for point in points:
                if (high, point) in weak:
                    weak.add((low, point))
                    if is_strict or (high, point) in strict:
                        strict.add((low, point))
        if len(weak) + len(strict) == grown:
            return weak, strict


def first_cycle(orders, members):
    """The first chain of all from one of the points to itself that shows `<`."""
    @functools.lru_cache(maxsize=None)
    def least(count, here, goal, strict):
        if count == 0:
            return () if here == goal and not strict else None
        for number, (low, high, is_strict, _) in enumerate(orders):
            if low == here:
                rest = least(count - 1, high, goal, strict and not is_strict)
                if rest is not None:
                    return (number, *rest)
        return None

    for count in itertools.count(1):
        found = [chain for point in members if (chain := least(count, point, point, True)) is not None]
        if found:
            return min(found)


def numbers(chain):
    return "".join(f" o{number}" for number in chain)


def expected(orders, points):
    """The text behind the orders, by the definitions."""
    weak, strict = follows(orders, points)
    tangles, seen = [], set()
    for point in points:
        members = [other for other in points if (point, other) in weak and (other, point) in weak]
        inside = [n for n, (low, high, _, _) in enumerate(orders) if low in members and high in members]
        if point not in seen and any(orders[n][2] for n in inside):
            tangles.append((inside, first_cycle(orders, members)))
        seen.update(members)
    if not tangles:
        return "consistent\n"
    lines = ["inconsistent", f"tangles {len(tangles)}"]
    for number, (inside, cycle) in enumerate(tangles):
        lines += [f"tangle {number}{numbers(inside)}", f"cycle{numbers(cycle)}"]
    suspects = 0
    for triple in sorted({int(by[1:]) for _, _, _, by in orders if by[0] == "t"}):
        rest = [order for order in orders if order[3] != f"t{triple}"]
        _, before = follows(rest, points)
        if not any((point, point) in before for point in points):
            suspects += 1
            lines.append(f"suspect t{triple}{numbers([n for n, order in enumerate(orders) if order[3] == f't{triple}'])}")
    lines.append(f"suspects {suspects}")
    return "".join(line + "\n" for line in lines)


def orders_of(text):
    """The orders that are printed, the points in their order, and what is printed behind the orders."""
    extents = int(re.search(r"^extents (\d+)$", text, re.M)[1])
    dates = int(re.search(r"^dates (\d+)$", text, re.M)[1])
    found = re.findall(r"^o\d+ (\w+) (<=?) (\w+) (\w+)\n", text, re.M)
    orders = [(low, high, sign == "<", by) for low, sign, high, by in found]
    points = [f"{letter}{k}" for k in range(extents) for letter in "se"] + [f"d{k}" for k in range(dates)]
    head = re.match(r"(?s).*^orders \d+\n(?:o[^\n]*\n)*", text, re.M)
    return orders, sorted(points, key=lambda point: point_key(point, extents)), text[head.end():]


def main(program, count):
    found = 0
    with tempfile.TemporaryDirectory(prefix="conflicts-") as room:
        name = os.path.join(room, "a.nt")
        for seed in range(count):
            text = archive(random.Random(seed))
            with open(name, "w", encoding="utf-8") as file:
                file.write(text)
            run = subprocess.run([program, "conflicts", name], stdout=subprocess.PIPE, encoding="utf-8", timeout=60)
            orders, points, told = orders_of(run.stdout)
            wanted = expected(orders, points)
            status = 0 if wanted == "consistent\n" else 1
            if told != wanted or run.returncode != status:
                sys.exit(f"archive {seed}:\n{text}\nby the definitions, with status {status}:\n{wanted}\n"
                         f"printed, with status {run.returncode}:\n{run.stdout}")
            found += status
    print(f"{count} archives, {found} with contradictions: the program agrees with the definitions")


if __name__ == "__main__":
    if not 2 <= len(sys.argv) <= 3:
        sys.exit(__doc__)
    main(os.path.abspath(sys.argv[1]), int(sys.argv[2]) if len(sys.argv) == 3 else 100)
