#!/usr/bin/env python3
"""Finds what a certificate claims on one question, and lays its reason open.

usage: claim_of_certificate.py CERTIFICATE ORDERS A CODE B

    CERTIFICATE   what `crm_cli certify orders FILE` printed
    ORDERS        what `crm_cli orders FILE` prints
    A, B          two IRIs without brackets, or _:bN
    CODE          P173 to P176 or P182 to P185

Prints the line of the certificate with the `let` lines that it cites put in their places, whether the question follows by
it, and each order of the chain as ORDERS lists it, or the positions of the two boundaries in the placing that it cites. It
judges nothing: for that there are `crm_cli verify` and check_certificate.py.
"""
import re
import sys

SIDES = {"P173": ("se", "le"), "P174": ("se", "lt"), "P175": ("ss", "le"), "P176": ("ss", "lt"),
         "P182": ("es", "le"), "P183": ("es", "lt"), "P184": ("ee", "le"), "P185": ("ee", "lt")}


def unfolded(tree, lets):
    """The tree with each `lN` replaced by what the `let` line N stands for; these are unfolded already."""
    return re.sub(r"l(\d+)", lambda found: lets[int(found[1])], tree)


def main(certificate, orders, first, code, second):
    lines, orders = certificate.split("\n"), orders.split("\n")
    terms = {line.split(" ", 2)[2]: line.split(" ")[0] for line in orders if line.startswith("x")}
    names = [terms.get(name if name.startswith("_:") else f"<{name}>") for name in (first, second)]
    if None in names or code not in SIDES:
        sys.exit("no such period or code")
    side, wanted = SIDES[code]
    lets, placings, head = [], [], f"pair {names[0]} {names[1]} {side} "
    for line in lines:
        if line.startswith("let "):
            lets.append(unfolded(line[4:], lets))
        elif line.startswith("place"):
            placings.append(line.split(" ")[1:])
        elif line.startswith("cycle "):
            print(f"inconsistent: cycle {unfolded(line[6:], lets)}")
            return 1
        elif line.startswith(head):
            claim, *proof = line[len(head) :].split(" ")
            follows = claim == "lt" or claim == wanted
            tree = unfolded(proof[0], lets) if claim != "no" else ""
            cited = [] if claim == "lt" else proof[-1:]
            print(head + " ".join([claim, *([tree] if tree else []), *cited]))
            print(f"{code} {'follows' if follows else 'does not follow'}")
            if follows:
                for order in re.findall(r"o\d+", tree):
                    print(next(line for line in orders if line.startswith(order + " ")))
            else:
                places = placings[int(proof[-1][1:])]
                for boundary, name in zip(side, names):
                    print(f"{boundary}{name[1:]}={places[2 * int(name[1:]) + (boundary == 'e')]}")
            return 0 if follows else 1
    sys.exit("no line of the certificate says so")


if __name__ == "__main__":
    if len(sys.argv) != 6:
        sys.exit(__doc__)
    texts = []
    for name in sys.argv[1:3]:
        with open(name, encoding="utf-8") as file:
            texts.append(file.read())
    sys.exit(main(*texts, *sys.argv[3:]))
