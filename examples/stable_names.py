#!/usr/bin/env python3
"""Gives the blank nodes of canonical triples names that don't depend on their number, and sorts the triples.

usage: crm_cli convert FILE | stable_names.py

A relation is named by its two ends and its type, so a changed comment changes one line; any other blank node by all that is
said of it, with other blank nodes left out. Two nodes of which the same is said get one name: this is for `diff`, not for an
archive. What is no list of triples, as a refusal, is said with status 1.
"""
import hashlib
import sys

ENDS = {f"<urn:crmtime:relation-{word}>" for word in ("from", "to", "type")}


def main():
    lines = sys.stdin.read().splitlines()
    if not all(line.endswith(" .") for line in lines):
        sys.exit("no triples: " + lines[0])
    triples = [line[:-2].split(" ", 2) for line in lines]
    said = {}
    for subject, predicate, end in triples:
        for node, way, other in ((subject, predicate, end), (end, "^" + predicate, subject)):
            if node.startswith("_:"):
                said.setdefault(node, []).append((way, "_" if other.startswith("_:") else other))
    names = {}
    for node, parts in said.items():
        whole = [part for part in parts if part[0] in ENDS] or parts
        names[node] = "<urn:node:" + hashlib.sha256(repr(sorted(whole)).encode()).hexdigest()[:12] + ">"
    for line in sorted({" ".join([names.get(s, s), p, names.get(o, o), "."]) for s, p, o in triples}):
        print(line)


if __name__ == "__main__":
    main()
