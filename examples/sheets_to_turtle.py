#!/usr/bin/env python3
"""Makes a Turtle archive of context sheets in CSV.

usage: sheets_to_turtle.py SHEETS.csv [BASE] > archive.ttl

A sheet is a row. Its columns, of which all but `number` and `kind` may be empty:

    number         the context's number, once in the file
    kind           cut, or anything else: a cut is an interface, all others are volumes
    label          what it is
    earlier than   numbers of contexts whose making began after this one's was over; several are parted by `;`
    later than     the other way round
    same as        contexts made together with this one
    phase          the name of the phase that it belongs to
    not before     a year, month or day: its making began then or later (its latest find was made then, say)
    not after      a year, month or day: its making was over by the end of it
    sheet          where it is recorded

Years BC are astronomical: -0049 is 50 BC, 0000 is 1 BC. A row that can't be read is told with its line, and then nothing is
written.
"""
import csv
import re
import sys

PREFIXES = """@prefix crm: <http://www.cidoc-crm.org/cidoc-crm/> .
@prefix arch: <http://www.cidoc-crm.org/extensions/crmarchaeo/> .
@prefix tm: <urn:crmtime:> .
@prefix rdfs: <http://www.w3.org/2000/01/rdf-schema#> .
@prefix xsd: <http://www.w3.org/2001/XMLSchema#> .
"""
COLUMNS = ["number", "kind", "label", "earlier than", "later than", "same as", "phase", "not before", "not after", "sheet"]
RELATIONS = {"earlier than": "tm:AP13-before", "later than": "tm:AP13-after", "same as": "tm:AP13-same"}
BOUNDS = {"not before": "crm:P82a_begin_of_the_begin", "not after": "crm:P82b_end_of_the_end"}
DATES = {r"-?\d{4,}": "gYear", r"-?\d{4,}-\d\d": "gYearMonth", r"-?\d{4,}-\d\d-\d\d": "date"}


def local(word):
    """A word as a part of a name in Turtle."""
    return re.sub(r"[^A-Za-z0-9]+", "-", word).strip("-").lower()


def text(words):
    return '"' + words.replace("\\", "\\\\").replace('"', '\\"') + '"'


def date(word):
    kinds = [kind for form, kind in DATES.items() if re.fullmatch(form, word)]
    return f'"{word}"^^xsd:{kinds[0]}' if kinds else None


def read(name):
    """Returns the rows with the lines at which they end, and what is wrong with them."""
    wrong = []
    with open(name, newline="", encoding="utf-8-sig") as file:
        sheets = csv.DictReader(file)
        missing = [column for column in COLUMNS if column not in (sheets.fieldnames or [])]
        if missing:
            return [], [f"{name}:1: no column {', '.join(missing)}"]
        rows = [(sheets.line_num, {column: (row[column] or "").strip() for column in COLUMNS}) for row in sheets]
    numbers = {}
    for line, row in rows:
        if not re.fullmatch(r"[A-Za-z0-9]+", row["number"]):
            wrong.append(f"{name}:{line}: {row['number']!r} is no number of a context")
        elif row["number"] in numbers:
            wrong.append(f"{name}:{line}: context {row['number']} stands at line {numbers[row['number']]} already")
        numbers.setdefault(row["number"], line)
    for line, row in rows:
        for column in RELATIONS:
            unknown = [number for number in listed(row[column]) if number not in numbers]
            wrong += [f"{name}:{line}: {column} {number}: no such context" for number in unknown]
        wrong += [f"{name}:{line}: {column} {row[column]!r}: no date" for column in BOUNDS if row[column] and not date(row[column])]
    return rows, wrong


def listed(cell):
    return [number for number in re.split(r"[;\s]+", cell) if number]


def turtle(rows, base):
    """Gives the lines of the archive: what was recorded has a node, and what produced it another, which has the time."""
    yield f"{PREFIXES}@prefix ex: <{base}> .\n"
    phases = {}
    for _, row in rows:
        number = row["number"]
        phases.setdefault(row["phase"], []).append(f"ex:making-{number}")
        said = [f"a arch:A4_Stratigraphic_Genesis ; arch:AP7_produced ex:context-{number}"]
        for column, relation in RELATIONS.items():
            said += [f"{relation} ex:making-{other}" for other in listed(row[column])]
        bounds = [f"{bound} {date(row[column])}" for column, bound in BOUNDS.items() if row[column]]
        if bounds:
            said.append(f"crm:P4_has_time-span [ {' ; '.join(bounds)} ]")
        yield f"ex:making-{number} " + " ;\n    ".join(said) + " ."
        kind = "A3_Stratigraphic_Interface" if row["kind"] == "cut" else "A2_Stratigraphic_Volume_Unit"
        named = [f"a arch:{kind}", f"rdfs:label {text(number + ' ' + row['label'])}"]
        if row["sheet"]:
            named.append(f"rdfs:comment {text('sheet ' + row['sheet'])}")
        yield f"ex:context-{number} " + " ; ".join(named) + " .\n"
    for phase, makings in phases.items():
        if phase:
            yield f"ex:phase-{local(phase)} a crm:E4_Period ; rdfs:label {text(phase)} ;\n    crm:P9_consists_of {' , '.join(makings)} ."


def main():
    if len(sys.argv) not in (2, 3):
        sys.exit(__doc__)
    rows, wrong = read(sys.argv[1])
    if wrong:
        sys.exit("\n".join(wrong))
    print("\n".join(turtle(rows, sys.argv[2] if len(sys.argv) == 3 else "http://dig.example/")))


if __name__ == "__main__":
    main()
