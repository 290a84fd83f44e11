"""Makes the archives that bench/jobs.py times: seeded, so that each run reads the same bytes.

A trench has areas; in each the contexts lie on one another in the order of their numbers, as layers, and as pits whose
cut goes through the layers below and whose fill lies in the cut. A phase is a row of contexts, finds are dated coins.
"""
import random

BASE = "http://dig.example/"
CIDOC, W3C = "http://www.cidoc-crm.org/", "http://www.w3.org/"
PREFIXES = {"ex": BASE, "crm": CIDOC + "cidoc-crm/", "arch": CIDOC + "extensions/crmarchaeo/", "tm": "urn:crmtime:",
            "rdfs": W3C + "2000/01/rdf-schema#", "xsd": W3C + "2001/XMLSchema#"}
TYPE = W3C + "1999/02/22-rdf-syntax-ns#type"
AFTER, BEFORE = "crm:P82a_begin_of_the_begin", "crm:P82b_end_of_the_end"
HEAD = "".join(f"@prefix {key}: <{space}> .\n" for key, space in PREFIXES.items())


def whole(term):
    """A term of Turtle as N-Triples has it."""
    if term.startswith('"'):
        text, mark, datatype = term.rpartition("^^")
        return f"{text}^^{whole(datatype)}" if mark else term
    key, _, local = term.partition(":")
    return f"<{PREFIXES[key]}{local}>" if local else f"<{TYPE}>"


def turtle(subjects):
    """The lines of Turtle, a subject in each."""
    yield HEAD
    for subject, pairs in subjects:
        text, before = subject, None
        for verb, thing in pairs:
            mark = "" if before is None else " ;\n "
            text += f" , {thing}" if verb == before else f"{mark} {verb} {thing}"
            before = verb
        yield text + " .\n"


def write_turtle(path, subjects):
    with open(path, "w", encoding="utf-8") as file:
        file.writelines(turtle(subjects))


def write_ntriples(path, subjects):
    with open(path, "w", encoding="utf-8") as file:
        file.writelines(f"{whole(subject)} {whole(verb)} {whole(thing)} .\n" for subject, pairs in subjects for verb, thing in pairs)


def sheets(count):
    """Context sheets of eight triples each, of one long section."""
    rng = random.Random(1)
    for k in range(count):
        soil = rng.choice(("grey silt", "red clay", "dark loam", "gravel", "brick rubble"))
        find = rng.choice(("sherds", "bone", "coins", "charcoal"))
        label = f'"laying of {soil}, context {k}, with {find}, seen in both sections"@en'
        pairs = [("a", "arch:A4"), ("rdfs:label", label), ("arch:AP7", f"ex:unit-{k}")]
        later = {min(k + rng.randint(1, 40), count + 4) for _ in range(3)} | {k + 41, k + 42, k + 43, k + 44, k + 45}
        yield f"ex:laying-{k}", pairs + [("tm:AP13-before", f"ex:laying-{j}") for j in sorted(later)[:5]]


def stratigraphy(contexts, areas, rng):
    """Pairs of contexts, the earlier first, as the sheets state them."""
    trench = [[] for _ in range(areas)]
    pairs = set()
    for k in range(contexts):
        area = rng.choice(trench)
        if len(area) >= 2 and area[-1][1] == "cut":
            kind, below = "fill", area[-1:]
        elif rng.randrange(6) == 0:
            kind, below = "cut", area[-4:]
        else:
            kind, below = "layer", area[-2:] if rng.randrange(3) == 0 else area[-1:]
        pairs.update((j, k) for j, _ in below)
        area.append((k, kind))
    return pairs, trench


def later_of(pairs):
    """For each context the statements that it is before others."""
    later = {}
    for low, high in sorted(pairs):
        later.setdefault(low, []).append(("tm:AP13-before", f"ex:genesis-{high}"))
    return later


def dated(name, first, last):
    years = [f'"{"-" if year < 0 else ""}{abs(year):04}"^^xsd:gYear' for year in (first, last)]
    return f"ex:{name}", [("a", "crm:E52_Time-Span"), (AFTER, years[0]), (BEFORE, years[1])]


def site(contexts, orders=0, dates=True, areas=20, phases=12, finds=12):
    """A site's subjects; where `orders` is more than the sheets give, earlier contexts of the same area are listed too."""
    rng = random.Random(contexts)
    pairs, trench = stratigraphy(contexts, areas, rng)
    marks = []

    def year(k):
        return 1000 * k // contexts - 500

    if dates:
        size = contexts // phases
        for p in range(phases):
            first, last = p * size, contexts if p == phases - 1 else (p + 1) * size
            marks.append(dated(f"span-of-phase-{p}", year(first) - 15, year(last) + 15))
            then = [("tm:AP13-before", f"ex:phase-{p + 1}")] if p + 1 < phases else []
            members = [("crm:P9_consists_of", f"ex:genesis-{k}") for k in range(first, last)]
            marks.append((f"ex:phase-{p}", [("a", "crm:E4_Period"), ("crm:P4_has_time-span", f"ex:span-of-phase-{p}")] + then + members))
        for f in range(finds):
            k = rng.randrange(contexts)
            marks.append(dated(f"span-of-coin-{f}", year(k) - 60 - f, year(k) - 20 - f))
            marks.append((f"ex:striking-of-coin-{f}", [("a", "crm:E12_Production"), ("crm:P4_has_time-span", f"ex:span-of-coin-{f}"),
                                                       ("crm:P183_ends_before_the_start_of", f"ex:genesis-{k}")]))
    named = 2 * (phases + finds) if dates else 0
    stated = 4 * (phases + finds) + named + finds + phases - 1 + 2 * contexts + named - 1 if dates else 0
    while len(pairs) + stated + contexts + named < orders:
        area = rng.choice(trench)
        low, high = sorted(rng.sample(range(len(area)), 2))
        pairs.add((area[low][0], area[high][0]))
    later = later_of(pairs)
    for k in range(contexts):
        yield f"ex:genesis-{k}", [("a", "arch:A4_Stratigraphic_Genesis"), ("arch:AP7_produced", f"ex:unit-{k}")] + later.get(k, [])
    yield from marks


def limits(extents=2048, orders=65536):
    """As many extents, dates and orders as are taken: each event dated by a day after or before it, the rest forward pairs."""
    rng = random.Random(7)
    pairs = {(k, k + 1) for k in range(extents - 1)}
    while len(pairs) < orders - extents - (2 * extents - 1):
        low = rng.randrange(extents - 1)
        pairs.add((low, rng.randrange(low + 1, extents)))
    later = later_of(pairs)
    for k in range(extents):
        day = f'"{1000 + k:04}-01-0{1 + k % 2}"^^xsd:date'
        yield f"ex:genesis-{k}", [(BEFORE if k % 2 else AFTER, day)] + later.get(k, [])


def in_a_loop(contexts, short=0):
    """Contexts of which each is before the next and the last before the first, with a loop of `short` contexts in their midst."""
    later = {k: [k + 1] for k in range(contexts - 1)}
    later[contexts - 1] = [0]
    if short:
        later[contexts // 2 + short - 1].append(contexts // 2)
    for k in range(contexts):
        yield f"ex:genesis-{k}", [("a", "arch:A4_Stratigraphic_Genesis")] + [("tm:AP13-before", f"ex:genesis-{j}") for j in later[k]]


def with_mistakes(contexts, mistakes):
    """A site where so many contexts, far from each other, are also said to be before the one that they lie on."""
    yield from site(contexts)
    pairs, _ = stratigraphy(contexts, 20, random.Random(contexts))
    step, last = contexts // mistakes, -1
    for low, high in sorted(pairs, key=lambda pair: pair[1]):
        if low > last and high >= last + step // 2 and mistakes:
            yield f"ex:genesis-{high}", [("tm:AP13-before", f"ex:genesis-{low}")]
            last, mistakes = high, mistakes - 1


def fill(path, head, piece="", tail=""):
    """A file of the head, as many pieces as it may have at most, and the tail."""
    count = ((1 << 26) - len(head) - len(tail)) // len(piece) if piece else 0
    block = max(1, (1 << 20) // max(1, len(piece)))
    with open(path, "w", encoding="utf-8") as file:
        file.write(head)
        for done in range(0, count, block):
            file.write(piece * min(block, count - done))
        file.write(tail)


def bases(count, triples):
    """References that a base of so many bases, each set on the one before, makes ever longer."""
    return (f"@base <{BASE}> .\n" + f"@base <{'pit/' * 10000}> .\n" * count + "".join(f"<s{k}> <p> <o{k}> .\n" for k in range(triples)),)


def equal_starts(extents=2048, orders=65536):
    """As many extents and orders as are taken, in one loop of `<=`: each event starts no later than the next ones, round and round."""
    after = "crm:P175_starts_before_or_with_the_start_of"
    for k in range(extents):
        yield f"ex:genesis-{k}", [(after, f"ex:genesis-{(k + j) % extents}") for j in range(1, orders // extents)]


def halved(joins):
    """A tree of the order o0 alone, with so many joins one in the other and two equal trees in each."""
    tree = "o0"
    for _ in range(joins):
        tree = f"j({tree},{tree})"
    return tree


def hostile_archives():
    """The parts of each archive that is made to take long."""
    yield '64 MiB of `"`', ("", '"')
    yield "64 MiB of `[`", ("", "[")
    yield "64 MiB of `;`", ("<a:s> <a:p> <a:o> ", ";", " .\n")
    yield "64 MiB of one comment", ("# ", "fill of a pit ", "\n")
    yield "64 MiB of `@prefix` over one another", ("", f"@prefix ex: <{BASE}> .\n")
    yield "64 MiB of nests of 128", ("", "<a:s> <a:p> " + "[ <a:p> " * 128 + "<a:o>" + " ]" * 128 + " .\n")
    objects = " , ".join(f"_:b{k}" for k in range(262143))
    yield "one subject with 262,143 objects", (f"{HEAD}ex:phase a crm:E4_Period ; crm:P9_consists_of {objects} .\n",)
    yield "references with 20,000 `../`", (f"@base <{BASE}> .\n", f"<{'../' * 20000}s> <a:p> <a:o> .\n")
    yield "a reference with 60,000 `../`", (f"@base <{BASE}> .\n", f"<{'../' * 60000}s> <a:p> <a:o> .\n")
    yield "25 bases of 40,000 bytes, 1,000 triples", bases(25, 1000)
    yield "25 bases of 40,000 bytes, 10,000 triples", bases(25, 10000)
    yield "32 MB of bases of 40,000 bytes", bases(800, 1)


def hostile_orders():
    yield "one loop of 65,536 `<=` over 2,048 extents", ("".join(turtle(equal_starts())),)


def hostile_certificates():
    """The parts of each certificate of an event that starts before it starts."""
    yield "a certificate of 50 MB with one tree", (f"crmtime 1 orders\ncycle {halved(23)}\nend\n",)
    yield "a certificate of 64 MiB with one `let` that all others cite", ("crmtime 2 orders\nlet j(o0,o0)\n", "let j(l0,l0)\n", "cycle l0\nend\n")
