# Periods of which nothing is told but that they are periods, and the length of their certificate.
COUNT = 800
CRM = "http://www.cidoc-crm.org/cidoc-crm/"
LIMIT = 67_108_864


def certificate():
    """Gives its lines: each two periods may stand in any way, which the delaying placings show."""
    yield "crmtime 2 orders"
    early = [(0, 0), (0, 1)] * COUNT
    yield place(early)
    for k in range(COUNT):
        yield place([*early[: 2 * k], (0, 2 * COUNT - 2), (0, 2 * COUNT - 1), *early[2 * k + 2 :]])
        yield place([*early[: 2 * k + 1], (0, 2 * COUNT - 1), *early[2 * k + 2 :]])
    for a in range(COUNT):
        for b in range(COUNT):
            if a != b:
                for side, end in (("se", 0), ("ss", 0), ("es", 1), ("ee", 1)):
                    yield f"pair x{a} x{b} {side} no p{1 + 2 * a + end}"
    yield "end"


def place(positions):
    return "place" + "".join(f" {instant}/{rank}" for instant, rank in positions)


with open("periods.ttl", "w", encoding="utf-8") as file:
    file.write(f"@prefix crm: <{CRM}> .\n")
    file.writelines(f"<http://e/{k}> a crm:E5_Event .\n" for k in range(COUNT))
length = sum(len(line) + 1 for line in certificate())
assert length > LIMIT
with open("refusal", "w", encoding="utf-8") as file:
    file.write(f"refused L9 count {length}\n")
