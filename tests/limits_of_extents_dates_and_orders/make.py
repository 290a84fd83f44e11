# Archives at the limits and one beyond, and what must be printed of those within them.
import datetime

CRM = "http://www.cidoc-crm.org/cidoc-crm/"
GYEAR = "http://www.w3.org/2001/XMLSchema#gYear"
DAY = 86_400_000_000_000


def write(name, lines):
    with open(name, "w", encoding="utf-8") as file:
        file.writelines(line + "\n" for line in lines)


# Periods in a row, each of which starts before the next.
def ladder(last):
    return (f"<http://e/{i}> <{CRM}P176> <http://e/{i + 1}> ." for i in range(last))


def orders_of_ladder(last):
    count = last + 1
    yield f"extents {count}"
    yield from (f"x{k} period <http://e/{k}>" for k in range(count))
    yield "dates 0"
    yield f"orders {last + count}"
    yield from (f"o{i} s{i} < s{i + 1} t{i}" for i in range(last))
    yield from (f"o{last + k} s{k} < e{k} x{k}" for k in range(count))


# A span with so many bounds, from the year 1000 on.
def years(count):
    return (f'<http://e/x> <{CRM}P82a> "{1000 + i}"^^<{GYEAR}> .' for i in range(count))


def orders_of_years(count):
    yield "extents 1"
    yield "x0 span <http://e/x>"
    yield f"dates {count}"
    epoch = datetime.date(1970, 1, 1)
    yield from (f"d{i} {(datetime.date(1000 + i, 1, 1) - epoch).days * DAY}" for i in range(count))
    yield f"orders {2 * count}"
    yield from (f"o{i} d{i} <= s0 t{i}" for i in range(count))
    yield f"o{count} s0 < e0 x0"
    yield from (f"o{count + 1 + i} d{i} < d{i + 1} dates" for i in range(count - 1))


# Periods and 128 spans, with four orders for each two.
def spans(count):
    return (f"<http://e/p{i // 128}> <{CRM}P4> <http://e/s{i % 128}> ." for i in range(count))


for last in (1023, 2047, 2048):
    write(f"ladder_{last}.nt", ladder(last))
    write(f"ladder_{last}.orders", orders_of_ladder(last))
for count in (2048, 2049):
    write(f"years_{count}.nt", years(count))
    write(f"years_{count}.orders", orders_of_years(count))
write("spans_16321.nt", spans(16321))
