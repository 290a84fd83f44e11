# As many periods and dates as an archive may have, and one more of each.
CRM = "http://www.cidoc-crm.org/cidoc-crm/"


def write(name, lines):
    with open(name, "w", encoding="utf-8") as file:
        file.writelines(line + "\n" for line in lines)


for last in (2047, 2048):
    write(f"ladder_{last}.nt", (f"<http://e/{i}> <{CRM}P176> <http://e/{i + 1}> ." for i in range(last)))
write("ladder_2047.dates", ["periods 2048", *(f"x{k} <http://e/{k}> start from .. to .. end from .. to .." for k in range(2048))])
for count in (2048, 2049):
    write(f"years_{count}.nt", [f"<http://e/a> <{CRM}P4> <http://e/x> .", *(f'<http://e/x> <{CRM}P82a> "{1000 + i}" .' for i in range(count))])
