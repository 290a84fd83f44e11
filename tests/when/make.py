# Archives at the limits and one beyond.
CRM = "http://www.cidoc-crm.org/cidoc-crm/"
GYEAR = "http://www.w3.org/2001/XMLSchema#gYear"


def write(name, lines):
    with open(name, "w", encoding="utf-8") as file:
        file.writelines(line + "\n" for line in lines)


write("ladder_2048.nt", (f"<http://e/{i}> <{CRM}P176> <http://e/{i + 1}> ." for i in range(2048)))
write("years_2049.nt", (f'<http://e/x> <{CRM}P82a> "{1000 + i}"^^<{GYEAR}> .' for i in range(2049)))
write("years_2048.nt", (f'<http://e/x> <{CRM}P82a> "{1000 + i}"^^<{GYEAR}> .' for i in range(2048)))
write("spans_16321.nt", (f"<http://e/p{i // 128}> <{CRM}P4> <http://e/s{i % 128}> ." for i in range(16321)))
