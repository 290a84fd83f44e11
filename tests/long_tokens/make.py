# Tokens of 65,536 bytes, and of one more.
def write(name, text):
    with open(name, "w", encoding="utf-8", newline="") as file:
        file.write(text)


HEAD = "<http://e/a> <http://e/p> "
for size in (65_536, 65_537):
    write(f"string_{size}.ttl", HEAD + '"' + "x" * (size - 2) + '" .\n')
    write(f"string_{size}.nt", HEAD + '"' + "x" * (size - 2) + '" .\n')
    write(f"string_{size}.lines", HEAD + '"' + "x" * (size - 2) + '" .\n')
    write(f"lines_{size}.nt", "\n" * size)
    write(f"spaces_{size}.ttl", " " * size + "#" + "c" * size + "\n" * size)
# Characters of two bytes, behind a quotation mark: 65,537 bytes are first taken by the one that ends at byte 65,537.
write("letters_65535.ttl", HEAD + '"' + "\u00e9" * 32_767 + '" .')
write("letters_65535.lines", HEAD + '"' + "\u00e9" * 32_767 + '" .\n')
write("letters_65537.ttl", HEAD + '"' + "\u00e9" * 32_768 + '" .')
write("open.ttl", HEAD + '"' + "x" * 70_000)
write("open_short.ttl", HEAD + '"' + "x" * 60_000)
write("digits.ttl", HEAD + "1" * 70_000 + "e")
write("open_name.ttl", "e:" + "x" * 65_535)
write("open_iri.ttl", "<http://e/" + "x" * 70_000)
