# Nests of 128 and of 129 empty collections.
for n in (128, 129):
    with open(f"nest_{n}.ttl", "w", encoding="utf-8") as file:
        file.write("<http://e/s> <http://e/p> " + "(" * n + ")" * n + " .")
