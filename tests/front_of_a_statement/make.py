# The fronts of a statement, by their lengths.
STATEMENT = '<http://e/a> <http://e/p> "x" .'
for length in range(len(STATEMENT) + 1):
    with open(f"{length}.ttl", "w", encoding="utf-8") as file:
        file.write(STATEMENT[:length])
