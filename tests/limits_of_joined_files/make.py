# Files that are within the limits of triples and names one by one, and pass them together.
def write(name, lines):
    with open(name, "w", encoding="utf-8") as file:
        file.write("@prefix : <http://e/> .\n")
        file.writelines(line + "\n" for line in lines)


# These of 512 subjects, each with 512 objects: 512 triples a subject.
def triples(subjects):
    return (f":s{i} :p " + ",".join(map(str, range(512))) + "." for i in subjects)


# A subject and a predicate with these objects.
def objects(first, end):
    return (":s :p " + ",".join(map(str, range(i, min(i + 1000, end)))) + "." for i in range(first, end, 1000))


write("triples_a.ttl", triples(range(256)))
write("triples_b.ttl", triples(range(256, 512)))
write("triples_more.ttl", [":s0 :p 7 , 512 ."])
write("names_a.ttl", objects(0, 131_000))
write("names_b.ttl", objects(131_000, 262_142))
write("names_more.ttl", [":s :p 7 , 262142 ."])
