# Triples and names at their limits, and one beyond.
def write(name, lines):
    with open(name, "w", encoding="utf-8") as file:
        file.write("@prefix : <http://e/> .\n")
        file.writelines(line + "\n" for line in lines)


# 512 subjects with 512 objects, of two names beside them: 262,144 triples.
def triples():
    return (f":s{i} :p " + ",".join(map(str, range(512))) + "." for i in range(512))


# A subject and a predicate with so many objects.
def objects(count):
    return (":s :p " + ",".join(map(str, range(i, min(i + 1000, count)))) + "." for i in range(0, count, 1000))


write("triples.ttl", triples())
write("triples_more.ttl", [*triples(), ":s0 :p 7 , 512 ."])
write("names.ttl", objects(262_142))
write("names_more.ttl", [*objects(262_142), ":s :p 7 , 262142 ."])
