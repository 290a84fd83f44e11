import os


def ladder(name, rungs):
    with open(name, "w", encoding="ascii") as file:
        file.writelines(f"<http://e/{i}> <http://www.cidoc-crm.org/cidoc-crm/P176> <http://e/{i + 1}> .\n" for i in range(rungs))


os.mkdir("folder")
os.mkdir("folder.nt")
ladder("ladder.nt", 2000)
ladder("short_ladder.nt", 200)
with open("late.ttl", "w", encoding="ascii") as file:
    file.write(" " * 60_000_000 + "[")
