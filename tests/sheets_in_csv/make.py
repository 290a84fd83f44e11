# The archive of the sheets, and that of the sheets with row 60 mended.
import subprocess
import sys

with open("examples/sheets.csv", encoding="utf-8") as file:
    sheets = file.read()
with open("mended.csv", "w", encoding="utf-8") as file:
    file.write(sheets.replace("60,layer,Tarmac,58,,", "60,layer,Tarmac,,59,"))
for sheets, archive in (("examples/sheets.csv", "trench.ttl"), ("mended.csv", "mended.ttl")):
    with open(archive, "wb") as out:
        subprocess.run([sys.executable, "examples/sheets_to_turtle.py", sheets], stdout=out, check=True)
