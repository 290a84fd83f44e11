# Files of 67,108,864 bytes, and of one more.
for size in (67_108_864, 67_108_865):
    with open(f"spaces_{size}.ttl", "wb") as file:
        file.write(b" " * size)
with open("no_text.nt", "wb") as file:
    file.write(b"x" + b"\xff" * 67_108_864)
