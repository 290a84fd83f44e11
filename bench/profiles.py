#!/usr/bin/env python3
"""Counts the instructions of the built program at the jobs of the product, by function, and prints one table.

    bench/profiles.py crates/crm_cli/out/crm_cli [--only WORD] [--top 8] [--least 2]

Instructions don't depend on what else the machine does, so this tells the same on a busy one. It wants valgrind.
"""
import argparse
import os
import re
import subprocess
import tempfile

import archives

NODE = archives.BASE + "genesis-"
COLUMNS = ("Job", "Million instructions", "A byte", "Shares by function, in percent")


def jobs():
    """(name, words, whether bytes that are written count in place of those read)."""
    sheets = list(archives.sheets(8192))
    archives.write_ntriples("sheets.nt", sheets)
    archives.write_turtle("sheets.ttl", sheets)
    for name, subjects in (("small.ttl", archives.site(100)), ("site.ttl", archives.site(2000)), ("limits.ttl", archives.limits())):
        archives.write_turtle(name, subjects)
    yield "`convert`, ntriples", ["convert", "sheets.nt"], False
    yield "`convert`, turtle", ["convert", "sheets.ttl"], False
    yield "`check`, turtle", ["check", "sheets.ttl"], False
    yield "`matrix`, 2,000 contexts", ["matrix", "site.ttl"], False
    yield "`matrix`, at the limits", ["matrix", "limits.ttl"], False
    yield "`explain`, 2,000 contexts, fails", ["explain", "site.ttl", NODE + "1999", "P182", NODE + "0"], False
    yield "`explain`, at the limits, fails", ["explain", "limits.ttl", NODE + "2047", "P182", NODE + "0"], False
    yield "`reason`, 100 contexts", ["reason", "small.ttl"], True
    yield "`certify orders`, 100 contexts", ["certify", "orders", "small.ttl"], True
    yield "`verify` of it", ["verify", "small.ttl", "small.cert"], False


def short(name):
    """A function's name without its file, hash, crate's path and type arguments."""
    name = re.sub(r"^.*?:(?=[^:])", "", name.strip()) if re.match(r"^(\?\?\?|[^ ]*\.(c|S|rs|h)):", name.strip()) else name.strip()
    name = re.sub(r" \[.*\]$", "", name)
    return name if len(name) <= 60 else "…" + name[-59:]


def profile(program, words, out):
    """The instructions of a run, and (instructions, name) of its functions, the most first."""
    with open(out, "wb") as sink:
        subprocess.run(["valgrind", "-q", "--tool=callgrind", "--callgrind-out-file=grind", program] + words, stdout=sink, stderr=subprocess.DEVNULL, check=False)
    text = subprocess.run(["callgrind_annotate", "--threshold=99", "grind"], stdout=subprocess.PIPE, stderr=subprocess.DEVNULL, text=True, check=True).stdout
    whole = int(re.search(r"^\s*([\d,]+)[^\n]*PROGRAM TOTALS", text, re.M)[1].replace(",", ""))
    rows = re.findall(r"^\s*([\d,]+) \([ \d.]+%\)\s+(\S.*)$", text.split("PROGRAM TOTALS")[1], re.M)
    return whole, [(int(count.replace(",", "")), short(name)) for count, name in rows]


def main():
    parser = argparse.ArgumentParser(description=__doc__, formatter_class=argparse.RawDescriptionHelpFormatter)
    parser.add_argument("program", type=os.path.abspath)
    parser.add_argument("--only", default="", help="only jobs whose name holds this")
    parser.add_argument("--top", type=int, default=8, help="functions a job")
    parser.add_argument("--least", type=float, default=2, help="no function below so many percent")
    options = parser.parse_args()
    print("| " + " | ".join(COLUMNS) + " |\n" + "|---" * len(COLUMNS) + "|")
    with tempfile.TemporaryDirectory(dir="/dev/shm" if os.path.isdir("/dev/shm") else None) as folder:
        os.chdir(folder)
        for name, words, is_written in jobs():
            if options.only not in name:
                continue
            if words[0] == "verify":
                with open("small.cert", "wb") as sink:
                    subprocess.run([options.program, "certify", "orders", "small.ttl"], stdout=sink, check=False)
            whole, functions = profile(options.program, words, "out")
            size = os.path.getsize("out") if is_written else sum(os.path.getsize(word) for word in words if os.path.exists(word))
            told = [(count * 100 / whole, name) for count, name in functions[:options.top]]
            shares = "; ".join(f"`{name}` {share:.0f}" for share, name in told if share >= options.least)
            print(f"| {name} | {whole / 1e6:,.0f} | {whole / size:.0f} | {shares} |", flush=True)
        os.chdir("/")


if __name__ == "__main__":
    main()
