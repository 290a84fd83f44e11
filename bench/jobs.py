#!/usr/bin/env python3
"""Times the built program at the jobs of the product, beside its peers and a yardstick in C++, and prints one table.

    bench/jobs.py crates/crm_cli/out/crm_cli [--turns 5] [--only WORD] [--processor] [--write --date DATE --note TEXT]
"""
import argparse
import os
import subprocess
import tempfile

import archives
from measure import Taken, best, machine, size_text

HERE = os.path.dirname(os.path.abspath(__file__))
MARKS = ("<!-- table begins -->", "<!-- table ends -->")
COLUMNS = ("Job", "Reads", "Writes", "crm_cli", "Peak", "Peer", "Ratio", "Yardstick", "Ratio", "Wanted")
TRED = """serdi -i turtle -o ntriples plain.ttl | awk '$2 == "<urn:crmtime:AP13-before>" { gsub(/[<>]/, "\\""); print $1 " -> " $3 }' |
(echo 'digraph {'; cat; echo '}') | tred"""


FOUR = [("4 of the yardstick", lambda ours, _, stick: ours <= 4 * stick)]


class Bench:
    def __init__(self, options, folder):
        self.options, self.rows, self.tools = options, [], {}
        for name in ("launch", "yardstick"):
            self.tools[name] = os.path.join(folder, name)
            subprocess.run(["g++", "-O2", "-std=c++17", "-o", self.tools[name], os.path.join(HERE, name + ".cpp")], check=True)

    def best(self, jobs, turns=0):
        return best(self.tools["launch"], jobs, turns or self.options.turns, self.options.processor)

    def our(self, words, out, limit=300, memory=0):
        return ([self.options.program] + words, out, limit, memory)

    def wants(self, job):
        return not self.options.only or self.options.only in job

    def row(self, *cells):
        self.rows.append(cells)
        print("| " + " | ".join(cells) + " |", flush=True)

    @staticmethod
    def ratio(over, under):
        return f"{over / under:.2f}" if over and under else ""

    @staticmethod
    def verdicts(wanted, numbers):
        """What came of the wanted bounds, each a text and a test of the numbers, or a number of seconds."""
        def verdict(test):
            try:
                return "met" if test(*numbers) else "**not met**"
            except TypeError:
                return "**not met**" if numbers[0] is None else "not compared"
        pairs = [pair if isinstance(pair, tuple) else (f"{pair} s", lambda ours, *_, bound=pair: ours <= bound) for pair in wanted]
        return "; ".join(f"{text}: {verdict(test)}" for text, test in pairs)

    def job(self, job, words, *, out="out", peer=None, peer_name="", stick=None, wanted=()):
        """Times `words` of the program, the command line `peer`, and the yardstick with the words `stick`."""
        if not self.wants(job):
            return Taken()
        found = self.best([self.our(words, out), peer and (peer, "peer", 300, 0), stick and ([self.tools["yardstick"]] + stick, "peer", 300, 0)])
        ours, theirs, yard = found
        numbers = [taken and taken.answered() for taken in found]
        reads = sum(os.path.getsize(word) for word in words if os.path.exists(word))
        self.row(job, size_text(reads), size_text(ours.written), str(ours), size_text(ours.peak), f"{peer_name} {theirs}" if theirs else "",
                 self.ratio(numbers[0], numbers[1]), str(yard or ""), self.ratio(numbers[0], numbers[2]), self.verdicts(wanted, numbers))
        return ours

    def memory(self, job, ours, text, text_name):
        if ours.answered() and text:
            self.row(f"memory of {job}", "", "", "", size_text(ours.peak), f"{text_name} {size_text(text)}", self.ratio(ours.peak, text), "", "",
                     self.verdicts([("under twice the text", lambda peak: peak < 2 * text)], [ours.peak]))

    def counts(self, name):
        """What the program says that the file holds."""
        self.best([self.our(["orders", name], "out")], 1)
        with open("out", encoding="utf-8") as file:
            words = [line.split() for line in file if line.startswith(("extents", "dates", "orders"))]
        return ", ".join(f"{int(word[1]):,} {word[0]}" for word in words)

    def reading(self):
        sheets = list(archives.sheets(32768))
        archives.write_ntriples("sheets.nt", sheets)
        archives.write_turtle("sheets.ttl", sheets)
        fast = [("at most serdi", lambda ours, peer, _: ours <= peer), 0.3]
        for name, syntax in (("sheets.nt", "ntriples"), ("sheets.ttl", "turtle")):
            self.job(f"`convert`, 262,144 triples of {syntax}", ["convert", name], peer=f"serdi -i {syntax} -o ntriples {name}", peer_name="serdi",
                     stick=["convert", name], wanted=fast)
        for name, syntax, wanted in (("sheets.ttl", "turtle", [0.35]), ("sheets.nt", "ntriples", [])):
            ours = self.job(f"`check` of the same {syntax}", ["check", name], peer=f"serdi -i {syntax} -o ntriples {name} > /dev/null",
                            peer_name="serdi to nowhere", stick=["check", name], wanted=wanted)
            self.memory(f"`check`, {syntax}", ours, os.path.getsize(name), "text read")

    def questions(self):
        tred = [("0.5 of tred", lambda ours, peer, _: ours <= peer / 2), 0.05]
        for name, subjects, wanted in (("plain.ttl", archives.site(2000, dates=False), tred), ("site.ttl", archives.site(2000), FOUR),
                                       ("dense.ttl", archives.site(2000, orders=57802), FOUR), ("limits.ttl", archives.limits(), FOUR)):
            archives.write_turtle(name, subjects)
            if self.wants("`matrix`"):
                self.job(f"`matrix`, {self.counts(name)}", ["matrix", name], peer=TRED if name == "plain.ttl" else None,
                         peer_name="serdi, awk and tred", stick=["matrix", name], wanted=wanted)
        node = archives.BASE + "genesis-"
        for title, name, a, b, wanted in (("at the limits, holds", "limits.ttl", 0, 2047, FOUR), ("at the limits, fails", "limits.ttl", 2047, 0, FOUR),
                                          ("2,000 contexts, holds", "site.ttl", 0, 1999, [0.08]),
                                          ("2,000 contexts, fails", "site.ttl", 1999, 0, [0.08])):
            self.job(f"`explain`, {title}", ["explain", name, f"{node}{a}", "P182", f"{node}{b}"],
                     stick=["explain", name, f"{node}{a}", f"{node}{b}"], wanted=wanted)

    def reasons(self):
        archives.write_turtle("small.ttl", archives.site(400))
        for title, name in (("400 contexts", "small.ttl"), ("2,000 contexts", "site.ttl"), ("2,000 contexts, 57,802 orders", "dense.ttl")):
            job = f"`reason`, {title}"
            if not self.wants(job):
                continue
            size = self.best([self.our(["reason", name], "text")], 1)[0].written
            fast = [("500 MB/s", lambda ours, *_, size=size: ours <= size / 5e8), ("a tenth of `cat`", lambda ours, peer, _: ours <= 10 * peer)]
            ours = self.job(job, ["reason", name], peer="cat text", peer_name="`cat` of its text", stick=["reason", name], wanted=fast)
            self.memory(job, ours, size, "text written")

    def conflicts(self):
        for title, subjects, wanted in (("one loop through 2,000 contexts", archives.in_a_loop(2000), [0.3]),
                                        ("a loop of three in a loop of 2,000", archives.in_a_loop(2000, 3), [0.3]),
                                        ("ten small ones in 2,000 contexts", archives.with_mistakes(2000, 10), [0.1])):
            archives.write_turtle("wrong.ttl", subjects)
            self.job(f"`conflicts`, {title}", ["conflicts", "wrong.ttl"], wanted=wanted)

    def dating(self):
        """What asks of all boundaries or of all pairs, beside what makes the closure, or the reasons, of the same file."""
        closure = [self.options.program, "explain", "limits.ttl", archives.BASE + "genesis-0", "P182", archives.BASE + "genesis-2047"]
        twice = [("twice `explain`", lambda ours, peer, _: ours <= 2 * peer)]
        self.job("`dates`, at the limits", ["dates", "limits.ttl"], peer=closure, peer_name="`explain`", wanted=twice)
        for title, name in (("400 contexts", "small.ttl"), ("2,000 contexts", "site.ttl")):
            reason = [self.options.program, "reason", name]
            for command in (["dates", name], ["bounds", name], ["when", name, "0100"]):
                self.job(f"`{command[0]}`, {title}", command, peer=reason, peer_name="`reason`", wanted=[("at most `reason`", lambda ours, peer, _: ours <= peer)])
        self.job("`allen`, 400 contexts", ["allen", "small.ttl"], peer=[self.options.program, "reason", "small.ttl"], peer_name="`reason`",
                 wanted=[("twice `reason`", lambda ours, peer, _: ours <= 2 * peer)])

    def certificates(self):
        certify = ["certify", "orders", "small.ttl"]
        self.job("`certify orders`, 400 contexts", certify, out="small.cert", wanted=[0.2])
        if not os.path.exists("small.cert"):
            self.best([self.our(certify, "small.cert")], 1)
        ours = self.job("`verify` of it", ["verify", "small.ttl", "small.cert"], peer=[self.options.program] + certify, peer_name="`certify`",
                        wanted=[0.3, ("at most `certify`", lambda ours, peer, _: ours <= peer)])
        self.memory("`verify`", ours, os.path.getsize("small.cert"), "certificate")

    def hostile(self):
        if not self.wants("hostile"):
            return
        node = archives.BASE + "genesis-"
        archives.fill("circle.nt", f"<a:x> <{archives.CIDOC}cidoc-crm/P176> <a:x> .\n")
        self.attacks(["check", "sheets.ttl"], ["check", "hostile"], archives.hostile_archives())
        self.attacks(["explain", "limits.ttl", f"{node}2047", "P182", f"{node}0"], ["explain", "hostile", f"{node}0", "P182", f"{node}1"], archives.hostile_orders())
        self.attacks(["verify", "small.ttl", "small.cert"], ["verify", "circle.nt", "hostile"], archives.hostile_certificates())

    def attacks(self, honest_words, words, files):
        """Times the words at each hostile file, beside the seconds a byte of the words at an honest one."""
        command, name = words[0], max(filter(os.path.exists, honest_words), key=os.path.getsize)
        honest = self.best([self.our(honest_words, "out")])[0].seconds / os.path.getsize(name)
        for title, parts in files:
            archives.fill("hostile", *parts)
            size = os.path.getsize("hostile")
            ours = self.best([self.our(words, "out", 30, self.options.memory)], 1)[0]
            with open("out", encoding="utf-8") as out:
                said = out.readline().strip()
            share = None if ours.status > 2 else ours.seconds / size
            wanted = [("3 a byte", lambda share, _: share <= 3 * honest), ("1.5 GB", lambda share, peak: share is not None and peak <= 1.5e9)]
            self.row(f"hostile: `{command}`, {title}", size_text(size), f"`{said}`" if said else "nothing", str(ours), size_text(ours.peak),
                     f"`{command}` of {name}, {honest * 1e9:.1f} ns a byte", self.ratio(share, honest), "", "", self.verdicts(wanted, [share, ours.peak]))


def read_words():
    parser = argparse.ArgumentParser(description=__doc__, formatter_class=argparse.RawDescriptionHelpFormatter)
    parser.add_argument("program", type=os.path.abspath)
    parser.add_argument("--turns", type=int, default=5, help="runs of each, of which the least counts")
    parser.add_argument("--only", help="only jobs whose name holds this")
    parser.add_argument("--processor", action="store_true", help="seconds of the processor in place of the clock's, on a busy machine")
    parser.add_argument("--memory", type=int, default=4 * 10 ** 9, help="bytes of memory that a hostile file may take; 0: no bound")
    parser.add_argument("--write", action="store_true", help="put the table into bench/README.md")
    parser.add_argument("--date", default="undated")
    parser.add_argument("--note", default="", help="a sentence on the state of the machine")
    return parser.parse_args()


def main():
    options = read_words()
    head = "| " + " | ".join(COLUMNS) + " |\n" + "|---" * len(COLUMNS) + "|"
    print(head)
    with tempfile.TemporaryDirectory(dir="/dev/shm" if os.path.isdir("/dev/shm") else None) as folder:
        os.chdir(folder)
        bench = Bench(options, folder)
        for part in (bench.reading, bench.questions, bench.reasons, bench.conflicts, bench.dating, bench.certificates, bench.hostile):
            part()
        os.chdir(HERE)
    line = f"{machine(options.date, options.note)} Seconds {'of the processor' if options.processor else 'by the clock'}, the least of {options.turns}."
    print("\n" + line)
    if options.write:
        with open("README.md", encoding="utf-8") as file:
            before, _, rest = file.read().partition(MARKS[0])
        rows = ["| " + " | ".join(cells) + " |" for cells in bench.rows]
        with open("README.md", "w", encoding="utf-8") as file:
            file.write(before + "\n".join([MARKS[0], line, "", head] + rows + [MARKS[1]]) + rest.partition(MARKS[1])[2])


if __name__ == "__main__":
    main()
