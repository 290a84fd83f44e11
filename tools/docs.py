#!/usr/bin/env python3
"""Runs what the documents show on the shipped files, and compares what comes with what they show.

usage: docs.py --check [PROGRAM [DOCUMENT..]]    exits 1 where a document shows something else
       docs.py --fill PROGRAM DOCUMENT..         writes what comes into the `output` blocks that are empty

A document is Markdown. In it, behind three backquotes, stand

    bash                     commands, run by bash with `set -euo pipefail` as from the top of the repository, with the
                             program as `crm_cli`; must end with status 0
    bash status N            must end with status N
    bash wants WORD          is passed over where there is no command WORD
    bash aside               is not run: about other programs, or too long; must not name `crm_cli` as a command
    output                   all that the commands before it print, to standard output and as errors; a line `..` stands
                             for any number of lines. Commands with no `output` behind them must print nothing
    LANGUAGE of FILE         lines of a shipped file, in their sequence; spaces at their ends don't count
    LANGUAGE to FILE         written to FILE, for the commands behind it
    turtle                   must have no fault behind the prefixes that the guide shows whole

The commands of a document share one folder, a copy of the repository without crates and tests, so a file that one
writes is there for the next. A picture that they draw must have the boxes and lines of that of the same name in docs/. Beside
that: each link to a file or heading must lead somewhere, a command of `crm_cli` may
stand in no other block, and each form of words in docs/FORMATS.md must be one for the program and stand in README.md.
"""
import difflib
import os
import re
import shutil
import subprocess
import sys
import tempfile

from forms import forms_in

ROOT = os.path.dirname(os.path.dirname(os.path.realpath(__file__)))
DOCUMENTS = ["README.md", "docs/GUIDE.md", "docs/FORMATS.md", "docs/CERTIFICATES.md"]
LINKED = [*DOCUMENTS, "docs/PROFILE.md", "docs/ARCHITECTURE.md", "docs/PROMISES.md", "docs/DECISIONS.md"]
SHIPPED = ["README.md", "docs", "examples", "tools", "bench"]
SECONDS = 60
# What stands for a word of a form when the program is asked whether it is one.
WORDS = {"FILE": "examples/trench.nt", "CERT": "examples/trench.nt", "IRI": "http://e/", "N": "3", "KIND": "classes", "CODE": "P182", "DATE": "1401",
         "REPORT": "check", "..": "examples/contradiction.ttl", "COMMAND": "orders",
         "A": "http://dig.example/trench-4/digging-of-pit", "B": "http://dig.example/trench-4/filling-of-pit"}


def read(name):
    with open(f"{ROOT}/{name}", encoding="utf-8") as file:
        return file.read()


class Block:
    """A block of a document: its line, the words behind the backquotes, its text."""

    def __init__(self, line, words, text):
        self.line, self.words, self.text = line, words, text
        self.language, self.kind = words[0] if words else "", words[1] if len(words) > 1 else ""
        self.value = " ".join(words[2:])


def blocks_of(text):
    """Returns the fenced blocks, and those of indented lines under the language `indented`."""
    blocks, lines, at = [], text.split("\n"), 0
    while at < len(lines):
        begin, fence, indented = at, re.fullmatch(r"```(.*)", lines[at]), lines[at].startswith("    ")
        at += 1
        if fence:
            while at < len(lines) and lines[at] != "```":
                at += 1
            blocks.append(Block(begin + 1, fence[1].split(), "".join(line + "\n" for line in lines[begin + 1 : at])))
            at += 1
        elif indented:
            blocks.append(Block(begin + 1, ["indented"], lines[begin][4:] + "\n"))
    return blocks


def fits(wanted, came):
    """Whether the text is what is shown, where `..` stands for any lines."""
    parts = [re.escape(part) for part in re.split(r"^\.\.\n", wanted, flags=re.M)]
    return re.fullmatch(r"(?:.*\n)*?".join(parts), came) is not None


class Room:
    """A folder like the top of the repository, with the program as `crm_cli`."""

    def __init__(self, folder, program):
        self.folder = f"{folder}/top"
        os.mkdir(self.folder)
        os.mkdir(f"{folder}/bin")
        os.symlink(program, f"{folder}/bin/crm_cli")
        for name in SHIPPED:
            copy = shutil.copytree if os.path.isdir(f"{ROOT}/{name}") else shutil.copy
            copy(f"{ROOT}/{name}", f"{self.folder}/{name}")
        self.settings = {**os.environ, "PATH": f"{folder}/bin:{os.environ['PATH']}", "LC_ALL": "C.UTF-8"}

    def run(self, commands):
        """Returns the status and all that is printed."""
        words = ["bash", "-euo", "pipefail", "-c", commands]
        done = subprocess.run(words, cwd=self.folder, env=self.settings, stdin=subprocess.DEVNULL, stdout=subprocess.PIPE,
                              stderr=subprocess.STDOUT, timeout=SECONDS)
        return done.returncode, done.stdout.decode(errors="backslashreplace")


def ran(room, block, shown):
    """Says what is wrong with commands and the output that is shown of them."""
    status, came = room.run(block.text)
    wanted = int(block.value) if block.kind == "status" else 0
    said = [f"status {status}, and {wanted} must come"] if status != wanted else []
    if not fits(shown, came):
        said += difflib.unified_diff(shown.split("\n"), came.split("\n"), "is shown", "is printed", lineterm="")
    return said


def quoted(block):
    """Says which line of a block isn't the next one of its file."""
    left = iter([line.strip() for line in read(block.value).split("\n")])
    lines = [line.strip() for line in block.text.split("\n")]
    return [f"not in {block.value}, or before the line above: {line}" for line in lines if line not in ("", "..") and line not in left][:1]


def faultless(room, block, prefixes):
    """Says what `check` finds in Turtle that stands alone."""
    given = block.text if "@prefix" in block.text else prefixes + block.text
    with open(f"{room.folder}/shown.ttl", "w", encoding="utf-8") as file:
        file.write(given)
    status, came = room.run("crm_cli check shown.ttl")
    return came.splitlines() if status else []


def judged(room, block, after, prefixes):
    """Says what is wrong with a block; after it stands the block `after`."""
    shown = after.text if after and after.language == "output" else ""
    if block.kind == "to":
        with open(f"{room.folder}/{block.value}", "w", encoding="utf-8") as file:
            file.write(block.text)
    elif block.kind == "of":
        return quoted(block)
    elif block.language == "bash" and block.kind != "aside":
        return ran(room, block, shown)
    elif block.language == "turtle":
        return faultless(room, block, prefixes)
    elif block.language != "output" and re.search(r"^(\$ )?crm_cli [a-z]+ |\| *crm_cli ", block.text, re.M):
        return ["a command of crm_cli that isn't run: write ```bash above it"]
    return []


def check_document(program, name, forms):
    """Returns how many blocks were tried, and what is said of those that are wrong."""
    blocks = [block for block in blocks_of(read(name)) if block.language != "indented" or not is_form(block, forms)]
    prefixes = next((block.text for block in blocks_of(read("docs/GUIDE.md")) if block.text.startswith("@prefix")), "")
    said, passed = [], 0
    with tempfile.TemporaryDirectory(prefix="docs-") as folder:
        room = Room(folder, program)
        for block, after in zip(blocks, [*blocks[1:], None]):
            head = f"{name}:{block.line}"
            if block.kind == "wants" and not shutil.which(block.value):
                print(f"{head}: passed over, since there is no {block.value}", flush=True)
                continue
            wrong = judged(room, block, after, prefixes)
            said += [[head, *wrong]] if wrong else []
            passed += block.language in ("bash", "turtle") and not wrong
        said += pictures(room, name)
    return passed, said


def boxes_in(picture):
    with open(picture, encoding="utf-8") as file:
        return sorted(re.findall(r"<title>.*</title>|>[^<>]+</text>", file.read()))


def pictures(room, name):
    """Says which pictures of docs/ have other boxes or lines than those that the commands drew."""
    drawn = [picture for picture in sorted(os.listdir(room.folder)) if os.path.exists(f"{ROOT}/docs/{picture}") and picture.endswith(".svg")]
    return [[name, f"docs/{picture} is another picture"] for picture in drawn if boxes_in(f"{room.folder}/{picture}") != boxes_in(f"{ROOT}/docs/{picture}")]


def is_form(block, forms):
    return any(block.text.startswith(f"crm_cli {form.name} ") and form.said in block.text for form in forms)


def anchors_of(name):
    """The headings of a document as links name them."""
    headings = re.findall(r"^#+ (.*)$", re.sub(r"^```.*?^```$", "", read(name), flags=re.M | re.S), re.M)
    return {re.sub(r"[^\w\- ]", "", heading.lower()).replace(" ", "-") for heading in headings}


def check_links(name):
    """Says which links of a document lead nowhere."""
    said, text = [], read(name)
    links = re.findall(r"\]\(([^)#\s]*)(?:#([^)\s]*))?\)", text) + re.findall(r'(?:src|href)="([^"#]*)(?:#([^"]*))?"', text)
    for target, anchor in links:
        path = os.path.normpath(os.path.join(os.path.dirname(name), target)) if target else name
        if target.startswith("http"):
            continue
        if not os.path.exists(f"{ROOT}/{path}"):
            said.append([name, f"no file {path}"])
        elif anchor and anchor not in anchors_of(path):
            said.append([name, f"no heading {anchor} in {path}"])
    return said


def check_forms(program, forms):
    """Says which form of words is none for the program, or is missing in README.md."""
    said, readme = [], read("README.md")
    for form in forms:
        for words in {form.words, form.words.replace("[--base IRI] ", "")}:
            typed = [WORDS.get(word.strip("[]"), word.strip("[]")) for word in words.split()]
            unknown = [word for word in typed if re.fullmatch(r"[A-Z]+", word)]
            if unknown:
                said.append(["tools/docs.py", f"WORDS has nothing for {unknown[0]}"])
                continue
            done = subprocess.run([program, *typed], cwd=ROOT, stdin=subprocess.DEVNULL, stdout=subprocess.DEVNULL, timeout=SECONDS)
            if done.returncode == 3:
                said.append(["docs/FORMATS.md", f"no form of words: {words}"])
        if f"`crm_cli {form.words.replace('[--base IRI] ', '')}`" not in readme:
            said.append(["README.md", f"no line for {form.words}"])
    return said


def fill(program, name):
    """Writes what the commands of a document print into the empty blocks behind them."""
    blocks, lines = blocks_of(read(name)), read(name).split("\n")
    filled = []
    with tempfile.TemporaryDirectory(prefix="docs-") as folder:
        room = Room(folder, program)
        for block, after in zip(blocks, [*blocks[1:], None]):
            if block.kind == "to":
                judged(room, block, None, "")
            elif block.language == "bash" and block.kind != "aside":
                _, came = room.run(block.text)
                if after and after.language == "output" and not after.text.strip():
                    filled.append((after, came))
    for block, came in reversed(filled):
        lines[block.line : block.line + block.text.count("\n")] = came.splitlines()
    with open(f"{ROOT}/{name}", "w", encoding="utf-8") as file:
        file.write("\n".join(lines))


def main(words):
    if not words or words[0] not in ("--check", "--fill"):
        sys.exit(__doc__)
    program = os.path.abspath(words[1] if len(words) > 1 else f"{ROOT}/crates/crm_cli/out/crm_cli")
    if not os.access(program, os.X_OK):
        sys.exit(f"{program} is no program")
    if words[0] == "--fill":
        return 0 if [fill(program, name) for name in words[2:]] else 1
    forms, tried, said = forms_in(read("docs/FORMATS.md")), 0, []
    for name in words[2:] or DOCUMENTS:
        passed, wrong = check_document(program, name, forms)
        tried, said = tried + passed, said + wrong
    for name in words[2:] or LINKED:
        said += check_links(name)
    said += check_forms(program, forms)
    for lines in said:
        print("\n    ".join(lines), flush=True)
    print(f"{tried} passed, {len(said)} failed")
    return 1 if said or not tried else 0


if __name__ == "__main__":
    sys.exit(main(sys.argv[1:]))
