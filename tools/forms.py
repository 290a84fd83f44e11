#!/usr/bin/env python3
"""Writes the man page and the completions for bash from the forms of words in docs/FORMATS.md.

    tools/forms.py                      writes docs/crm_cli.1 and docs/crm_cli.bash
    tools/forms.py --check [PROGRAM]    exits 1 where a committed file differs, or where what the program says of itself does

A form is a line of the first block of docs/FORMATS.md: the command, its words, and behind two spaces what it prints. When
a command ends with another status than 0, and what each says, stands in the table `How a run ends`. The program's `help`
must have the same forms and statuses, and its `version` the kit that README.md and `rt version` name.
"""
import re
import shutil
import subprocess
import sys
from collections import namedtuple
from pathlib import Path

ROOT = Path(__file__).resolve().parent.parent
DOCS = ROOT / "docs"
# Where what a form prints stands in a line of `help`.
COLUMN = 23
Form = namedtuple("Form", "name words said")


def forms_in(text):
    lines = re.findall(r"^    crm_cli (\S+) +(?:(\S.*?)  +)?(\S.*)$", text.partition("\n## Input")[0], re.M)
    return [Form(name, f"{name} {words}".strip(), said) for name, words, said in lines]


def statuses_in(text):
    """The rows of the table of statuses: status, name, when; and when status 1 comes, by command."""
    table = text.partition("## How a run ends")[2].partition("\n\nA refusal")[0]
    rows = [(status, name, when) for status, name, _, when in re.findall(r"^\| (\d) \| *(.*?) *\| (.*?) \| (.*) \|$", table, re.M)]
    findings = {}
    for part in next(when for status, _, when in rows if status == "1").split("; "):
        names, _, when = part.partition(": ")
        for name in re.findall(r"`(.*?)`", names):
            findings[name] = when
    return rows, findings


def plain(text):
    """Words of a document as roff: code in bold, nothing that begins a request."""
    text = text.replace("\\", "\\e").replace("-", "\\-")
    return re.sub(r"`(.*?)`", r"\\fB\1\\fR", text)


def placed(words):
    """The words of a form: those that are typed as they are in bold, the others as placeholders."""
    return " ".join(re.sub(r"([A-Z]+)", r"\\fI\1\\fR", plain(word)) if re.search("[A-Z]", word) else f"\\fB{plain(word)}\\fR" for word in words.split())


def man_page(forms, rows, findings):
    yield '.TH CRM_CLI 1 "" "" "What an excavation archive says about time"'
    yield ".SH NAME\ncrm_cli \\- says what an RDF archive of an excavation says about time"
    yield ".SH SYNOPSIS"
    yield "\n.br\n".join(f"\\fBcrm_cli\\fR {placed(form.words)}" for form in forms)
    yield ".SH DESCRIPTION\nReads files of RDF that describe events and periods in CIDOC CRM."
    yield "A name that ends with \\fB.nt\\fR is N\\-Triples, every other file is Turtle; \\fB\\-\\fR is standard input."
    yield "Everything is printed to standard output, refusals too, and the status tells which it is."
    yield ".SH COMMANDS"
    for form in forms:
        yield f".TP\n{placed(form.words)}\nPrints {plain(form.said)}."
        told = dict.fromkeys(when for name, when in findings.items() if name.split()[0] == form.name)
        if told:
            yield f"Status 1: {plain('; '.join(told))}."
    yield ".SH EXIT STATUS"
    for status, name, when in rows:
        yield f".TP\n\\fB{status}\\fR {name}\n" + ("see each command" if status == "1" else plain(when)) + "."
    yield ".SH FILES\nThe texts, refusals and limits stand in docs/FORMATS.md, what to do about each in docs/GUIDE.md."


def completions(forms):
    names = " ".join(dict.fromkeys(form.name for form in forms))
    yield "# Completions for bash: source this file, or lay it into ~/.local/share/bash-completion/completions/crm_cli."
    yield "_crm_cli() {"
    yield "    local word=${COMP_WORDS[COMP_CWORD]} first=${COMP_WORDS[1]-} last=${COMP_WORDS[COMP_CWORD-1]}"
    yield "    COMPREPLY=()"
    yield f"    if [ \"$COMP_CWORD\" -eq 1 ]; then COMPREPLY=($(compgen -W '{names}' -- \"$word\")); return; fi"
    codes = "P173 P174 P175 P176 P182 P183 P184 P185"
    for name, kinds in {"certify": "orders classes matrix", "join": "check orders reason convert", "help": names}.items():
        yield f"    if [ \"$first $last\" = '{name} {name}' ]; then COMPREPLY=($(compgen -W '{kinds}' -- \"$word\")); return; fi"
    yield f"    if [ \"$first\" = explain ] && [[ $word == P* ]]; then COMPREPLY=($(compgen -W '{codes}' -- \"$word\")); return; fi"
    based = " ".join(dict.fromkeys(form.name for form in forms if "--base" in form.words))
    yield f"    if [[ $word == -* && ' {based} ' == *\" $first \"* ]]; then COMPREPLY=(--base); return; fi"
    yield "    [ \"$last\" = --base ] || COMPREPLY=($(compgen -f -- \"$word\"))"
    yield "}"
    yield "complete -o filenames -F _crm_cli crm_cli"


def told(program, *words):
    return subprocess.run([program, *words], stdin=subprocess.DEVNULL, capture_output=True, text=True, timeout=60).stdout


def said_otherwise(program, forms, findings):
    """Says where the program's `help` and `version` differ from the documents."""
    parts = told(program, "help").split("\n\n")
    listed = "\n".join(f"{form.words.replace('[--base IRI] ', ''):{COLUMN}}{form.said}" for form in forms)
    if len(parts) < 2 or parts[1] != listed:
        yield "`help` has other forms than docs/FORMATS.md"
    for name in dict.fromkeys(form.name for form in forms):
        page = told(program, "help", name)
        if page.partition("\n\n")[0] != "\n".join(f"crm_cli {form.words}" for form in forms if form.name == name):
            yield f"`help {name}` has other forms than docs/FORMATS.md"
        whens = {when for command, when in findings.items() if command.split()[0] == name}
        lines = re.findall(r"^Status 1: (.*)\.$", page, re.M)
        if len(whens) != len(lines) or not all(line.endswith(when) for line, when in zip(lines, whens)):
            yield f"`help {name}` says of status 1 something else than docs/FORMATS.md"
    kit = told(program, "version").partition("\nproved with ")[2].strip()
    if f"Proved with `{kit}`" not in (ROOT / "README.md").read_text(encoding="utf-8"):
        yield f"README.md names another kit than `version`, {kit}"
    if shutil.which("rt") and told("rt", "version").strip() != kit:
        yield f"`rt version` names another kit than `version`, {kit}"


def main(words):
    formats = (DOCS / "FORMATS.md").read_text(encoding="utf-8")
    forms, (rows, findings) = forms_in(formats), statuses_in(formats)
    texts = {"crm_cli.1": man_page(forms, rows, findings), "crm_cli.bash": completions(forms)}
    differ = 0
    for name, lines in texts.items():
        text, file = "\n".join(lines) + "\n", DOCS / name
        if words[:1] != ["--check"]:
            file.write_text(text, encoding="utf-8")
        elif not file.exists() or file.read_text(encoding="utf-8") != text:
            print(f"docs/{name} is not what tools/forms.py writes")
            differ = 1
    for line in said_otherwise(words[1], forms, findings) if len(words) > 1 else ():
        print(line)
        differ = 1
    return differ


if __name__ == "__main__":
    sys.exit(main(sys.argv[1:]))
