#!/usr/bin/env python3
"""Has examples/check_certificate.py judge each certificate of the cases and of the examples, and broken ones, beside the program.

usage: second_checker.py PROGRAM

The two share no code, so where they say the same, docs/CERTIFICATES.md was enough to write the second from. The broken
certificates are those of the examples with a byte left out, doubled or changed, at places that a fixed seed draws.
"""
import concurrent.futures
import os
import random
import shutil
import subprocess
import sys
import tempfile

from cases import ROOT, read, steps_of

CHECKER = f"{ROOT}/examples/check_certificate.py"
KINDS = ["orders", "classes", "matrix"]
BROKEN = 60


def printed(words, folder, given=b""):
    done = subprocess.run(words, input=given, stdout=subprocess.PIPE, cwd=folder, timeout=300)
    return done.returncode, done.stdout


def listed(program, options, name, folder, room):
    """Writes what is listed of a file, and gives the names of these texts."""
    texts = []
    for command in ("orders", "check", "convert"):
        texts.append(f"{room}/{len(os.listdir(room))}.{command}")
        with open(texts[-1], "wb") as out:
            out.write(printed([program, command, *options, name], folder)[1])
    return [*texts, f"{ROOT}/docs/PROFILE.md"]


def case_questions(name, room):
    """Gives the folder, the words behind `verify` and the input of each question that a case asks."""
    folder = f"{room}/{name}"
    shutil.copytree(f"{ROOT}/tests/{name}", folder)
    os.symlink(f"{ROOT}/examples", f"{folder}/examples")
    if os.path.exists(f"{folder}/make.py"):
        subprocess.run([sys.executable, "make.py"], cwd=folder, check=True, timeout=300)
    for step in steps_of(read(f"{folder}/commands")):
        words = step.words
        if words[:1] == ["verify"] and "-" not in words and step.status in (0, 1, 2) and step.printed is None:
            if all(os.path.isfile(f"{folder}/{word}") for word in words[-2:]):
                yield folder, words[1:]


def broken(text, draw):
    """A certificate with a byte left out, doubled or changed to one that stands elsewhere in it."""
    at, other = draw.randrange(len(text)), draw.randrange(len(text))
    middle = draw.choice([b"", text[at : at + 1] * 2, text[other : other + 1]])
    return text[:at] + middle + text[at + 1 :]


def example_questions(program, room):
    draw = random.Random(7)
    for name in sorted(os.listdir(f"{ROOT}/examples")):
        if not name.endswith((".ttl", ".nt")):
            continue
        for kind in KINDS:
            text = printed([program, "certify", kind, f"{ROOT}/examples/{name}"], room)[1]
            texts = [text] if len(text) > 400_000 else [text] + [broken(text, draw) for _ in range(BROKEN)]
            for count, text in enumerate(texts):
                certificate = f"{room}/{name}.{kind}.{count}"
                with open(certificate, "wb") as out:
                    out.write(text)
                yield room, [f"{ROOT}/examples/{name}", certificate]


def differ(program, question, room):
    folder, words = question
    options, (name, certificate) = words[:-2], words[-2:]
    said = printed([program, "verify", *words], folder)
    if not said[1].startswith((b"verified", b"refused certificate")):
        return None
    with tempfile.TemporaryDirectory(dir=room) as own:
        texts = listed(program, options, name, folder, own)
        checked = printed([sys.executable, CHECKER, certificate, *texts], folder)
    if said == checked:
        return None
    return f"{folder.rsplit('/', 1)[-1]}: verify {' '.join(words)}: {said[1].decode()!r}, and the second checker says {checked[1].decode()!r}"


def main(program):
    program = os.path.abspath(program)
    with tempfile.TemporaryDirectory(prefix="certificates-") as room, concurrent.futures.ThreadPoolExecutor(os.cpu_count()) as pool:
        questions = [question for name in sorted(os.listdir(f"{ROOT}/tests")) for question in case_questions(name, room)]
        os.mkdir(f"{room}/examples")
        questions += example_questions(program, f"{room}/examples")
        found = list(pool.map(lambda question: differ(program, question, room), questions))
    for line in filter(None, found):
        print(line, flush=True)
    failed = sum(line is not None for line in found)
    print(f"second checker: {len(found)} certificates, {failed} judged otherwise")
    return 1 if failed or not found else 0


if __name__ == "__main__":
    sys.exit(main(sys.argv[1]))
