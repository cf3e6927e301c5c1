#!/usr/bin/env python3
"""Brings the repository's own definitions and lemmas to today's spelling, once, after port.py and before its commit.

usage: python3 tools/respell.py [--dry]      at the top of the repository

Words are in snake case: countBelow is count_below, since-first is since_first. Types and modules keep their capitals. Where a lemma
would have a definition's name it has _lem after it. What the check itself names (a goal, a step of a proof), functions of src/, exported names and
strings keep their spelling. Names are those of specs/ and proofs/; of a proof of a function (proofs/F/Proof.antt) its helper lemmas alone.
Pages are turned too, between backticks: there the names are those of the last commit.
"""

import collections
import glob
import os
import re
import subprocess
import sys

TOKEN = r"[^\s(){}\[\];,.@\"`|]+"
SIGNATURE = re.compile(r"^(\s*)((?:abbrev |unfoldable |pub |pattern )*)(" + TOKEN + r"(?: " + TOKEN + r")*) :(?:\s|$)")
OTHER = re.compile(r"^(\s*)(?:abbrev |pub )*(data|record|ruleset) (" + TOKEN + r")")
# lemmas that port.py gave what is a definition's name now, by the file that declares them
TAKEN = {
    "rule/proofs/MonitorLaws": ["first_below"],
    "rule/proofs/NodeLaws": ["node_at"],
    "spec/proofs/SoundLaws": ["same_test"],
    "spec/proofs/NodeWordLaws": ["word_over", "fields_fit"],
    "spec/proofs/RuleLaws": ["fields_fit"],
    "spec/proofs/SumLaws": ["block_size"],
    "moves/proofs/LineMoveLaws": ["line_read"],
}


def snake(name):
    out = []
    for part in name.split("-"):
        part = re.sub(r"(?<=[a-z0-9'])([A-Z])", lambda m: "_" + m.group(1).lower(), part)
        out.append(part if len(part) > 1 else part.lower())
    return "_".join(out)


def wants(name):
    return "-" in name or re.match(r"[a-z]\S*[A-Z]", name)


def declared(text, is_function):
    """The names that a text declares, and whether each is a definition (of specs/) or a field."""
    found = []
    answers = set()
    if is_function:
        close = re.search(r"tie\.(?:spec|close)(.*)\Z", text, re.S)
        answers = set(re.findall(TOKEN, close.group(1))) if close else set()
    for line in text.split("\n"):
        m = SIGNATURE.match(line)
        if m and "=" not in m.group(3).split() and m.group(3).split()[0] not in ("let", "in"):
            names = m.group(3).split()
        else:
            m = OTHER.match(line)
            if not m:
                continue
            names = [m.group(3)]
        for n in names:
            if n not in answers and not (is_function and n.endswith(("-spec", "_spec"))) and not n.startswith("◌"):
                found.append((n, len(m.group(1))))
    return found


def collect(files):
    """files: path -> text. Old names that want a new spelling, with new ones."""
    places = collections.defaultdict(list)
    for path, text in files.items():
        for n, indent in declared(text, path.endswith("Proof.antt")):
            places[n].append((path, indent))
    by_new = collections.defaultdict(set)
    for n in places:
        by_new[snake(n) if wants(n) else n].add(n)
    names = {}
    for new, olds in by_new.items():
        for old in olds:
            if not wants(old):
                continue
            others = olds - {old}
            names[old] = new + "_lem" if others and "-" in old else new
    names |= {n: n.replace("-", "_") + "_lem" for n in ("bit-or", "bit-and", "bit-xor")}  # std has bit_or
    local = re.compile(r"(?<![\w'.-])[a-z][a-z0-9]+(?:[A-Z][a-z0-9]*)+(?![\w'-])")
    for text in files.values():
        for n in local.findall(re.sub(r"--.*", "", text)):
            names.setdefault(n, snake(n))
    return names


def replace(text, names, taken=(), steps=None):
    """steps: in a proof of a function, the words of its source; after a dot these are steps of the check's, and stay."""

    def one(m):
        name = m.group(2)
        before = m.group(1)
        if name in taken and before != ".":
            return before + name + "_lem"
        new = names.get(name)
        if new is None:
            return m.group(0)
        in_module = re.search(r"(?:^|[^\w'.-])(?:[\w]+\.)*[A-Z]\w*$", text[: m.start()])
        if "-" in name and before == "." and not in_module and steps is not None and snake(name) in steps:
            return m.group(0)
        return before + new

    return re.sub(r"(^|[^\S]|[(){}\[\];,.@\"`|])(" + TOKEN + ")", one, text)


def words_of(path):
    """The words of the source of the crate that a proof belongs to."""
    crate = path.split("/")[1]
    found = set()
    for p in glob.glob(f"crates/{crate}/src/*.rt"):
        with open(p, encoding="utf-8") as f:
            found |= set(re.findall(r"\w+", f.read()))
    return found


def main(argv):
    dry = "--dry" in argv
    top = subprocess.run(["git", "rev-parse", "--show-toplevel"], capture_output=True, text=True, check=True).stdout.strip()
    os.chdir(top)
    antt = sorted(glob.glob("crates/*/specs/**/*.antt", recursive=True) + glob.glob("crates/*/proofs/**/*.antt", recursive=True))
    files = {p: open(p, encoding="utf-8").read() for p in antt}
    names = collect(files)
    said = []
    written = 0

    def put(path, text, new):
        nonlocal written
        if text != new:
            written += 1
            if not dry:
                with open(path, "w", encoding="utf-8") as f:
                    f.write(new)

    for p, text in files.items():
        taken = set()
        for where, lemmas in TAKEN.items():
            if p == f"crates/{where}.antt":
                taken |= set(lemmas)
            crate, module = where.split("/proofs/")
            for m in re.finditer(r"use Rattle\." + crate + r"\.proofs\." + module + r"\.\{([^}]*)\}", text):
                taken |= {x.strip() for x in m.group(1).split(",")} & set(lemmas)
        new = replace(text, names, taken, words_of(p) if p.endswith("Proof.antt") else None)
        seen = {t: None for t in re.findall(r"(?<![\w.'-])" + TOKEN, text)}
        for t in seen:
            n = names.get(t)
            if n in seen:
                said.append(f"{p}: {t} and {n} fall together")
        put(p, text, new)
    for p in sorted(glob.glob("crates/*/src/*.rt")):
        text = open(p, encoding="utf-8").read()
        put(p, text, replace(text, {o: n for o, n in names.items() if "-" not in o}))
    for p in sorted(glob.glob("crates/*/must-fail/*.edit")):
        text = open(p, encoding="utf-8").read()
        put(p, text, replace(text, names))

    # pages: names as the last commit has them
    listed = subprocess.run(["git", "ls-tree", "-r", "--name-only", "HEAD", "crates"], capture_output=True, text=True, check=True).stdout.split("\n")
    before = {p: subprocess.run(["git", "show", "HEAD:" + p], capture_output=True, text=True, check=True).stdout for p in listed if p.endswith(".antt")}
    older = collect(before)
    lemmas = {n for some in TAKEN.values() for n in some}
    for o in older:
        older[o] = names.get(o, snake(o) + ("_lem" if "-" in o and snake(o) in lemmas else ""))
    for p in sorted(["README.md"] + glob.glob("docs/**/*.md", recursive=True) + glob.glob("crates/*/README.md") + glob.glob("reference/**/*.md", recursive=True)):
        if not os.path.exists(p):
            continue
        text = open(p, encoding="utf-8").read()
        put(p, text, re.sub(r"`[^`\n]+`", lambda m: replace(m.group(0), older), text))
    print("\n".join(said))
    print(f"{len(names)} names, {written} files")
    return 0


if __name__ == "__main__":
    sys.exit(main(sys.argv[1:]))
