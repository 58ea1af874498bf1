#!/usr/bin/env python3
"""Turns the names of this repository's own definitions to the spelling of the installed Rattle.

usage: tools/respell.py [--list]      at the top of the repository, once, on what port.py has left

A definition, lemma, field or constructor that specs/ or proofs/ declares with a dash gets '_' in its place, and a fact
or a type, which begins with a capital, is written in camel case. So are the variables of specs/ and of the lemma files,
and what an answer binds by 'let'. A clause's label is spelled in an answer as it is in src/. Names that Rattle makes
(goals, steps, loops) and names of its library stay. With --list the names are printed and nothing is written.
"""

import os
import re
import sys

WORD = r"[^\W\d][\w']*(?:-[\w'+*<>≡]+)+"
SIGNATURE = re.compile(r"^\s*(?:abbrev |unfoldable )?(?:pub )?(?:record |data )?(?P<name>" + WORD + r")(?: \(.*| \{.*)? :")
RECORD = re.compile(r"^pub (?:record|data) (?P<name>" + WORD + r") ")
IMPORT = re.compile(r"^(?:ghost )?use (?P<path>\S+?)\.\{(?P<names>.*)\};?$")
LABEL = re.compile(r"\b(?:requires|ensures) (\w+) \{")
LET = re.compile(r"\blet (?P<name>" + WORD + r") [=:]")
ALIAS = re.compile(r" as (?P<name>" + WORD + r")[,}]")
OWN = re.compile(r"^Rattle\.(?:scale|plan|cases|trials|random_calls|report|tune)\.")
# What port.py left: a name that it turned everywhere but where a label has it too.
LEFT = {"is-open": "is_open", "Swept-once": "swept_once"}


def sources(root, ends):
    for folder, dirs, files in os.walk(os.path.join(root, "crates")):
        dirs[:] = sorted(d for d in dirs if d != "out")
        for f in sorted(files):
            if f.endswith(ends):
                yield os.path.join(folder, f)


def is_answer(path):
    return "/proofs/" in path and os.path.basename(path) in ("Answers.antt", "Invariants.antt", "Proof.antt")


def text(path):
    with open(path, encoding="utf-8") as f:
        return f.read()


def library(root):
    """The names that a file brings in from elsewhere."""
    names = set()
    for path in sources(root, (".antt", ".rt")):
        for line in text(path).splitlines():
            m = IMPORT.match(line)
            if m and not OWN.match(m["path"]):
                names |= {n.strip().split(" as ")[0] for n in m["names"].split(",")}
    return names


def declared(root):
    names, labels, local = set(), set(), set()
    for path in sources(root, (".antt", ".rt")):
        t = text(path)
        if path.endswith(".rt"):
            labels |= set(LABEL.findall(t))
            names |= {m["name"] for m in ALIAS.finditer(t)}
        elif is_answer(path):
            local |= {m["name"] for m in LET.finditer(t)}
        else:
            code = "\n".join(line.split("--")[0] for line in t.splitlines())
            names |= set(re.findall(r"(?<![\w'.-])(" + WORD + r")", code))
            for line in t.splitlines():
                m = SIGNATURE.match(line) or RECORD.match(line)
                if m:
                    names.add(m["name"])
    return names, labels, local - names


def turned(name):
    parts = name.split("-")
    if name[0].isupper():
        return "".join(p[0].upper() + p[1:] for p in parts)
    return "_".join(parts)


def replaced(t, names, before=r"(?<![\w'-])"):
    whole = re.compile(before + r"(" + "|".join(map(re.escape, sorted(names, key=len, reverse=True))) + r")(?![\w'-])")
    return whole.sub(lambda m: names[m[1]], t)


def main():
    root = os.getcwd()
    own, labels, local = declared(root)
    names = {n: turned(n) for n in own - library(root)} | LEFT
    marks = {n.replace("_", "-"): n for n in labels if "_" in n}
    bound = {n: turned(n) for n in local - library(root)}
    if "--list" in sys.argv:
        for n in sorted(names | bound):
            print(n, (names | bound)[n])
        return
    for path in sources(root, (".antt", ".rt")):
        before = text(path)
        after = replaced(before, marks | names if is_answer(path) else names)
        if is_answer(path):
            after = replaced(after, bound, r"(?<![\w'.-])")
        if after != before:
            with open(path, "w", encoding="utf-8") as f:
                f.write(after)


main()
