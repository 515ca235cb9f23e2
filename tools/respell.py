#!/usr/bin/env python3
"""Turns the definitions and lemmas of this repository to snake case, and types to camel case.

usage: tools/respell.py [--dry]      at the top of the repository

A name that a crate's specs/ or proofs/ declares and that has a dash becomes one with underscores, or, where it begins with a
capital, one word in camel case. Goals of the check (`pub NAME : goal.NAME`) keep theirs, and so do the names of src/, strings and comments.
Names that would fall together with another of the repository are told, and get the ending of TOGETHER below.
"""

import os
import re
import sys

DECLARED = re.compile(r"^\s*(?:(?:unfoldable|abbrev|pub|data|record|ruleset)\s+)*([^\s:(){}.,;\"]+)\s*:(?!=)(.*)$", re.M)
RECORD = re.compile(r"^\s*(?:pub\s+)?(?:data|record|ruleset)\s+([^\s:(){}.,;\"]+)", re.M)
TOKEN = re.compile(r"[^\s(){}\[\].,;:«»\"|]+")
COMMENT = re.compile(r"\s*(--|//)")
# New names that another word of the repository has already.
TOGETHER = {"bit-and": "bit-bit_and", "bit-xor": "bit-bit_xor", "Survey-rule": "SurveyRuleOf"}
# Words that port.py left, and parameters.
LEFT = {"written-twice": "written_twice", "now-recording": "now_recording", "last-reads": "last_reads"}


def files():
    for folder, dirs, names in os.walk("crates"):
        dirs[:] = sorted(d for d in dirs if d != "out")
        for name in sorted(names):
            if name.endswith((".antt", ".rt")):
                yield os.path.join(folder, name)


def respelled(name):
    if name in TOGETHER:
        return TOGETHER[name]
    if name[0].isupper():
        first, *rest = name.split("-")
        return first + "".join(word[0].upper() + word[1:] for word in rest)
    return name.replace("-", "_")


def main():
    texts = {path: open(path, encoding="utf-8").read() for path in files()}
    names = set()
    for path, text in texts.items():
        if not path.endswith(".antt"):
            continue
        for match in DECLARED.finditer(text):
            name, kind = match.group(1), match.group(2).strip()
            if "-" in name.strip("-") and not name.startswith("--") and not re.match(r"(goal|given|need)\.", kind):
                names.add(name)
        names.update(name for name in RECORD.findall(text) if "-" in name)
    turned = {name: respelled(name) for name in names} | LEFT
    words = {}
    for path, text in texts.items():
        for word in TOKEN.findall(text):
            words.setdefault(word, set()).add(path)
    for name, new in sorted(turned.items()):
        if new in words:
            print(f"together: {name} and {new} in {sorted(words[new] & words.get(name, set()))[:4]}, of {len(words[new])}")
    back = {}
    for name, new in turned.items():
        back.setdefault(new, []).append(name)
    for new, olds in sorted(back.items()):
        if len(olds) > 1:
            print(f"together: {olds} become {new}")
    if "--dry" in sys.argv:
        print(len(turned), "names")
        return
    for path, text in texts.items():
        lines = text.split("\n")
        code = [line if COMMENT.match(line) else TOKEN.sub(lambda m: turned.get(m.group(0), m.group(0)), line) for line in lines]
        new = "\n".join(code)
        if new != text:
            with open(path, "w", encoding="utf-8") as file:
                file.write(new)
    print(len(turned), "names respelled")


main()
