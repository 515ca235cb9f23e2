#!/usr/bin/env python3
"""Gives the goals and steps that proof files cite the names that the check gives them now.

usage: tools/regoal.py CRATE..       at the top of the repository

The names are those that `rt check --generated` lists. A word of a proof file that is one of them but for dashes and
underscores becomes it; a word that is one already, or that could be two, is left.
"""

import json
import os
import re
import subprocess
import sys
import tempfile

TOKEN = re.compile(r"[^\s(){}\[\].,;:«»\"|]+")


def strings(value):
    if isinstance(value, str):
        yield value
    elif isinstance(value, list):
        for part in value:
            yield from strings(part)
    elif isinstance(value, dict):
        for key, part in value.items():
            yield key
            yield from strings(part)


def plain(name):
    return name.replace("_", "-").replace("--", "-")


def regoal(crate):
    folder = tempfile.mkdtemp()
    done = subprocess.run(["rt", "check", "--generated", folder, "--old-names"], cwd=f"crates/{crate}", capture_output=True, text=True)
    path = os.path.join(folder, "names.json")
    if not os.path.exists(path):
        print(f"{crate}: no names", done.stdout[-2000:], done.stderr[-2000:])
        return
    names = json.load(open(path, encoding="utf-8"))
    count = 0
    for key, value in names.items():
        if "-proofs." not in key:
            continue
        parts = key.split("-proofs.", 1)[1].rsplit(".Lts", 1)[0]
        where = os.path.join("crates", crate, "proofs", *parts.split("."))
        if not os.path.isdir(where):
            continue
        known = set(strings(value))
        known |= {f"invariant-{n}" for n in known} | {f"decreases-{n}" for n in known}
        by = {}
        for name in known:
            by.setdefault(plain(name), set()).add(name)

        def turn(match):
            word = match.group(0)
            if "-" not in word or word in known or word.startswith("--"):
                return word
            found = by.get(plain(word), set())
            return found.copy().pop() if len(found) == 1 else word

        for file in os.listdir(where):
            if not file.endswith(".antt"):
                continue
            name = os.path.join(where, file)
            text = open(name, encoding="utf-8").read()
            new = TOKEN.sub(turn, text)
            if new != text:
                count += 1
                open(name, "w", encoding="utf-8").write(new)
    print(f"{crate}: {count} files")


for crate in sys.argv[1:]:
    regoal(crate)
