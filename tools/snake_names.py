#!/usr/bin/env python3
"""Brings the repository's own definitions, fields, constructors and lemmas to today's spelling: words in snake case,
types and facts in camel case. It was run once, right after the toolchain's port.py, at the top of the checkout.

A name is the repository's own where a file of specs/ or proofs/ declares it; the goals that an answer file answers keep
the names that the prover gives them. Only whole words turn, in the .antt files and in the ghost text of the .rt files.
Names that would fall together are printed, and nothing is written then.
"""

import os
import re
import sys

WORD = r"[A-Za-z][A-Za-z0-9_']*(?:-[A-Za-z0-9_']+)+"
DECLARED = re.compile(r"^ *(?:(?:pub|abbrev|unfoldable|record|data) +)*(" + WORD + r")(?: +\(.*\)| +\{.*\})* *:(?! *goal\.)")
# names bound within a proof: by a let, or with their type
LOCAL = re.compile(r"\blet (" + WORD + r")|[({]((?:[A-Za-z][A-Za-z0-9_'-]* )*[A-Za-z][A-Za-z0-9_'-]*) : ")
# bound by a pattern alone
PATTERNS = {"free-now", "later-are"}
# a lemma that begins with a fact of one letter
LEMMAS = {"T-left": "t_left", "T-right": "t_right"}
GOAL = re.compile(r"^ *(?:abbrev +)?(?:pub +)?(" + WORD + r") *: *goal\.")
TOKEN = re.compile(r"[A-Za-z_][A-Za-z0-9_'-]*")
PLAIN = re.compile(r"[A-Za-z_][A-Za-z0-9_']*")


def files(top):
    for folder, below, names in os.walk(os.path.join(top, "crates")):
        below[:] = sorted(d for d in below if d not in ("out", "data"))
        for name in sorted(names):
            if name.endswith((".antt", ".rt")):
                yield os.path.join(folder, name)


def today(name):
    """The name in today's spelling."""
    if name in LEMMAS:
        return LEMMAS[name]
    if name[0].isupper():
        return "".join(word[:1].upper() + word[1:] for word in name.split("-"))
    return name.replace("-", "_")


def main():
    top = sys.argv[1] if len(sys.argv) > 1 else "."
    texts = {path: open(path, encoding="utf-8").read() for path in files(top)}
    own, goals, plain = set(), set(), {}
    for path, text in texts.items():
        crate = path.split(os.sep + "crates" + os.sep)[-1].split(os.sep)[0]
        if not path.endswith(".antt"):
            continue
        for line in text.split("\n"):
            said = GOAL.match(line)
            if said:
                goals.add(said.group(1))
                continue
            said = DECLARED.match(line)
            if said:
                own.add(said.group(1))
            for said in LOCAL.finditer(line):
                own.update(word for word in (said.group(1) or said.group(2)).split() if "-" in word)
            for word in re.findall(r"^ *(?:(?:pub|abbrev|unfoldable|record|data) +)+(" + PLAIN.pattern + r")(?: |$)(?!.*goal\.)", line):
                plain.setdefault(word, set()).add(crate)
    table = {name: today(name) for name in own | PATTERNS}
    bad = False
    seen = {}
    for name, new in sorted(table.items()):
        if new in seen:
            print(f"fall together: {seen[new]} and {name}")
            bad = True
        seen[new] = name
        if new in plain:
            print(f"stands already: {new}, in {sorted(plain[new])}, beside {name}")
    if "--list" in sys.argv:
        for name in sorted(table):
            print(name, table[name])
        print("goals that share a name:", sorted(goals & own))
        return
    if bad:
        sys.exit(1)
    for path, text in texts.items():
        words = set(TOKEN.findall(text))
        for name in sorted(words & set(table)):
            if table[name] in words:
                print(f"look: {path} has {name} and {table[name]}")
    changed = 0
    for path, text in texts.items():
        new = TOKEN.sub(lambda m: table.get(m.group(), m.group()), text)
        if new != text:
            with open(path, "w", encoding="utf-8") as f:
                f.write(new)
            changed += 1
    print(f"{len(table)} names, {changed} files")


main()
