#!/usr/bin/env python3
"""Brings the repository's own definitions and lemmas to today's spelling, after port.py: words in snake case.

usage: tools/respell.py LANDED     at the top, over files as port.py left them; LANDED is a commit, or a folder, in the older spelling

A definition in camel case and a lemma with dashes become words in snake case. Where a lemma would then have its definition's
name, as `bits-in` beside `bitsIn`, it gets `_lem`. Functions of src/, generated names and the library's names stay.
Says which names fall together where it cannot tell them apart. Writes files in place.
"""
import collections
import glob
import os
import re
import subprocess
import sys

TOKEN = re.compile(r"[^\s(){}\[\];,.:|\\«»\"`@]+")
# names that the library has too, or that another rule gives
KEPT = {"not-true"}
GIVEN = {"notAState": "not_a_state", "bit-or": "bit_or_lem", "flat-map": "flat_map_lem", "getElem?-past": "get_elem?-past", "getElem?-spread": "get_elem?-spread"}
# a variable that would hide the definition it speaks of
LOCAL = {("crates/making/proofs/Feeding.antt", "is_whole"): "whole_here", ("crates/walking/proofs/Walking.antt", "is_whole"): "whole_here"}


def snake(word):
    word = word.replace("getD", "get_or").replace("-", "_")
    word = re.sub(r"([a-z0-9?])([A-Z])", lambda m: m.group(1) + "_" + m.group(2).lower(), word)
    return re.sub(r"^get_d_", "get_or_", word)


def definitions(text):
    found = set()
    for line in text.split("\n"):
        m = re.match(r"^(?:(?:pub|abbrev|unfoldable|opaque)\s+)*([^\s(){}\[\];,.:|\\λ]+)\s+:(?:\s|$)", line)
        if m:
            found.add(m.group(1))
        m = re.match(r"^\s+(?:pub )?((?:[^\s(){}\[\];,.:|\\λ]+\s+)+):\s", line)
        if m:
            found.update(w for w in m.group(1).split() if w != "pub")
    return found


def main():
    landed = sys.argv[1]
    def older(path):
        if os.path.isdir(landed):
            try:
                return open(os.path.join(landed, path), encoding="utf-8").read()
            except FileNotFoundError:
                return ""
        r = subprocess.run(["git", "show", landed + ":" + path], capture_output=True, text=True)
        return r.stdout if r.returncode == 0 else ""

    files = sorted(glob.glob("crates/*/specs/**/*.antt", recursive=True) + glob.glob("crates/*/proofs/**/*.antt", recursive=True) + glob.glob("crates/*/src/**/*.rt", recursive=True))
    shared = [p for p in files if p.endswith(".antt") and not p.endswith("/Proof.antt")]
    now = {p: open(p, encoding="utf-8").read() for p in files}
    then = {p: older(p) for p in files}
    own, own_then = set(), set()
    for p in shared:
        own |= definitions(now[p])
        own_then |= definitions(then[p])
    functions = collections.defaultdict(set)
    for p in files:
        if p.endswith(".rt"):
            functions[p.split("/")[1]] |= set(re.findall(r"\bfn (\w+)", now[p]))

    plan = {}
    for n in own:
        if n in KEPT or "◌" in n or not n[0].islower() or n.upper() == n:
            continue
        new = GIVEN.get(n, snake(n))
        if new != n:
            plan[n] = new
    # older names that become one: the definition keeps the plain name, the lemma gets `_lem`
    groups = collections.defaultdict(set)
    for n in own_then:
        if n[:1].islower() and n not in KEPT:
            groups[snake(n)].add(n)
    apart = {}
    for b, names in groups.items():
        if len(names) > 1 and any("-" not in n for n in names):
            apart[b] = names
            for n in names:
                if "-" in n and n in plan:
                    plan[n] = b + "_lem"
    said = 0
    for p in files:
        text = now[p]
        tokens = set(TOKEN.findall(text))
        tokens_then = set(TOKEN.findall(then[p]))
        here = {a: b for a, b in plan.items() if a in tokens}
        here.update({n: new for (q, n), new in LOCAL.items() if q == p})
        for b, names in apart.items():
            used = [n for n in names if n in tokens_then]
            turned = [n for n in used if "-" in n and n not in tokens and b in tokens]
            if not turned or len(set(names)) < 2:
                continue
            others = [n for n in used if n not in turned and n not in tokens]
            if others:
                print(f"{p}: {turned} and {others} were both turned to {b}")
                said += 1
            elif b in functions[p.split("/")[1]] and p.endswith((".rt", "/Proof.antt")):
                print(f"{p}: {b} is a function's name too: lemma {turned} left")
                said += 1
            else:
                here[b] = b + "_lem"
        if not here:
            continue
        for b in set(here.values()):
            if b in tokens and b not in here:
                print(f"{p}: {b} stands there already ({[a for a in here if here[a] == b]})")
                said += 1
        out = TOKEN.sub(lambda m: here.get(m.group(0), m.group(0)), text)
        if out != text:
            with open(p, "w", encoding="utf-8") as f:
                f.write(out)
    print(f"{len(plan)} names respelled, {said} places to look at")


if __name__ == "__main__":
    main()
