#!/usr/bin/env python3
"""Brings the repository's own definitions and lemmas to one spelling: words in snake case, types in camel case.

usage: python3 tools/respell.py [--list]     at the top, after the toolchain's own script; where nothing is left to turn it changes nothing

A name is ours if a file of specs/ or proofs/ declares it, and it is no goal that the check named. With --list it only prints old and new names.
It stops where two names would fall together in one file."""

import os
import re
import sys

TOKEN = re.compile(r"[A-Za-z_][\w']*(?:-[\w']+)+")
DECLARED = re.compile(r"^(\s*)(?:abbrev\s+|unfoldable\s+)?(?:pub\s+)?(?:abbrev\s+|unfoldable\s+)?(?:(record|data)\s+)?([A-Za-z_][\w'-]*)\s*(?=[:({]|$|\()(.*)$")
# names that an import or a bound variable gives
OURS_TOO = re.compile(r" as ([\w']+(?:-[\w']+)+)(?=[,;}\s]|$)|\(([\w']+(?:-[\w']+)+) :")
GOAL = re.compile(r"^\s*:\s*(goal|need|needs)\.")

# laws of a function at another one: a dash joins their names
KEPT = {"bit-and", "bit-or", "bit-xor", "bit-shr", "bit-pow"}
# names that would fall together with a function, a module or a variant
OTHER = {
    "list-graph": "graph_of_list",
    "table-graph": "graph_of_table",
    "Too-large": "IsTooLarge",
    "No-query": "IsNoQuery",
    "wire-line": "wire_text",
    "refused-line": "refused_text",
    "count-line": "count_text",
    "put-mid": "put_inside",
}

# what the first run left: names of a line with several, names that a proof binds, and two that the toolchain's script turned into two styles
AGAIN = {
    "at-atom": "at_atom",
    "at-fresh": "at_fresh",
    "at-shared": "at_shared",
    "is-gone": "is_gone",
    "is-new": "is_new",
    "is-to": "is_to",
    "at_Bracket": "at_bracket",
    "Goes_on": "GoesOn",
}
LEFT = re.compile(r"(?<![\w'.-])(?:" + "|".join(AGAIN) + r")(?![\w'-])")


def files(endings):
    for folder, dirs, names in os.walk("crates"):
        dirs[:] = sorted(d for d in dirs if d != "out")
        for name in sorted(names):
            if name.endswith(endings):
                yield os.path.join(folder, name)


def uncommented(line):
    return re.sub(r"--.*", "", line)


def declared():
    """Names that files of specs/ and proofs/ declare, and names of goals that they answer."""
    ours, goals = {}, set()
    for path in files((".antt",)):
        for line in open(path, encoding="utf-8"):
            text = uncommented(line).rstrip("\n")
            for m in OURS_TOO.finditer(text):
                ours.setdefault(m[1] or m[2], set()).add(path)
            if not text.strip() or text.startswith("use ") or text.startswith("pub mod") or text.startswith("mod "):
                continue
            m = DECLARED.match(text)
            if not m or "-" not in m[3]:
                continue
            if not m[2] and not re.match(r"^\s*:", m[4]):
                continue
            if GOAL.match(m[4]):
                goals.add(m[3])
            else:
                ours.setdefault(m[3], set()).add(path)
    return ours, goals


def respelled(name):
    if name in OTHER:
        return OTHER[name]
    parts = name.split("-")
    if name[0].isupper():
        return "".join(p[:1].upper() + p[1:] for p in parts)
    return "_".join(parts)


def main():
    ours, goals = declared()
    both = sorted(set(ours) & goals)
    new = {n: respelled(n) for n in ours if n not in goals and n not in KEPT}
    if "--list" in sys.argv:
        for n in sorted(new):
            print(n, new[n], len(ours[n]), sorted(ours[n])[0])
        print("also goals, left:", both)
        return 0
    back = {}
    for n, w in new.items():
        back.setdefault(w, []).append(n)
    bad = [f"{w}: {ns}" for w, ns in back.items() if len(ns) > 1]
    changes = {}
    for path in files((".antt", ".rt")):
        text = open(path, encoding="utf-8").read()
        found = {m[0] for m in TOKEN.finditer(text)} & set(new)
        words = set(re.findall(r"[A-Za-z_][\w']*", text)) if found else set()
        bad += [f"{path}: {n} would fall together with {new[n]}" for n in found if new[n] in words]
        if found:
            changes[path] = TOKEN.sub(lambda m: new.get(m[0], m[0]), text)
    if bad:
        print("\n".join(bad))
        return 1
    for path in files((".antt", ".rt")):
        text = changes.get(path) or open(path, encoding="utf-8").read()
        if LEFT.search(text):
            changes[path] = LEFT.sub(lambda m: AGAIN[m[0]], text)
    for path, text in changes.items():
        with open(path, "w", encoding="utf-8") as f:
            f.write(text)
    print(f"{len(new)} names in {len(changes)} files")
    return 0


if __name__ == "__main__":
    raise SystemExit(main())
