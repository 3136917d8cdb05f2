#!/usr/bin/env python3
"""Respells this repository's own ghost names: types in upper camel case, everything else in snake case.

usage: python3 tools/respell.py [--list]      at the top of the repository, once, after port.py

Names that specs/ and proofs/ declare are respelled in every .antt and .rt file. Goals and what else the prover names keep
their dashes, and so do names of the library. With --list it only prints old and new.
"""

import collections
import glob
import re
import sys

TOKEN = re.compile(r"[^\s(){}\[\],;.:@\"«»|]+")
DECLARED = re.compile(r"^\s*(?:abbrev |unfoldable )?(?:pub )?(?:abbrev |unfoldable )?((?:[^\s:(){}]+ )+): (.*)$")
HEADED = re.compile(r"^\s*(?:pub )?(?:record|data) ([^\s:(){}]+)")
USED = re.compile(r"^\s*(?:pub )?(?:ghost )?use (?:Rattle\.std|borrow|denote|mathlib|native)\S*\.\{([^}]*)\}")

# A lemma that would have its function's name gets _lem; names with a word of the old library get today's word.
CHOSEN = {
    "edge-added": "edge_added_lem",
    "edge-part": "edge_part_lem",
    "edge-rows": "edge_rows_lem",
    "node-added": "node_added_lem",
    "show-all": "show_all_lem",
    "in_order": "in_order_lem",
    "stands_at": "stands_at_lem",
    "getD-among": "get_or_among",
    "among-getD": "among_get_or",
    "inARow": "in_a_row",
}

# names that only a `use .. as`, a parameter or a path from the context has, or that such a path has too
ALSO = {"directToCome": "direct_to_come", "isU": "is_u", "appended-room": "appended_room", "found-room": "found_room"}


def files():
    return sorted(glob.glob("crates/*/specs/**/*.antt", recursive=True) + glob.glob("crates/*/proofs/**/*.antt", recursive=True))


def code(line):
    return "" if line.lstrip().startswith("--") or line.lstrip().startswith("//") else line


def respelled(name):
    if name in CHOSEN:
        return CHOSEN[name]
    if name[0].isupper():
        return "".join(part[0].upper() + part[1:] for part in name.split("-"))
    return re.sub(r"(?<=[a-z0-9])([A-Z])", lambda m: "_" + m.group(1).lower(), name.replace("-", "_")).lower()


def names():
    own, kept, where = set(), set(), collections.defaultdict(set)
    for path in files():
        with open(path, encoding="utf-8") as f:
            for line in f:
                line = code(line)
                u = USED.match(line)
                if u:
                    kept.update(x.split(" as ")[0].strip() for x in u.group(1).split(","))
                    continue
                kept.update(re.findall(r"\bgoal\.([^\s(){},;.]+)", line))
                # what the prover names: a path from the context or from a branch
                kept.update(x for path in re.findall(r"(?<![\w.])[cwl]((?:\.[^\s(){}\[\],;.]+)+)", line) for x in path.split(".") if "-" in x)
                d = DECLARED.match(line) or HEADED.match(line)
                if d:
                    for name in d.group(1).split():
                        if d.lastindex < 2 or not d.group(2).startswith("goal."):
                            own.add(name)
                            where[name].add(path)
    turned = {n: respelled(n) for n in own - kept if respelled(n) != n and re.match(r"[A-Za-z]", n)}
    return turned | ALSO, own, kept


def main():
    turned, own, kept = names()
    together = collections.defaultdict(set)
    for n in own:
        together[turned.get(n, n)].add(n)
    for new, olds in sorted(together.items()):
        if len(olds) > 1 or (new in kept and olds != {new}):
            print("falls together:", new, "from", " ".join(sorted(olds)), "(a library's name too)" if new in kept else "", file=sys.stderr)
    if "--list" in sys.argv:
        for old in sorted(turned):
            print(old, turned[old])
        return
    for path in files() + sorted(glob.glob("crates/*/src/**/*.rt", recursive=True)):
        with open(path, encoding="utf-8") as f:
            text = f.read()
        out = []
        for line in text.splitlines(keepends=True):
            ghost = path.endswith(".antt") or re.match(r"\s*(ghost |requires|ensures|also_|invariant)", line)
            if ghost and code(line) and not USED.match(line):
                line = TOKEN.sub(lambda m: turned.get(m.group(0), m.group(0)), line)
            out.append(line)
        if "".join(out) != text:
            with open(path, "w", encoding="utf-8") as f:
                f.write("".join(out))


main()
