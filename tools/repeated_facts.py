#!/usr/bin/env python3
"""Prints the facts that stand in the contracts of three or more functions, and the parameters that three or more take together.

Usage: tools/repeated_facts.py [FOLDER]    the top of the repository, or of another checkout of it

A fact is a clause without its name; `.now`, `.old` and `.new` are left out, and tables and node numbers have one name each, so
that the same fact about another argument counts as the same. Tests (crates/worked) are left out.
"""
import collections
import pathlib
import re
import sys

FUNCTION = re.compile(r"fn (\w+)[^{;]*?\(([^)]*)\)[^{;]*?((?:\n\s*(?:requires|ensures)[^\n]*)+)")
PARAMETERS = re.compile(r"fn (\w+)(?:<[^(]*>)?\s*\(([^)]*)\)")
CLAUSE = re.compile(r"(?:requires|ensures)\*?\s*\w*\s*\{(.*)\}")


def as_fact(clause):
    text = re.sub(r"\b(\w+)\.(now|old|new)\b", r"\1", clause.strip())
    text = re.sub(r"\b(visited|appended|work|found|table|places|marks)\b", "TABLE", text)
    return re.sub(r"\b(at|node|root|number|x)\b", "NODE", text)


def report(title, found):
    print(title)
    for what, where in sorted(found.items(), key=lambda item: (-len(item[1]), item[0])):
        if len(where) >= 3:
            print(f"  {len(where)}  {what}")


facts = collections.defaultdict(set)
together = collections.defaultdict(set)
for path in sorted(pathlib.Path(sys.argv[1] if len(sys.argv) > 1 else ".").glob("crates/*/src/**/*.rt")):
    if "worked" in path.parts:
        continue
    text = path.read_text()
    for name, _, clauses in FUNCTION.findall(text):
        for clause in CLAUSE.findall(clauses):
            facts[as_fact(clause)].add(f"{path}:{name}")
    for name, parameters in PARAMETERS.findall(text):
        named = [" ".join(p.split()) for p in parameters.split(",") if ":" in p]
        for i, one in enumerate(named):
            for other in named[i + 1 :]:
                together[f"{one}, {other}"].add(f"{path}:{name}")
report("facts", facts)
report("parameters", together)
