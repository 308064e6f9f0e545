#!/usr/bin/env python3
"""Brings this repository's own names to the spelling of today's Rattle, after port.py; run once, at the top.

Use: tools/respell.py          rewrites crates/*/specs, proofs and src (clauses alone name definitions there)
     tools/respell.py --map    prints the names it would change, old and new, and what would fall together

A definition, lemma, field or constructor is in snake case: no capital inside, no dash. Facts and types keep their
capital. Names of src/, of goals and what Rattle makes of code stay as they are.
"""
import collections
import glob
import re
import sys

FILES = sorted(glob.glob("crates/*/specs/**/*.antt", recursive=True) + glob.glob("crates/*/proofs/**/*.antt", recursive=True))
SOURCES = sorted(glob.glob("crates/*/src/*.rt"))
PART = r"[^\s(){}\[\];,.:\"«»=|↦→λ]"
DECLARED = re.compile(r"^\s*(?:(?:abbrev|unfoldable|pub|mutual|ruleset) )*(" + PART + r"+(?: " + PART + r"+)*) :(?: |$)")
TYPE = re.compile(r"^\s*(?:pub )?(?:data|record) (" + PART + "+)")
RULES = re.compile(r"^\s*(?:pub )?ruleset (" + PART + "+)")
TOKEN = re.compile(PART + "+")
# names that would be those of fields, parameters, functions or other laws beside them
CHOSEN = {
    "around-lists": "around_lists_lem",
    "asIs": "as_it_is",
    "associationType": "association_type_of",
    "clock-of": "clock_of_lem",
    "edition-of": "edition_of_lem",
    "element-lines": "element_lines_lem",
    "Field-of": "FieldOf",
    "Found-entries": "FoundEntries",
    "getD-last": "get_or_last",
    "getD-other": "get_or_other",
    "id-at": "id_at_lem",
    "id-of": "id_of_lem",
    "last-of": "last_of_lem",
    "List-passed": "list_passed",
    "plan-at": "plan_at_lem",
    "plan-of": "plan_of_lem",
    "planLength": "length_of_plan",
    "planLength-of": "length_of_plan_lem",
    "put-long": "put_long_lem",
    "raw-bits": "raw_bits_lem",
    "read-plan": "read_plan_lem",
    "Read-entries": "ReadEntries",
    "slotsOn": "slots_on_of",
    "tableId": "table_id_is",
    "type-number": "type_number_lem",
    "write-within": "write_within_lem",
}
# the library's, which some laws here are named after
KEPT = {"mul-le-mul"}


def helper(path):
    """A file of specs, or of laws: not the proof of one function, whose names are those of its goals."""
    parts = path.split("/")
    return parts[2] == "specs" or len(parts) == 4


def declared():
    names = collections.Counter()
    for path in FILES:
        if not helper(path):
            continue
        for line in open(path):
            found = TYPE.match(line) or RULES.match(line)
            if found:
                names[found[1]] += 1
                continue
            found = DECLARED.match(line)
            if found:
                for name in found[1].split():
                    names[name] += 1
    return names


def snake(name):
    if name in CHOSEN:
        return CHOSEN[name]
    new = name.replace("-", "_")
    if name[0].islower():
        new = re.sub(r"([a-z0-9])([A-Z])", lambda m: m[1] + "_" + m[2].lower(), new)
    return new


def renamed():
    return {name: snake(name) for name in declared() if name not in KEPT and snake(name) != name}


def respelled(text, names):
    return TOKEN.sub(lambda m: names.get(m[0], m[0]), text)


def clauses(text, names):
    """Names in a source's clauses and its ghost lines alone."""
    out, deep = [], 0
    for line in text.split("\n"):
        ghostly = deep > 0 or line.startswith("ghost use ") or re.match(r"\s+(requires|ensures)\b", line)
        deep = deep + line.count("{") - line.count("}") if ghostly else 0
        out.append(respelled(line, names) if ghostly else line)
    return "\n".join(out)


def together(names):
    """New names that two old ones get, or that stand already."""
    old = collections.defaultdict(set)
    for name, new in names.items():
        old[new].add(name)
    tokens = collections.defaultdict(set)
    for path in FILES + SOURCES:
        for token in set(TOKEN.findall(open(path).read())):
            tokens[token].add(path)
    for new, olds in sorted(old.items()):
        if len(olds) > 1 or new in tokens:
            yield new, sorted(olds), sorted(tokens.get(new, []))


def main():
    names = renamed()
    if "--map" in sys.argv:
        for name, new in sorted(names.items()):
            print(name, new)
        for new, olds, places in together(names):
            print("TOGETHER", new, olds, len(places), places[:6])
        return
    for path in FILES + SOURCES:
        text = open(path).read()
        new = respelled(text, names) if path.endswith(".antt") else clauses(text, names)
        if new != text:
            open(path, "w").write(new)


main()
