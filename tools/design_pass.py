#!/usr/bin/env python3
"""Counts the places of docs/DESIGN-PASS.md in a second way: whole lists of parameters, bodies of enums and results, over
lines too. Use: tools/design_pass.py [CHECKOUT..], a column for each, this one's by default."""
import re
import sys
from pathlib import Path

TEXT = {
    "1 `?`": r"\)\?",
    "1 let .. else": r"\belse \{\s*return",
    "1 calls that answer such an enum":
        r"-> (?:[\w:]*::)?\w*(?:Answer|Read|Measure|LedgerSize|Walked|EntryEnd|Maybe\w*|Bits|SignedBits)\b",
    "1 tests of a number of 0 to 9 by `if`": r"\bif [\w.()]+ (?:==|!=) \d\b",
    "3 while": r"\bwhile\b",
    "3 for over a range by index": r"\bfor [a-z]\w* in \d+\.\.",
}
PARAMETERS = {
    "1 parameters that are numbers for something": r"\b(?:version|kind|mode|flag|meta|accel|number): u(?:8|64)",
    "5 body and place": r"&\[u8\], (?:at|here|p|start): u16",
    "5 ledger and place": r"ledger: &\[u8\], place: usize",
    "5 buffer and place": r"out: &mut \[u8\], (?:at|place): usize|place: usize, out: &mut \[u8\]",
    "5 text and its length": r"out: &mut Text",
}
SIX = "5 functions of six parameters or more"
ENUMS = "1 enums with a refusal or a none"


def sources(root):
    """The text of each source, without comments."""
    for path in sorted(Path(root).glob("crates/*/src/**/*.rt")):
        yield re.sub(r"//.*", "", path.read_text())


def parameters(text):
    """The parameters of each function, on one line."""
    for m in re.finditer(r"\bfn \w+(?:<[^>(]*>)?\(", text):
        end, depth = m.end(), 1
        while depth:
            depth += {"(": 1, ")": -1}.get(text[end], 0)
            end += 1
        yield re.sub(r"\s+", " ", text[m.end() : end - 1])


def number(those):
    """How many parameters a list has: commas within a type's own parameters and a last one are none."""
    while re.search(r"<[^<>]*>", those):
        those = re.sub(r"<[^<>]*>", "", those)
    return len([one for one in those.split(",") if one.strip()])


def counts(root):
    found = dict.fromkeys([ENUMS, SIX, *TEXT, *PARAMETERS], 0)
    for text in sources(root):
        for body in re.findall(r"\benum \w+(?:<[^>]*>)? \{(.*?)\n\}", text, re.S):
            found[ENUMS] += bool(re.search(r"Refus|^\s*None,", body, re.M))
        for name, pattern in TEXT.items():
            found[name] += len(re.findall(pattern, text))
        for those in parameters(text):
            found[SIX] += number(those) > 5
            for name, pattern in PARAMETERS.items():
                found[name] += bool(re.search(pattern, those))
    return found


columns = [counts(root) for root in sys.argv[1:] or [Path(__file__).resolve().parents[1]]]
for name in sorted(columns[0]):
    print("|", name, "|", " | ".join(str(column[name]) for column in columns), "|")
