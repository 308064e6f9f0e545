"""Small edits that change the meaning of one line of code or of one definition."""

import re

NUMBER = re.compile(r"(?<![\w.«·])(\d+)(?![\w.])")
SIGNS = [(" < ", " <= "), (" <= ", " < "), (" == ", " != "), (" != ", " == "), (" + ", " - "), (" - ", " + "),
         (" * ", " + "), (" / ", " * "), (" % ", " / "), (" << ", " >> "), (" >> ", " << "), (" += ", " -= "), (" && ", " || ")]
WORDS = [("leb", "ltb"), ("ltb", "leb"), ("take", "drop"), ("drop", "take"), ("signed", "unsigned"), ("unsigned", "signed"),
         ("true", "false"), ("false", "true"), ("First", "Second"), ("Second", "First")]


def code_lines(text):
    """Numbers of the lines of function bodies and constants; contracts, comments and uses are left out."""
    inside = False
    for i, line in enumerate(text):
        if line == "{":
            inside = True
        elif line == "}":
            inside = False
        elif not line.strip().startswith("//") and (inside or re.match(r"(pub )?const |    \d", line)):
            yield i


def definition_lines(text):
    """Numbers of the lines of definitions and of record fields; comments, imports and types alone are left out."""
    for i, line in enumerate(text):
        words = line.strip()
        if not words or words.startswith(("--", "use ", "pub mod", "module", "pub data", "deriving")):
            continue
        if re.match(r"(unfoldable |abbrev )?(pub )?[^ ]+ : [^=]*$", words) and not line.startswith("  "):
            continue
        yield i


def changed_numbers(line, salt):
    for m in NUMBER.finditer(line):
        n = int(m.group(1))
        other = n + 1 if n == 0 or (n + salt) % 2 else n - 1
        yield line[: m.start(1)] + str(other) + line[m.end(1) :]


def swapped_signs(line):
    for old, new in SIGNS:
        at = line.find(old)
        while at >= 0:
            yield line[:at] + new + line[at + len(old) :]
            at = line.find(old, at + 1)


def swapped_words(line):
    for old, new in WORDS:
        for m in re.finditer(r"(?<![\w-])%s(?![\w-])" % old, line):
            yield line[: m.start()] + new + line[m.end() :]


def swapped_arguments(line):
    """Two neighbours in a call, or a field given under another's name."""
    for m in re.finditer(r"\b(\w+), (\w+)\b", line):
        if m.group(1) != m.group(2) and not line.strip().startswith("let"):
            yield line[: m.start()] + m.group(2) + ", " + m.group(1) + line[m.end() :]
    if line.strip() in ("need,", "have,", "fault,"):
        yield line.replace("need,", "need: have,") if "need" in line else line.replace("have,", "have: need,")


def siblings(line, names):
    """Another function or definition whose name begins alike."""
    for m in re.finditer(r"\b([a-z]\w+)(?=\()", line):
        stem = m.group(1).split("_")[0]
        for other in sorted(names):
            if other != m.group(1) and other.split("_")[0] == stem:
                yield line[: m.start()] + other + line[m.end() :]
                break


def renamed(line):
    """A field's name, another name."""
    for m in re.finditer(r'"(\w+)"', line):
        yield line[: m.start(1)] + m.group(1) + "s" + line[m.end(1) :]


def neighbours(text, i):
    """This line and the next one in the other order, where both are fields of one description."""
    if i + 1 < len(text):
        a, b = text[i], text[i + 1]
        field = re.compile(r"^\s+(u|field|clock|stamp|signed|slots) ")
        if field.match(a) and field.match(b) and a != b:
            yield b, a


def of_file(path, text, names):
    """All edits of a file: (line, old lines, new lines)."""
    lines = code_lines(text) if path.endswith(".rt") else definition_lines(text)
    for i in lines:
        line = text[i]
        made = list(changed_numbers(line, i)) + list(swapped_signs(line)) + list(swapped_words(line)) + list(renamed(line))
        if path.endswith(".rt"):
            made += list(swapped_arguments(line)) + list(siblings(line, names))
        for new in made:
            if new != line:
                yield i, [line], [new]
        for a, b in neighbours(text, i):
            yield i, [line, text[i + 1]], [a, b]
