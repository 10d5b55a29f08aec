#!/usr/bin/env python3
"""Spells the repository's own definitions and lemmas in snake case: in crates/*/specs and proofs, in the clauses of src and in must-fail edits.

It was run once, after the kit's own port script, when the repository was brought to a newer Rattle. A name declared in specs/ or proofs/ that
has a dash gets an underscore in its place. Where a lemma is named by a function of lists and the definition that it is applied to, the dash
between the two stays (length-mended), as in the library. `getD`, `nth` and `putMid` are spelled as the library now spells these functions.
Words of the sources that proofs cite (a label, a function, a variable) are written there as the sources write them.

    python3 tools/snake_names.py           renames
    python3 tools/snake_names.py --list    prints old and new names, and names that would fall together
"""
import glob
import re
import sys

WORD = r"[^\s(){}\[\];,.⌜⌝«»\"`]+"
FUNCTIONS = ("length", "take", "drop", "get_or", "slice_get", "set")
SPELLED = {"getD": "get_or", "nth": "slice_get", "putMid": "put_mid"}
# names that would otherwise fall together with another
BY_HAND = {}
DECLARED = re.compile(
    r"^\s*(?:(?:abbrev|unfoldable|pub|private|data|record)\s+)*(" + WORD + r")(?:\s*(?:\{[^}]*\}|\([^)]*\)))*\s*:(?![:=])\s*(.*)$"
)


def antt_files():
    return sorted(glob.glob("crates/*/specs/*.antt") + glob.glob("crates/*/proofs/**/*.antt", recursive=True))


def source_files():
    return sorted(glob.glob("crates/*/src/**/*.rt", recursive=True))


def declared_names():
    names = set()
    for path in antt_files():
        for line in open(path, encoding="utf-8"):
            found = DECLARED.match(line)
            if found and not line.lstrip().startswith("--") and not found.group(2).startswith("goal."):
                names.add(found.group(1))
    return names


def source_words():
    words = set()
    for path in source_files():
        for line in open(path, encoding="utf-8"):
            if not line.lstrip().startswith("//"):
                words.update(word for word in re.findall(r"[A-Za-z_][A-Za-z0-9_]*", line) if "_" in word.strip("_"))
    return words


def new_names():
    old = {name for name in declared_names() if "-" in name or name in SPELLED}
    parts = {name: [SPELLED.get(part, part) for part in name.split("-")] for name in old}
    definitions = {"_".join(found) for found in parts.values()} | {name for name in declared_names() if "-" not in name}
    renamed = {}
    for name, found in parts.items():
        rest = "_".join(found[1:])
        dash = found[0] in FUNCTIONS and (rest in definitions or rest == "put_mid")
        renamed[name] = found[0] + ("-" if dash else "_") + rest
    renamed.update(BY_HAND)
    return renamed


def respell(text, renamed):
    return re.sub(WORD, lambda found: renamed.get(found.group(0), found.group(0)), text)


def respell_cited(line, sources):
    """Words of the sources stand behind a dot, or as a field of a record."""
    if re.match(r"\s*(pub |unfoldable )*use\b", line):
        return line
    line = re.sub(r"(?<=\.)" + WORD, lambda found: sources.get(found.group(0), found.group(0)), line)
    return re.sub(r"(?<=[{;] )" + WORD + r"(?= [=:] )", lambda found: sources.get(found.group(0), found.group(0)), line)


def respell_antt(text, renamed, sources):
    lines = []
    for line in text.split("\n"):
        lines.append(line if line.lstrip().startswith("--") else respell_cited(respell(line, renamed), sources))
    return "\n".join(lines)


def respell_source(text, renamed):
    """Only ghost lines, clauses and ghost members hold antt."""
    lines, depth = [], 0
    for line in text.split("\n"):
        stripped = line.lstrip()
        if stripped.startswith("//"):
            lines.append(line)
            continue
        if depth == 0 and re.match(r"(ghost|requires|ensures)\b", stripped):
            ghost = True
        else:
            ghost = depth > 0
        if ghost:
            depth += line.count("{") - line.count("}")
            line = respell(line, renamed)
        lines.append(line)
    return "\n".join(lines)


def write(path, text, changed):
    if changed != text:
        open(path, "w", encoding="utf-8").write(changed)


def main():
    renamed = new_names()
    if sys.argv[1:] == ["--list"]:
        taken = {}
        for path in antt_files() + source_files():
            for word in re.findall(WORD, open(path, encoding="utf-8").read()):
                taken.setdefault(word, path)
        for name, new in sorted(renamed.items()):
            print(name, new, ("FALLS ON " + taken[new]) if new in taken else "")
        return
    sources = {word.replace("_", "-"): word for word in source_words()}
    for path in antt_files():
        text = open(path, encoding="utf-8").read()
        write(path, text, respell_antt(text, renamed, sources))
    for path in source_files() + sorted(glob.glob("crates/*/must-fail/*.edit")):
        text = open(path, encoding="utf-8").read()
        write(path, text, respell_source(text, renamed))


main()
