# Counts, at a commit, the places in src/ that docs/DESIGN-PASS.md speaks of: python3 tools/design_places.py COMMIT [--list]
import re
import subprocess
import sys

# point, what is looked for, and the pattern of a line
PATTERNS = [
    (1, "enum cases that say nothing", r"^\s+Nothing,"),
    (1, "flags beside a value", r"\b(asked|is_\w+): bool\b"),
    (1, "numbers for refusals and kinds", r"fn \w+(<.*>)?\(.*\) -> \(?u8\b"),
    (1, "numbers that are asked for a kind", r"columns\(\);$|width == 0"),
    (1, "options and results taken apart by hand", r"Some\(_\) => true|None => (false|None)\b|\b_ => (None|false),"),
    (3, "loops over an index", r"^\s*(while |for \w+ in .*\.\.)"),
    (4, "comparisons, copies and printing by hand", r"^impl.*\b(PartialEq|Eq|PartialOrd|Ord|Clone|From|TryFrom|FromStr|Display|Debug) for"),
    (4, "conversions and printing as functions of their own", r"fn (number|columns\(self\)|layer_word|print_refusal|print_cursor|refused|parse_kind|parse_pane|parse_device|print\(self)"),
    (4, "fields copied one by one", r"\b\w+: (area|panel|whole)\.\w+,"),
    (5, "clauses that say what stays", r"ensures (same|unchanged|area|held|below|windows|panels|kept) "),
    (5, "clauses that ask the same of an argument", r"requires (inside|short|small|room|fit|row|tall|wide)? ?\{.*(ends_below|is_small|room_of|length \w+\.(now|old) ≡|65535)"),
    (5, "a row and a column, or two sides, as two numbers", r"\b(row|view_row|top|rows|height): usize,"),
    (6, "arrays with a length beside, and lengths", r"^\s+(pub(\(crate\))? )?(numbers|ranges|areas|given|bytes): (\[|&'a mut)|^\s+(pub(\(crate\))? )?(count|shown|length|sent): usize,"),
    (6, "lists walked to a place", r"\.number\(place\)|\.byte\(index\)"),
    (7, "functions and boxed values as arguments", r"fn\(|\bdyn |impl Fn|: Fn(Once|Mut)?\("),
    (7, "a match that only picks which function runs", r"^\s+(Kind|Command)::\w+(\(\w+\))? => \w+\("),
]


def lines(commit):
    files = subprocess.run(["git", "ls-tree", "-r", "--name-only", commit], capture_output=True, text=True, check=True).stdout.split("\n")
    for path in files:
        if re.fullmatch(r"crates/\w+/src/.*\.rt", path):
            text = subprocess.run(["git", "show", f"{commit}:{path}"], capture_output=True, text=True, check=True).stdout
            for number, line in enumerate(text.split("\n"), 1):
                yield path, number, line


def twins(all_lines):
    names = {}
    for path, number, line in all_lines:
        found = re.match(r"\s*(?:pub(?:\(crate\))? )?(?:const )?fn (\w+)", line)
        if found:
            names.setdefault(found.group(1), []).append(f"{path}:{number}")
    return {name: places for name, places in names.items() if len(places) > 1}


def main():
    commit = sys.argv[1]
    listed = "--list" in sys.argv
    all_lines = list(lines(commit))
    for point, what, pattern in PATTERNS:
        found = [(path, number, line) for path, number, line in all_lines if re.search(pattern, line)]
        print(f"{point}  {len(found):3}  {what}")
        if listed:
            for path, number, line in found:
                print(f"        {path}:{number}: {line.strip()[:120]}")
    found = twins(all_lines)
    print(f"2  {len(found):3}  names that more than one function has")
    if listed:
        for name, places in sorted(found.items()):
            print(f"        {name}: {', '.join(places)}")


main()
