#!/usr/bin/env python3
# Holds what replay and emulate print to what a real terminal, tmux, shows of the same bytes: characters and attributes of every spot.
#
#     for name in replay emulate; do (cd crates/$name && rt run -- $(cat args) < stdin > /dev/null); done && python3 tests/tmux_check.py
#
# It needs tmux and the locale C.UTF-8, and starts a tmux server of its own, which it ends again. The streams leave out what tmux reads
# differently: a character after the last column, which it wraps to the next row and the emulator drops; and a character over the second
# half of a wide one in the first two columns, of which it leaves the first half standing (tmux 3.3a, in no other columns).
import os
import random
import re
import subprocess
import sys
import tempfile
import time

HERE = os.path.dirname(os.path.dirname(os.path.abspath(__file__)))
REPLAY = os.path.join(HERE, "crates/replay/out/replay")
EMULATE = os.path.join(HERE, "crates/emulate/out/emulate")
LIST = os.path.join(HERE, "crates/replay/stdin")
WIDE = [(0x4E00, 0x9FFF), (0xAC00, 0xD7A3), (0xFF01, 0xFF60)]
NARROW = [(0x20, 0x7E), (0xAE, 0x2FF)]
BITS = {"1": 1, "4": 2, "5": 4, "7": 8}


def is_wide(character):
    return any(low <= ord(character) <= high for low, high in WIDE)


def to(row, column):
    return f"\x1b[{row + 1};{column + 1}H"


# A captured row as cells: a character with its attributes, and nothing with the same ones for the second column of a wide one. Codes 39 and
# 49 are colours, of which there are none.
def cells_of(line, attributes):
    cells = []
    for sequence, character in re.findall("\x1b\\[([0-9;]*)m|([^\x1b])", line):
        if character:
            cells += [(character, attributes)] + [("", attributes)] * is_wide(character)
        else:
            for code in sequence.split(";"):
                attributes = attributes | BITS[code] if code in BITS else {"": 0, "0": 0, "39": attributes, "49": attributes}[code]
    return cells, attributes


# What tmux shows of bytes on a screen that is first all "#".
def tmux_screen(rows, columns, stream):
    with tempfile.TemporaryDirectory() as folder:
        paths = [os.path.join(folder, name) for name in ("conf", "stream", "done")]
        fill = "".join(to(row, 0) + "#" * columns for row in range(rows)).encode()
        with open(paths[0], "w") as conf:
            conf.write("set -g status off\n")
        with open(paths[1], "wb") as out:
            out.write(fill + stream)
        tmux = ["tmux", "-u", "-L", f"rufantse-{os.getpid()}", "-f", paths[0]]
        shell = f"stty raw -echo; cat {paths[1]}; touch {paths[2]}; exec sleep 60"
        environment = {**os.environ, "LC_ALL": "C.UTF-8"}
        subprocess.run(tmux + ["new-session", "-d", "-x", str(columns), "-y", str(rows), shell], env=environment, check=True)
        try:
            return settled_screen(tmux, environment, paths[2])
        finally:
            subprocess.run(tmux + ["kill-server"], env=environment, check=True)


# The screen once the bytes are through and two captures agree.
def settled_screen(tmux, environment, done):
    last = None
    for _ in range(200):
        time.sleep(0.1)
        if os.path.exists(done):
            now = subprocess.run(tmux + ["capture-pane", "-p", "-e", "-N"], env=environment, check=True, capture_output=True).stdout.decode()
            if now == last:
                break
            last = now
    screen, attributes = [], 0
    for line in last.rstrip("\n").split("\n"):
        cells, attributes = cells_of(line, attributes)
        screen.append(cells)
    return screen


def run(program, words, given):
    return subprocess.run([program, *map(str, words)], input=given, check=True, capture_output=True).stdout


# The rows that a program printed between bars, of the given number the last ones.
def printed_rows(text, rows):
    return [line[1:-1] for line in text.split("\n") if re.fullmatch(r"\|.*\|", line)][-rows:]


def compare(name, expected, shown):
    wrong = [row for row, (a, b) in enumerate(zip(expected, shown)) if a != b]
    if wrong or len(expected) != len(shown):
        row = wrong[0] if wrong else "count"
        print(f"{name}: row {row} differs")
        if wrong:
            print(f"  printed {expected[row]}\n  tmux    {shown[row]}")
        return False
    print(f"{name}: {len(expected)} rows agree")
    return True


# The list on an ECMA-48 terminal: the grid that replay prints, and the bytes that it writes in raw.
def check_replay(rows, columns, line, *pane):
    words = ["ecma48", rows, columns, line, *pane]
    with open(LIST, "rb") as given:
        text = given.read()
    expected = printed_rows(run(REPLAY, words, text).decode(), rows)
    screen = tmux_screen(rows, columns, run(REPLAY, ["raw", *words], text))
    shown = ["".join(character for character, _ in cells) for cells in screen]
    return compare("replay " + " ".join(map(str, words)), expected, shown)


# Any stream: the rows and attributes that emulate prints.
def check_emulate(name, rows, columns, stream):
    text = run(EMULATE, [rows, columns], stream).decode()
    printed = zip(printed_rows(text, rows), text.split("\n")[rows : 2 * rows])
    shown = [("".join(c for c, _ in cells), "".join(f"{a:x}" for _, a in cells)) for cells in tmux_screen(rows, columns, stream)]
    return compare(f"emulate {rows} {columns}, {name}", list(printed), shown)


def any_of(dice, ranges):
    low, high = dice.choice(ranges)
    return chr(dice.randint(low, high))


# Moves, attributes and characters at random, over one another.
def random_stream(dice, rows, columns, pieces):
    stream, column = "", columns
    for _ in range(pieces):
        kind = dice.randrange(8)
        if column >= columns or kind == 0:
            column = dice.choice([0, *range(2, columns)])
            stream += to(dice.randrange(rows), column)
        elif kind == 1:
            right = dice.choice([1, 2, 5, 9999] if column else [2, 5, 9999])
            column = min(column + right, columns - 1)
            stream += f"\x1b[{right}C"
        elif kind == 2:
            stream += "\x1b[0" + "".join(f";{code}" for code in BITS if dice.random() < 0.4) + "m"
        else:
            wide = dice.random() < 0.5 and column + 2 <= columns
            stream += any_of(dice, WIDE if wide else NARROW)
            column += 1 + wide
    return stream.encode()


# Every character that has a width, in order, as screens full of them.
def character_streams(rows, columns):
    characters = [chr(n) for low, high in NARROW + WIDE for n in range(low, high + 1)]
    stream, row, column = "", 0, 0
    for character in characters:
        takes = 1 + is_wide(character)
        if column + takes > columns:
            row, column = row + 1, 0
        if row == rows:
            yield stream.encode()
            stream, row = "", 0
        stream += (to(row, 0) if column == 0 else "") + character
        column += takes
    yield stream.encode()


def main():
    agree = [
        check_replay(16, 40, 4000),
        check_replay(12, 40, 248, "pane", 1, 4, 10, 17),
        check_replay(20, 13, 4000),
        check_replay(24, 80, 4000, "pane", 3, 60, 20, 20),
    ]
    for seed, (rows, columns) in enumerate([(10, 24), (24, 80), (64, 128), (3, 5), (1, 128), (64, 4), (12, 40), (5, 9)]):
        agree.append(check_emulate(f"stream {seed}", rows, columns, random_stream(random.Random(seed), rows, columns, 4000)))
    for number, stream in enumerate(character_streams(64, 128)):
        agree.append(check_emulate(f"characters {number}", 64, 128, stream))
    print(f"{sum(agree)} of {len(agree)} screens agree")
    return 0 if all(agree) else 1


sys.exit(main())
