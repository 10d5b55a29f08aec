#!/usr/bin/env python3
# A second emulator, written apart from the Rattle one, that says what emulate has to print.
#
# It keeps the bytes that are gathered and asks of each new byte whether they can still become a sequence or a character: of a
# sequence by a pattern for its beginnings, of a character by Python's own decoder.
#
#     python3 tests/emulator_model.py stream > crates/emulate/stdin
#     python3 tests/emulator_model.py show $(cat crates/emulate/args) < crates/emulate/stdin > crates/emulate/stdout
import random
import re
import sys

NUMBER = rb"[1-9][0-9]{0,3}"
RIGHT = re.compile(rb"\x1b\[(" + NUMBER + rb")C")
TO = re.compile(rb"\x1b\[(" + NUMBER + rb");(" + NUMBER + rb")H")
PEN = re.compile(rb"\x1b\[0(;1)?(;4)?(;5)?(;7)?m")
BEGINNING = re.compile(rb"\x1b(\[(0(;1)?(;4)?(;5)?(;7|;)?|" + NUMBER + rb"(;(" + NUMBER + rb")?)?)?)?")


def columns_of(number):
    if 0x20 <= number <= 0x7E or 0xAE <= number <= 0x2FF:
        return 1
    if 0x4E00 <= number <= 0x9FFF or 0xAC00 <= number <= 0xD7A3 or 0xFF01 <= number <= 0xFF60:
        return 2
    return 0


def begins_character(gathered):
    try:
        gathered.decode("utf-8")
    except UnicodeDecodeError as fault:
        return fault.start == 0 and fault.end == len(gathered) and "unexpected end" in fault.reason
    return True


class Screen:
    def __init__(self, rows, columns):
        self.rows, self.columns = rows, columns
        self.cells = {(r, c): ("#", "single", 0) for r in range(rows) for c in range(columns)}
        self.cursor = None
        self.pen = 0
        self.gathered = b""

    def put(self, character, width):
        row, column = self.cursor
        if column + width > self.columns:
            return
        spots = [(row, column + k) for k in range(width)]
        first, last = self.cells[spots[0]], self.cells[spots[-1]]
        if first[1] == "right" and column > 0:
            self.cells[row, column - 1] = (" ", "single", 0)
        if last[1] == "left" and column + width < self.columns:
            self.cells[row, column + width] = (" ", "single", 0)
        for spot, part in zip(spots, ["single"] if width == 1 else ["left", "right"]):
            self.cells[spot] = (character, part, self.pen)
        column += width
        self.cursor = (row, column) if column < self.columns else None

    def read(self, byte):
        gathered, self.gathered = self.gathered + bytes([byte]), b""
        if gathered[0] == 0x1B:
            self.read_sequence(gathered)
        elif begins_character(gathered):
            self.read_character(gathered)

    def read_character(self, gathered):
        try:
            character = gathered.decode("utf-8")
        except UnicodeDecodeError:
            self.gathered = gathered
            return
        width = columns_of(ord(character))
        if width and self.cursor:
            self.put(character, width)

    def read_sequence(self, gathered):
        if found := RIGHT.fullmatch(gathered):
            if self.cursor:
                self.cursor = (self.cursor[0], min(self.cursor[1] + int(found[1]), self.columns - 1))
        elif found := TO.fullmatch(gathered):
            self.cursor = (min(int(found[1]), self.rows) - 1, min(int(found[2]), self.columns) - 1)
        elif found := PEN.fullmatch(gathered):
            self.pen = sum(bit for bit, group in zip((1, 2, 4, 8), found.groups()) if group)
        elif BEGINNING.fullmatch(gathered):
            self.gathered = gathered

    def show(self):
        for row in range(self.rows):
            line = [self.cells[row, c] for c in range(self.columns)]
            print("|" + "".join(ch for ch, part, _ in line if part != "right") + "|")
        for row in range(self.rows):
            print("".join(f"{self.cells[row, c][2]:x}" for c in range(self.columns)))
        cursor = f"{self.cursor[0]} {self.cursor[1]}" if self.cursor else "unknown"
        print(f"cursor {cursor} pen {self.pen}")


def piece(dice):
    kind = dice.randrange(12)
    if kind < 3:
        return dice.choice("abcXYZ 019#~").encode()
    if kind == 3:
        return chr(dice.choice([dice.randrange(0xAE, 0x300), dice.randrange(0x7F, 0xAE)])).encode()
    if kind < 6:
        return chr(dice.choice([dice.randrange(0x4E00, 0xA000), dice.randrange(0xAC00, 0xD7A4), dice.randrange(0xFF01, 0xFF61)])).encode()
    if kind == 6:
        return f"\x1b[{dice.choice([1, 1, 2, 3, 7, 40, 9999])}C".encode()
    if kind < 9:
        return f"\x1b[{dice.randrange(1, 12)};{dice.choice([dice.randrange(1, 30), 24, 9999])}H".encode()
    if kind == 9:
        return ("\x1b[0" + "".join(a for a in (";1", ";4", ";5", ";7") if dice.random() < 0.4) + "m").encode()
    if kind == 10:
        return dice.choice([b"\x1b[01C", b"\x1b[10000C", b"\x1b[0;4;1m", b"\x1b[0;7;7m", b"\x1b[0;1;7;xm", b"\x1b[3;H", b"\x1b[;3H", b"\x1b\x1b[2C", b"\x1b[2\x1b[1;1H", b"\x1b[m", b"\x1b[2;03H"])
    return bytes(dice.choice([0x1B, 0x5B, 0x80, 0xBF, 0xC0, 0xC1, 0xE0, 0xED, 0xA0, 0x9F, 0xF0, 0xF4, 0x90, 0xF5, 0xFF, dice.randrange(256)]) for _ in range(dice.randrange(1, 5)))


def main():
    if sys.argv[1] == "stream":
        dice = random.Random(48)
        sys.stdout.buffer.write(b"".join(piece(dice) for _ in range(6000)))
        return
    screen = Screen(int(sys.argv[2]), int(sys.argv[3]))
    for byte in sys.stdin.buffer.read():
        screen.read(byte)
    sys.stdout.reconfigure(encoding="utf-8", newline="\n")
    screen.show()


main()
