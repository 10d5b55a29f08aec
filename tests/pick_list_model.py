#!/usr/bin/env python3
# A second pick list program, written apart from the Rattle one, that says what replay has to print.
#
# It never looks at cells or halves. It places whole characters into columns: a character of two columns of which only
# the first is left in the row cannot be shown, so that column is blank.
#
# With words on the command line it puts each line on a terminal besides, or on a pane of one, by a picture of its own:
# a dictionary of spots, a list of the bytes that go down the line, and the cursor on the bare terminal. After the word raw it
# writes these bytes alone.
#
# The stored output is made by
#     python3 tests/pick_list_model.py $(cat crates/replay/args) < crates/replay/stdin > crates/replay/stdout
import re
import sys

NARROW = [(0x20, 0x7E), (0xAE, 0x2FF)]
WIDE = [(0x4E00, 0x9FFF), (0xAC00, 0xD7A3), (0xFF01, 0xFF60)]


def is_in(ranges, number):
    return any(low <= number <= high for low, high in ranges)


def columns(character):
    if is_in(NARROW, ord(character)):
        return 1
    return 2 if is_in(WIDE, ord(character)) else 0


def print_row(text, width):
    shown = ""
    used = 0
    blanked = 0
    for character in text:
        takes = columns(character)
        if takes and used + takes <= width:
            shown += character
        elif takes == 2 and used + 1 == width:
            shown += " "
            blanked += 1
        used += takes
    shown += " " * (width - used)
    line = f"|{shown}| {min(used, width)} laid, {max(used - width, 0)} cut, {blanked} blanked"
    dropped = sum(columns(character) == 0 for character in text)
    print(line + (f", {dropped} without width" if dropped else ""))


class Refused(Exception):
    pass


class Screen:
    # A terminal with a window: the part of it that can be written to. A bare terminal's window is all of it.
    def __init__(self, rows, columns, line, window):
        self.rows, self.columns, self.line = rows, columns, line
        self.top, self.left, self.height, self.width = window
        self.spots = {}
        self.sent = bytearray()
        self.tally = 0
        self.cursor = None

    def room(self):
        return self.line - len(self.sent)

    def seen_cursor(self):
        if self.cursor is None:
            return None
        row, column = self.cursor[0] - self.top, self.cursor[1] - self.left
        return (row, column) if row in range(self.height) and column in range(self.width) else None

    def send(self, code):
        if self.room() < self.NEED:
            raise Refused("22 terminal")
        self.sent += code

    def move(self, row, column):
        if row not in range(self.height) or column not in range(self.width):
            raise Refused("21 terminal")
        at = (self.top + row, self.left + column)
        self.send(self.move_code(*at))
        self.cursor = at

    # puts a character that takes one or two spots
    def put(self, character, takes):
        if self.seen_cursor() is None:
            raise Refused("24 terminal")
        self.send(character.encode())
        row, column = self.cursor
        self.spots[row, column] = character
        if takes == 2:
            self.spots[row, column + 1] = ""
        self.tally += takes
        self.cursor = (row, column + takes) if column + takes < self.columns else None

    def show(self, row, text, width):
        wide = min(width, self.width)
        self.move(row, 0)
        used = 0
        for character, takes in self.shown(text) + [(" ", 1)] * wide:
            if used < wide and used + takes > wide:
                character, takes = " ", 1
            if used + takes <= wide:
                self.put(character, takes)
            used += takes

    def print(self):
        print(f"sent {len(self.sent)} bytes")
        for start in range(0, len(self.sent), 16):
            print(self.sent[start : start + 16].hex(" "))
        for row in range(self.rows):
            print("|" + "".join(self.spots.get((row, column), "#") for column in range(self.columns)) + "|")
        seen = self.seen_cursor()
        at = f"{seen[0]} {seen[1]}" if seen else "unknown"
        print(f"tally {self.tally} cursor {at} room {self.room()}")


class Dumb(Screen):
    NEED, MOST_ROWS, MOST_COLUMNS = 4, 24, 80

    def move_code(self, row, column):
        return bytes([0x1B, 0x3D, row + 32, column + 32])

    # each column of a character that is no plain byte is a question mark
    def shown(self, text):
        return [(c, 1) if " " <= c <= "~" else ("?", 1) for c in text for _ in range(columns(c))]


class Ecma48(Screen):
    NEED, MOST_ROWS, MOST_COLUMNS = 15, 64, 128

    def move_code(self, row, column):
        if self.cursor and self.cursor[0] == row and self.cursor[1] <= column:
            right = column - self.cursor[1]
            return f"\x1b[{right}C".encode() if right else b""
        return f"\x1b[{row + 1};{column + 1}H".encode()

    def shown(self, text):
        return [(c, columns(c)) for c in text if columns(c)]


# The screen that the words ask for, none if there are no words, and whether its bytes alone are written.
def screen_of(words):
    if not words:
        return None, False
    raw, words = words[0] == "raw", words[words[0] == "raw" :]
    if len(words) not in (4, 9) or words[0] not in ("dumb", "ecma48") or words[4:5] not in ([], ["pane"]):
        raise Refused("words")
    numbers = words[1:4] + words[5:]
    if not all(re.fullmatch(r"\+?[0-9]+", number) and int(number) < 2**64 for number in numbers):
        raise Refused("words")
    kind = Dumb if words[0] == "dumb" else Ecma48
    rows, columns, line, *window = map(int, numbers)
    if not (1 <= rows <= kind.MOST_ROWS and 1 <= columns <= kind.MOST_COLUMNS):
        raise Refused("1 screen")
    if window:
        top, left, height, width = window
        if height < 1 or width < 1 or top + height > rows or left + width > columns:
            raise Refused("5 screen")
    return kind(rows, columns, line, window or (0, 0, rows, columns)), raw


def count(number, noun):
    return f"{number} {noun}" if number == 1 else f"{number} {noun}s"


def main():
    sys.stdout.reconfigure(encoding="utf-8", newline="\n")
    try:
        screen, raw = screen_of(sys.argv[1:])
    except Refused as fault:
        print(f"refused {fault}", file=sys.stderr)
        return 1
    lines = re.findall(rb"[^\n]*\n|[^\n]+$", sys.stdin.buffer.read())
    lines = [re.sub(rb"\r?\n\Z", b"", line) for line in lines]
    first = lines[0] if lines else b""
    if not re.fullmatch(rb"\+?[0-9]+", first) or not 1 <= int(first) <= 128:
        print("line 1: the width has to be a number from 1 to 128", file=sys.stderr)
        return 1
    width = int(first)
    rows = refused = 0
    for number, line in enumerate(lines[1:], start=2):
        try:
            text = line.decode("utf-8")
        except UnicodeDecodeError as fault:
            if not raw:
                print(f"line {number}: not UTF-8 text from byte {fault.start + 1} on")
            refused += 1
            continue
        if not raw:
            print_row(text, width)
        try:
            if screen:
                screen.show(rows, text, width)
        except Refused as fault:
            if not raw:
                print(f"line {number}: refused {fault}")
        rows += 1
    if raw:
        sys.stdout.buffer.write(screen.sent)
        return 0
    print(f"{count(rows, 'row')} of {count(width, 'column')}, {count(refused, 'line')} refused")
    if screen:
        screen.print()
    return 0


sys.exit(main())
