#!/usr/bin/env python3
# A second program for scripts, written apart from the Rattle one from docs/screen.md and docs/script.md, that says what has to be answered.
#
# It knows no addresses to compute with: a window is its rows, each a list of places in window memory, and a subwindow is cut out of
# these lists. Whatever a panel shows goes by a dictionary from spots to places, and the touched columns of a row are kept as a set.
#
#     python3 tests/screen_model.py < SCRIPT                       answers a script
#     python3 tests/screen_model.py generate KIND SEED CALLS       writes a script of that many calls, KIND text or byte
import random
import re
import sys

LARGEST = 4294967295
BLANK = ("single", " ", 0)
CLEAR = ("clear", "", 0)
WORDS = {
    "screen": 4, "window": 2, "subwindow": 5, "panel": 8, "show": 1, "hide": 1, "raise": 1, "lower": 1, "relocate": 3, "brush": 1,
    "write": 3, "punch": 4, "scroll": 1, "box": 2, "place": 2, "top": 2, "cover": 2, "touched": 1, "picture": 0,
}


class Refused(Exception):
    pass


class Malformed(Exception):
    pass


def refuse(number, holds):
    if holds:
        raise Refused(number)


def width(character):
    number = ord(character)
    if 0x20 <= number <= 0x7E or 0xAE <= number <= 0x2FF:
        return 1
    if 0x4E00 <= number <= 0x9FFF or 0xAC00 <= number <= 0xD7A3 or 0xFF01 <= number <= 0xFF60:
        return 2
    return 0


# The cells of a character that has a width.
def made(kind, character, attributes):
    if kind == "byte":
        return [("single", character if character <= "~" else "?", 0)] * width(character)
    if width(character) == 1:
        return [("single", character, attributes)]
    return [("left", character, attributes), ("right", character, attributes)]


# What a row of raw cells shows: whole characters, and a space for each cell that is part of none.
def mended(row):
    shown = ""
    column = 0
    while column < len(row):
        part, character, attributes = row[column]
        if row[column : column + 2] == [("left", character, attributes), ("right", character, attributes)]:
            shown += character
            column += 2
        else:
            shown += character if part == "single" else " "
            column += 1
    return shown


# The rectangle of a list of rows; none if it does not lie inside.
def part_of(rows, row, column, height, width):
    if row + height > len(rows) or column + width > len(rows[0]):
        return None
    return [line[column : column + width] for line in rows[row : row + height]]


class Screen:
    def __init__(self):
        self.kind = "text"
        self.rows = self.columns = self.length = self.taken = 0
        self.memory = []
        self.windows = []
        self.panels = {}
        self.order = []
        self.columns_touched = {}
        self.attributes = 0
        self.cursor = (0, 0)

    # What several calls ask.

    def ask_memory(self):
        refuse(15, len(self.memory) != self.length)

    def ask_window(self, window):
        refuse(4, window >= len(self.windows))
        return self.windows[window]

    def ask_panel(self, number):
        refuse(6, number not in self.panels)

    def ask_shown(self, number):
        self.ask_panel(number)
        refuse(9, number not in self.order)

    def ask_spot(self, row, column):
        refuse(8, row >= self.rows or column >= self.columns)

    def ask_on_screen(self, view, row, column):
        refuse(8, row + len(view) > self.rows or column + len(view[0]) > self.columns)

    # What a panel covers: each spot with its place in window memory.
    def covered(self, number):
        view, row, column = self.panels[number]
        return {(row + r, column + c): place for r, line in enumerate(view) for c, place in enumerate(line)}

    # The topmost panel with a cell that is not clear, and that cell, for each spot that has one.
    def seen(self):
        seen = {}
        for number in self.order:
            for spot, place in self.covered(number).items():
                if self.memory[place] != CLEAR:
                    seen[spot] = number, self.memory[place]
        return seen

    def touch(self, spots):
        for row, column in spots:
            near = {column - 1, column, column + 1} & set(range(self.columns))
            self.columns_touched[row] = self.columns_touched.get(row, set()) | near

    # Puts cells at places of window memory.
    def store(self, cells):
        for place, cell in cells.items():
            self.memory[place] = cell
        for number in self.order:
            self.touch(spot for spot, place in self.covered(number).items() if place in cells)

    # The calls.

    def screen(self, kind, rows, columns, length):
        self.kind = kind
        self.memory = [BLANK] * (length if length <= 65535 else 0)
        refuse(1, not 1 <= rows <= 64 or not 1 <= columns <= 128)
        refuse(3, length > 65535)
        self.rows, self.columns, self.length = rows, columns, length

    def window(self, height, width):
        self.ask_memory()
        refuse(1, not 1 <= height <= 255 or not 1 <= width <= 255)
        refuse(2, len(self.windows) == 16)
        refuse(3, self.taken + height * width > self.length)
        places = range(self.taken, self.taken + height * width)
        self.taken += height * width
        self.store({place: BLANK for place in places})
        self.windows.append([list(places[row * width : (row + 1) * width]) for row in range(height)])
        return f"window {len(self.windows) - 1}"

    def subwindow(self, window, row, column, height, width):
        whole = self.ask_window(window)
        refuse(1, height == 0 or width == 0)
        part = part_of(whole, row, column, height, width)
        refuse(5, part is None)
        refuse(2, len(self.windows) == 16)
        self.windows.append(part)
        return f"window {len(self.windows) - 1}"

    def write(self, window, row, column, text):
        self.ask_memory()
        rows = self.ask_window(window)
        refuse(5, row >= len(rows) or column >= len(rows[0]))
        refuse(10, any(width(character) == 0 for character in text))
        cells = [cell for character in text for cell in made(self.kind, character, self.attributes)]
        refuse(11, len(text) > 255 or column + len(cells) > len(rows[0]))
        self.store(dict(zip(rows[row][column:], cells)))

    def punch(self, window, row, column, count):
        self.ask_memory()
        rows = self.ask_window(window)
        refuse(5, row >= len(rows) or column >= len(rows[0]) or column + count > len(rows[0]))
        self.store({place: CLEAR for place in rows[row][column : column + count]})

    def scroll(self, window):
        self.ask_memory()
        rows = self.ask_window(window)
        cells = {place: BLANK for place in rows[-1]}
        for upper, lower in zip(rows, rows[1:]):
            cells |= {place: self.memory[below] for place, below in zip(upper, lower)}
        self.store(cells)

    def box(self, window, attributes):
        self.ask_memory()
        rows = self.ask_window(window)
        refuse(12, attributes > 15)
        refuse(13, len(rows) < 2 or len(rows[0]) < 2)
        cells = {}
        for line in rows:
            cells[line[0]] = cells[line[-1]] = "|"
        for line in (rows[0], rows[-1]):
            cells |= {place: "-" for place in line}
            cells[line[0]] = cells[line[-1]] = "+"
        self.store({place: made(self.kind, character, attributes)[0] for place, character in cells.items()})

    def brush(self, attributes):
        refuse(12, attributes > 15)
        self.attributes = attributes

    def panel(self, number, window, view_row, view_column, height, width, row, column):
        refuse(6, number > 15)
        refuse(7, number in self.order)
        whole = self.ask_window(window)
        refuse(1, height == 0 or width == 0)
        view = part_of(whole, view_row, view_column, height, width)
        refuse(5, view is None)
        self.ask_on_screen(view, row, column)
        self.panels[number] = view, row, column

    def show(self, number):
        self.ask_panel(number)
        refuse(7, number in self.order)
        self.order.append(number)
        self.touch(self.covered(number))

    def hide(self, number):
        self.ask_shown(number)
        self.order.remove(number)
        self.touch(self.covered(number))

    def raise_(self, number):
        self.hide(number)
        self.order.append(number)

    def lower(self, number):
        self.hide(number)
        self.order.insert(0, number)

    def relocate(self, number, row, column):
        self.ask_panel(number)
        view = self.panels[number][0]
        self.ask_on_screen(view, row, column)
        before = self.covered(number)
        self.panels[number] = view, row, column
        if number in self.order:
            self.touch(before)
            self.touch(self.covered(number))

    def place(self, row, column):
        self.ask_spot(row, column)
        self.cursor = row, column

    def top(self, row, column):
        self.ask_memory()
        self.ask_spot(row, column)
        seen = self.seen().get((row, column))
        return f"panel {seen[0]}" if seen else "none"

    def cover(self, row, column):
        self.ask_spot(row, column)
        numbers = [number for number in sorted(self.order) if (row, column) in self.covered(number)]
        return " ".join([f"{len(numbers)} of:", *map(str, numbers)])

    def touched(self, row):
        refuse(8, row >= self.rows)
        columns = self.columns_touched.get(row)
        return f"{min(columns)} {max(columns)}" if columns else "none"

    def picture(self):
        seen = self.seen()
        rows = [[seen.get((row, column), (None, BLANK))[1] for column in range(self.columns)] for row in range(self.rows)]
        return "\n".join(["ok", *(f"|{mended(row)}|" for row in rows)])


def number_of(word):
    if not re.fullmatch("[0-9]{1,10}", word) or int(word) > LARGEST:
        raise Malformed("not a number up to 4294967295")
    return int(word)


# The call of a line: its word, and its arguments.
def call_of(line, is_first):
    word, *words = line.split(" ")
    if word not in WORDS:
        raise Malformed("unknown word")
    if is_first and word != "screen":
        raise Malformed("the first call has to be screen")
    if word == "screen" and not is_first:
        raise Malformed("screen stands only at the start")
    if word == "write":
        texts = [" ".join(words[3:])]
        words = words[:3]
    else:
        texts = []
    if len(words) != WORDS[word]:
        raise Malformed("wrong number of words")
    kinds = [words.pop(0)] if word == "screen" else []
    if kinds not in ([], ["text"], ["byte"]):
        raise Malformed("the kind has to be text or byte")
    return word, kinds + [number_of(number) for number in words] + texts


def answer(screen, word, arguments):
    try:
        return getattr(screen, "raise_" if word == "raise" else word)(*arguments) or "ok"
    except Refused as fault:
        return f"refused {fault} screen"


def lines_of(script):
    *ended, last = script.split(b"\n")
    return [line.removesuffix(b"\r") for line in ended] + [last]


def run(script):
    screen = Screen()
    calls = refused = 0
    for number, line in enumerate(lines_of(script), start=1):
        try:
            line = line.decode("utf-8")
            if line == "" or line[0] == "#":
                continue
            answered = answer(screen, *call_of(line, calls == 0))
        except UnicodeDecodeError:
            return f"line {number}: not UTF-8 text"
        except Malformed as fault:
            return f"line {number}: {fault}"
        print(f"{line} -> {answered}")
        calls += 1
        refused += answered.startswith("refused")
    print(f"{calls} calls, {refused} refused")
    return None


# Writes scripts. Most calls are made to be accepted, by what the answers so far have left; in the others up to three arguments are spoilt, so that
# it shows which refusal comes first.
class Writer:
    WEIGHTS = {
        "window": 4, "subwindow": 4, "panel": 13, "show": 14, "hide": 10, "raise": 6, "lower": 6, "relocate": 14, "brush": 9, "write": 36,
        "punch": 9, "scroll": 4, "box": 4, "place": 2, "top": 12, "cover": 8, "touched": 28, "picture": 6,
    }
    WIDE = "\u4e2d\u4e2d\u4e2d\u4e2d\u4e2d\u4e2d\u4e00\u9fff\uac00\ud7a3\uff01\uff60"
    NARROW = "abcXYZ019 #~\u00ae\u00e9\u02ff"
    NO_WIDTH = "\t\u007f\u00ad\u0300\u3042\ua000\uff00\uff61\U0001f600"

    # Only random() gives the same numbers under every version of Python.
    def __init__(self, kind, seed, calls):
        self.dice = random.Random(seed)
        self.screen = Screen()
        self.calls = calls
        self.done = 0
        small = self.chance(0.15)
        rows, columns = (self.within(1, 3), self.within(1, 6)) if small else (self.within(5, 8), self.within(16, 28))
        self.names = [name for name, weight in self.WEIGHTS.items() for _ in range(weight)]
        print(f"# {kind} cells, seed {seed}, {calls} calls")
        self.say("screen", kind, rows, columns, self.within(200, 350))

    def below(self, count):
        return int(self.dice.random() * count)

    def within(self, low, high):
        return low + self.below(high - low + 1)

    def among(self, things):
        return things[self.below(len(things))]

    def chance(self, share):
        return self.dice.random() < share

    # A number from low to high, the two ends more often than the others.
    def from_to(self, low, high):
        return self.among([low, high, self.within(low, high), self.within(low, high)])

    def up_to(self, most):
        return self.from_to(0, most)

    def say(self, word, *arguments):
        print(" ".join(map(str, (word, *arguments))))
        answer(self.screen, word, arguments)
        self.done += 1

    # A rectangle of an area: row, column, height and width.
    def rectangle(self, height, width):
        high, wide = self.among([height, self.within(1, height)]), self.among([width, self.within(1, width)])
        return [self.up_to(height - high), self.up_to(width - wide), high, wide]

    # The number of a window, with its height and width.
    def any_window(self):
        windows = self.screen.windows
        number = self.below(len(windows)) if windows else 0
        return [number, *(self.sides(windows[number]) if windows else (1, 1))]

    def sides(self, rows):
        return len(rows), len(rows[0])

    # The number of a panel of some; of any, mostly one that was given, if there are none, and now and then.
    def any_panel(self, numbers):
        if self.chance(0.06) or not numbers:
            numbers = self.screen.panels if self.chance(0.7) else range(16)
        return self.among(sorted(numbers) or range(16))

    def text(self, room):
        text = ""
        ends = self.among([room, room, self.within(0, room), room + 1 if self.chance(0.3) else room])
        while sum(map(width, text)) < ends:
            left = ends - sum(map(width, text))
            text += self.among(self.WIDE if left > 1 and self.chance(0.7) else self.NARROW)
        if self.chance(0.06):
            at = self.up_to(len(text))
            text = text[:at] + self.among(self.NO_WIDTH) + text[at:]
        if self.chance(0.003):
            text = "x" * self.within(254, 257) + self.among(["", "\u00ad"])
        return text

    # The arguments of a call that is likely to be accepted.

    def for_window(self):
        left = self.screen.length - self.screen.taken
        if len(self.screen.windows) > 9 and 1 <= left < 255:
            return [1, left + self.below(2)]
        return [self.within(1, 4), self.within(2, 12)]

    def for_subwindow(self):
        window, height, width = self.any_window()
        return [window, *self.rectangle(height, width)]

    def for_panel(self):
        window, height, width = self.any_window()
        view = self.rectangle(min(height, self.screen.rows), min(width, self.screen.columns))
        number = self.any_panel(set(range(16)) - set(self.screen.order))
        return [number, window, *view, *self.spot_for(view[2], view[3])]

    # Where something of that size can begin: touched ranges only grow, so what is used of the screen grows slowly from its middle.
    def begins(self, size, whole):
        unused = int((whole - size) / 2 * (1 - self.done / self.calls))
        return unused, max(whole - size - unused, unused)

    def spot_for(self, height, width):
        if self.chance(0.03):
            return self.among([[self.screen.rows - height + 1, 0], [0, self.screen.columns - width + 1]])
        return [self.from_to(*self.begins(height, self.screen.rows)), self.from_to(*self.begins(width, self.screen.columns))]

    # One step from where a panel is.
    def step_from(self, at, size, whole):
        low, high = self.begins(size, whole)
        return min(max(at + self.within(-1, 1), low), high)

    def for_show(self):
        return [self.any_panel(set(self.screen.panels) - set(self.screen.order))]

    def for_hide(self):
        return [self.any_panel(self.screen.order)]

    for_raise = for_lower = for_hide

    def for_relocate(self):
        number = self.any_panel(self.screen.order if self.chance(0.8) else self.screen.panels)
        if number not in self.screen.panels:
            return [number, 0, 0]
        view, row, column = self.screen.panels[number]
        height, width = self.sides(view)
        if self.chance(0.5):
            return [number, self.step_from(row, height, self.screen.rows), self.step_from(column, width, self.screen.columns)]
        return [number, *self.spot_for(height, width)]

    def for_brush(self):
        return [self.among([0, 1])]

    def for_write(self):
        window, height, width = self.any_window()
        column = self.up_to(width - 1)
        return [window, self.up_to(height - 1), column, self.text(width - column)]

    def for_punch(self):
        window, height, width = self.any_window()
        column = self.up_to(width - 1)
        count = width - column + 1 if self.chance(0.05) else min(self.among([0, 1, 1, 2, 3]), width - column)
        return [window, self.up_to(height - 1), column, count]

    def for_scroll(self):
        return [self.any_window()[0]]

    def for_box(self):
        return [self.any_window()[0], self.within(0, 15)]

    def for_place(self):
        return self.spot_for(1, 1)

    def for_top(self):
        if not self.screen.order or self.chance(0.2):
            return self.spot_for(1, 1)
        return list(self.among(sorted(self.screen.covered(self.among(self.screen.order)))))

    for_cover = for_top

    def for_touched(self):
        return [self.below(self.screen.rows)]

    def for_picture(self):
        return []

    # The sixteen windows come one by one, over two thirds of the script; until the next one is due such a call is spoilt.
    def is_due(self, name):
        windows = len(self.screen.windows)
        return name not in ("window", "subwindow") or windows < 4 or windows * self.calls < 24 * self.done

    def step(self):
        name = self.among(self.names) if self.screen.windows or self.chance(0.2) else "window"
        arguments = getattr(self, "for_" + name)()
        numbers = [at for at, argument in enumerate(arguments) if isinstance(argument, int)]
        if numbers and (self.chance(0.12) or not self.is_due(name)):
            for at in (self.among(numbers) for _ in range(self.within(1, 3))):
                nearby = [min(arguments[at] + 1, LARGEST), 16] if self.is_due(name) else []
                arguments[at] = self.among([0, 255, 256, LARGEST, *nearby])
        self.say(name, *arguments)

    def write_all(self):
        while self.done < self.calls - 1:
            self.step()
        self.say("picture")


def main():
    sys.stdout.reconfigure(encoding="utf-8", newline="\n")
    if sys.argv[1:2] == ["generate"]:
        kind, seed, calls = sys.argv[2], int(sys.argv[3]), int(sys.argv[4])
        Writer(kind, seed, calls).write_all()
        return 0
    fault = run(sys.stdin.buffer.read())
    if fault:
        sys.stdout.flush()
        print(fault, file=sys.stderr)
    return 1 if fault else 0


sys.exit(main())
