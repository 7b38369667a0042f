"""Generates COUNT cases for trials.py, from case FIRST or 1 on: python3 generate.py SEED COUNT [FIRST] > cases."""

import random
import sys

import setter

PRINTABLE = bytes(range(33, 127))
MOST_ROOM = 99999  # a header's number has at most five digits


def case(seed, k):
    """Case k of a seed. It depends on nothing else, so that any case can be made again alone."""
    rng = random.Random(f"{seed} {k}")
    return pick(rng, KINDS)(rng)


def pick(rng, choices):
    """One of [(weight, value), ...]."""
    return rng.choices([value for _, value in choices], [weight for weight, _ in choices])[0]


def number(rng, value):
    """A number as bytes, now and then with leading zeros, which are lawful up to five digits."""
    text = str(value)
    return text.zfill(rng.randint(2, 5)).encode() if rng.random() < 0.03 else text.encode()


def header(rng, *words):
    return b" ".join(word if isinstance(word, bytes) else number(rng, word) for word in words) + b"\n"


# ---------------------------------------------------------------- texts


class Voice:
    """Makes texts from the characters that a measurer covers, and from those that it does not."""

    def __init__(self, rng, covers, pairs=()):
        covered = [c for c in range(256) if c not in (10, 32) and covers(c)]
        self.strange = [c for c in range(256) if c != 10 and not covers(c)]
        self.strange += [c for c in self.strange if c in (0, 9, 13, 31, 127, 128, 255)] * 12
        few = rng.random() < 0.4  # few letters make many equal rows
        self.letters = bytes(rng.sample(covered, min(len(covered), rng.randint(2, 6)))) if few else bytes(covered)
        if rng.random() < 0.1:
            self.letters += b"\\\\\\"  # many escapes
        self.pairs = [bytes(pair) for pair in pairs if 10 not in pair]
        self.blank = b" " if covers(32) else b""
        styles = [(5, "prose"), (2, "dense"), (2, "lines"), (2, "blanks")] + [(4, "pairs")] * bool(self.pairs)
        self.styles = styles
        self.style = pick(rng, styles)

    def word(self, rng, most):
        return bytes(rng.choices(self.letters, k=rng.randint(1, most)))

    def token(self, rng, style):
        if style == "prose":
            behind = pick(rng, [(80, self.blank), (10, self.blank * rng.randint(2, 6)), (7, b"\n"), (3, b"")])
            return self.word(rng, 9) + behind
        if style == "dense":
            return self.word(rng, 40) + (b"\n" if rng.random() < 0.1 else b"")
        if style == "lines":
            return pick(rng, [(3, b""), (2, self.word(rng, 4))]) + b"\n" * rng.randint(1, 3)
        if style == "blanks":
            return self.blank * rng.randint(1, 20) + pick(rng, [(6, self.word(rng, 3)), (1, b"\n")])
        return rng.choice(self.pairs) * rng.randint(1, 3) + pick(rng, [(4, b""), (3, self.blank), (1, b"\n")])

    def text(self, rng, length):
        style = self.style if rng.random() < 0.7 else pick(rng, self.styles)
        made = bytearray()
        while len(made) < length:
            made += self.token(rng, style)
        return bytes(made[:length])

    def with_stranger(self, rng, text):
        """The text with one uncovered character in it, sometimes two."""
        for _ in range(pick(rng, [(3, 1), (1, 2)])):
            place = rng.randint(0, len(text))
            text = text[:place] + bytes([rng.choice(self.strange or [13])]) + text[place:]
        return text


def escape(text):
    return text.replace(b"\\", b"\\\\").replace(b"\n", b"\\n")


# ---------------------------------------------------------------- lines of scripts and of calls


def replace_line(rng, at, deleted, text):
    return b"R %s %s %s" % (number(rng, at), number(rng, deleted), escape(text))


def damaged(rng, line):
    """A line with one thing wrong; a few damages leave it a command after all."""
    place = rng.randint(0, len(line))
    digits = [i for i, c in enumerate(line[:14]) if 48 <= c <= 57]
    spaces = [i for i, c in enumerate(line[:14]) if c == 32]
    digit = rng.choice(digits) if digits else 0
    space = rng.choice(spaces) if spaces else 0
    foreign = bytes([rng.choice([0, 9, 13, 127, 128, 200, 255])])
    return rng.choice([
        b"",
        b" " + line,
        line + b" ",
        line + b"\r",
        line + foreign,
        foreign + line,
        line + b"\\",
        line + b"\\x\\n",
        line[:1].lower() + line[1:],
        bytes([rng.choice(b"PXQrmfs0 \\")]) + line[1:],
        line[:digit] + b"000000" + line[digit:],
        line[:digit] + b"123456" + line[digit + 1:],
        line[:digit] + line[digit + 1:],
        line[:digit] + rng.choice([b"-", b"+", b"a", b".", b"/", b":"]) + line[digit:],
        line[:space] + b" " + line[space:],
        line[:space] + line[space + 1:],
        line[:space] + b"\t" + line[space + 1:],
        line[:place],
        line[:place] + b"\\" + line[place:],
        line[:place] + foreign + line[place:],
        line[:1],
        line[:2],
        line[1:],
        line + line,
        bytes(c for c in rng.randbytes(rng.randint(1, 12)) if c != 10),
    ])


def some_measure(rng, unit, least=1):
    """A lawful measure, at least `least`; `unit` is a usual advance."""
    measure = pick(rng, [
        (6, unit * rng.randint(1, 12)),
        (6, unit * rng.randint(1, 60)),
        (2, unit * rng.randint(1, 60) + rng.choice([-1, 1])),
        (2, rng.randint(1, unit)),
        (1, rng.randint(1, 60000)),
        (1, rng.choice([1, 2, 59999, 60000])),
    ])
    return max(1, min(60000, max(least, measure)))


class Lines:
    """Builds lines for a sheet and runs each at once, so that the next can suit what stands there."""

    def __init__(self, rng, sheet, voice, unit, goal, room=None):
        self.rng = rng
        self.sheet = sheet
        self.voice = voice
        self.unit = unit  # a usual advance
        self.goal = goal  # how many characters should stand, roughly
        self.room = room  # of the buffer of S in a case of calls; None in a script
        self.lines = []
        self.said = []

    def add(self, line):
        self.lines.append(line)
        if self.room is None:
            said = setter.run_line(self.sheet, line)
        else:
            said = setter.call_line(self.sheet, line, self.room)
        self.said.append(setter.numbered(len(self.lines), said))

    def data(self):
        joined = b"\n".join(self.lines)
        if self.lines and (not self.lines[-1] or self.rng.random() < 0.85):
            joined += b"\n"
        return joined

    def size(self):
        return sum(map(len, self.lines)) + len(self.lines)

    # One lawful or unlawful line of each kind.

    def place(self):
        rng, n, rows = self.rng, len(self.sheet.text), self.sheet.rows
        row = rng.choice(rows)
        near_start = row.start + rng.randint(-3, 3)  # where rows meet or break otherwise
        near_reach = row.reach + rng.randint(-2, 1)  # where a row is just read or just not
        place = pick(rng, [(15, 0), (20, n), (25, near_start), (15, near_reach), (25, rng.randint(0, n))])
        return max(0, min(n, place))

    def edit(self):
        rng, n = self.rng, len(self.sheet.text)
        at = self.place()
        rest = n - at
        ends = [row.start - at for row in self.sheet.rows if row.start >= at]
        to_row = rng.choice(ends[:3]) if ends else 0
        much = n > 1.3 * self.goal + 20
        deleted = pick(rng, [
            (10 if much else 45, 0), (15, 1), (15, rng.randint(2, 8)), (12, to_row), (4, rest),
            (40 if much else 5, rng.randint(0, rest)),
        ])
        deleted = min(rest, deleted)
        long = max(10, min(300, self.goal // 3))
        length = pick(rng, [
            (40 if deleted else 3, 0), (30, 1), (30, rng.randint(2, 10)), (15, rng.randint(5, 60)),
            (4, rng.randint(0, long)),
        ])
        length = min(length, setter.MOST_CHARACTERS - n + deleted)
        if deleted and rng.random() < 0.05:  # the same characters again
            return replace_line(rng, at, deleted, self.sheet.text[at:at + deleted])
        return replace_line(rng, at, deleted, self.voice.text(rng, length))

    def edit_beyond(self):
        rng, n = self.rng, len(self.sheet.text)
        at = self.place()
        at, deleted = pick(rng, [
            (3, (n + 1, 0)), (2, (n + rng.randint(1, 500), rng.randint(0, 9))), (1, (99999, 99999)),
            (4, (at, n - at + 1)), (2, (at, n - at + rng.randint(1, 900))), (1, (0, 99999)),
        ])
        return replace_line(rng, at, deleted, self.voice.text(rng, rng.randint(0, 9)))

    def edit_uncovered(self):
        rng, at = self.rng, self.place()
        text = self.voice.with_stranger(rng, self.voice.text(rng, rng.choice([0, 1, 5, 40])))
        return replace_line(rng, at, 0, text)

    def edit_full(self):
        """So many characters that one too many stands, or far too many."""
        rng, n = self.rng, len(self.sheet.text)
        at = self.place()
        left = setter.MOST_CHARACTERS - n
        length = min(setter.MOST_CHARACTERS, left + pick(rng, [(3, 1), (1, 2), (1, 500)]))
        return replace_line(rng, at, 0, self.voice.text(rng, length))

    def edit_long(self):
        """A text of about 4,096 characters, or more than any line may have."""
        rng, n = self.rng, len(self.sheet.text)
        length = pick(rng, [(3, 4096), (3, 4097), (1, 4095), (1, 5000)])
        text = self.voice.text(rng, length)
        if rng.random() < 0.5:
            text = text.replace(b"\n", b"\\")  # escapes that make no rows
        return replace_line(rng, 0, n, text)

    def remeasure(self):
        least = len(self.sheet.text) * self.unit // 900 if self.rng.random() < 0.9 else 1
        return b"M " + number(self.rng, some_measure(self.rng, self.unit, least))

    def remeasure_outside(self):
        return b"M " + number(self.rng, self.rng.choice([0, 60001, 60002, 65536, 99999]))

    def row(self):
        rows = len(self.sheet.rows)
        return b"S " + number(self.rng, self.rng.choice([0, rows - 1, self.rng.randrange(rows)]))

    def row_beyond(self):
        rows = len(self.sheet.rows)
        return b"S " + number(self.rng, self.rng.choice([rows, rows, rows + 1, 1024, 99999]))

    def refresh(self):
        return b"F"

    def settle(self):
        return b"P"

    def spoilt(self):
        line = pick(self.rng, [(6, self.edit), (2, self.remeasure), (1, self.refresh), (2, self.row)])()
        return damaged(self.rng, line)

    def usual(self):
        """One line of the usual mix, in which most are accepted."""
        return pick(self.rng, [
            (68, self.edit), (6, self.remeasure), (3, self.refresh), (14, self.row),
            (2, self.row_beyond), (1.5, self.remeasure_outside), (2, self.edit_beyond), (2, self.edit_uncovered),
            (2.5, self.spoilt),
        ])()

    def begin(self):
        """The first text, in one line or in several."""
        left = self.goal
        while left > 0:
            length = min(left, self.rng.choice([left, 40, 500, 4096]))
            self.add(replace_line(self.rng, len(self.sheet.text), 0, self.voice.text(self.rng, length)))
            left -= length

    def run_usual(self, count):
        if self.rng.random() < 0.8:
            self.begin()
        for _ in range(count):
            self.add(self.usual())


# How many characters should stand, and how many lines follow.
GOALS = [(25, (0, 20)), (35, (20, 120)), (28, (120, 600)), (9, (600, 2500)), (3, (2500, 4096))]
COUNTS = [(35, (1, 10)), (50, (10, 40)), (12, (40, 120)), (3, (120, 300))]


def some_goal(rng):
    return rng.randint(*pick(rng, GOALS))


def some_count(rng, goal):
    return rng.randint(*pick(rng, COUNTS if goal < 1000 else COUNTS[:2]))


def some_policy(rng):
    return b"spaces" if rng.random() < 0.65 else b"anywhere"


def some_size(rng):
    return pick(rng, [(5, 500), (1, 1), (1, 2000), (3, rng.randint(100, 900)), (2, rng.randint(1, 2000))])


def some_list_room(rng, said):
    """Room for a list: ample, exactly enough, or running out at the last, the first or some other line."""
    total = sum(map(len, said))
    room = pick(rng, [
        (60, max(total, rng.choice([total + rng.randint(0, 999), 60000, MOST_ROOM]))),
        (15, total),
        (9, total - 1),
        (4, rng.randint(0, len(said[0]) - 1) if said else 0),
        (8, sum(map(len, said[:rng.randint(0, len(said))]))),  # exactly at the end of some line
        (8, rng.randint(0, total)),
    ])
    return max(0, min(MOST_ROOM, room))


# ---------------------------------------------------------------- kinds of cases on cells


def cells_lines(rng, goal, measure=None, room=None):
    size = some_size(rng)
    if measure is None:
        measure = some_measure(rng, size, goal * size // 700)
    policy = some_policy(rng)
    cells = setter.Cells(size)
    sheet = setter.Sheet(cells, setter.POLICIES[policy], measure)
    return Lines(rng, sheet, Voice(rng, cells.covers), size, goal, room), size, measure, policy


def cells_case(rng, lines, size, measure, policy, room=None):
    script = lines.data()
    if room is None:
        room = some_list_room(rng, lines.said)
    return header(rng, b"cells", size, measure, policy, room, len(script)) + script


def usual_cells(rng):
    goal = some_goal(rng)
    lines, *rest = cells_lines(rng, goal)
    lines.run_usual(some_count(rng, goal))
    return cells_case(rng, lines, *rest)


def few_rows_left(rng):
    """Layouts of exactly 1,024 rows, and edits that would make one more."""
    way = rng.choice(["newlines", "letters", "mixed", "remeasure"])
    tiny = way == "letters"
    lines, size, measure, policy = cells_lines(rng, 900, 1 if tiny else None)
    aim = 1024 + rng.choice([-2, -1, 0, 0, 0, 1, 2])
    if way == "newlines":
        text = b"\n" * (aim - 1)
    elif tiny:
        text = bytes(rng.choices(lines.voice.letters, k=aim - rng.randint(0, 1)))
    elif way == "mixed":
        rows = [bytes(rng.choices(lines.voice.letters, k=rng.choice([0, 0, 1]))) for _ in range(aim)]
        text = b"\n".join(rows)
    else:
        text = lines.voice.text(rng, rng.randint(1100, 2500)).replace(b"\n", b"a")
        measure = 60000
        lines.sheet = setter.Sheet(lines.sheet.measurer, lines.sheet.policy, measure)
    half = rng.randint(0, len(text))
    lines.add(replace_line(rng, 0, 0, text[:half]))
    lines.add(replace_line(rng, half if lines.sheet.text else 0, 0, text[half:]))
    lines.goal = len(text)
    lines.voice.style = "lines"
    for _ in range(rng.randint(3, 25)):
        n, rows = len(lines.sheet.text), len(lines.sheet.rows)
        more = b"\n" * max(0, 1024 - rows + rng.choice([0, 0, 1, 1, 5]))
        at = lines.place()
        same = rng.randint(0, min(3, n - at))
        lines.add(pick(rng, [
            (25, replace_line(rng, at, 0, more)),
            (15, replace_line(rng, at, same, b"\n" * same)),
            (15, replace_line(rng, at, same, bytes(rng.choices(lines.voice.letters, k=same)))),
            (15, replace_line(rng, at, same, b"")),
            (10, lines.usual()),
            (10, lines.row()),
            (3, b"S " + rng.choice([b"1023", b"1024"])),
            (7, b"M " + number(rng, rng.choice([1, size, 60000, some_measure(rng, size)]))),
        ]))
    return cells_case(rng, lines, size, measure, policy)


def few_characters_left(rng):
    """About 4,096 characters, and edits that would make one too many."""
    lines, *rest = cells_lines(rng, 4096 - rng.choice([0, 0, 0, 1, 3, 50]))
    if lines.voice.style == "lines":
        lines.voice.style = "prose"  # else the rows run out first
    lines.begin()
    for _ in range(rng.randint(3, 14)):
        left = setter.MOST_CHARACTERS - len(lines.sheet.text)
        at = lines.place()
        deleted = rng.randint(0, min(9, len(lines.sheet.text) - at))
        room = min(setter.MOST_CHARACTERS, left + deleted)
        lines.add(pick(rng, [
            (20, lambda: replace_line(rng, at, deleted, lines.voice.text(rng, room))),
            (15, lambda: replace_line(rng, at, deleted, lines.voice.text(rng, min(4096, room + 1)))),
            (8, lines.edit_full),
            (6, lines.edit_long),
            (20, lines.edit),
            (8, lambda: replace_line(rng, at, deleted, b"")),
            (8, lines.row),
            (8, lines.remeasure),
            (7, lines.usual),
        ])())
    return cells_case(rng, lines, *rest)


def long_script(rng):
    """A script that ends right at, before or behind its limit of 60,000 bytes."""
    lines, *rest = cells_lines(rng, rng.choice([30, 150, 400, 800]))
    lines.begin()
    aim = setter.MOST_SCRIPT + rng.choice([0, 0, 0, -1, -2, 1, 1, 2])
    small = rng.random() < 0.3
    while lines.size() < aim - 5000:
        if small or rng.random() < 0.8:
            lines.add(lines.usual())
        else:  # a long line that keeps the text short
            n = len(lines.sheet.text)
            lines.add(replace_line(rng, 0, n, lines.voice.text(rng, rng.randint(100, 1500))))
    # What is missing is made up by a last line, mostly a lawful one, without a newline or with one.
    script = b"".join(line + b"\n" for line in lines.lines)
    while aim - len(script) > 4000:
        n = len(lines.sheet.text)
        lines.add(replace_line(rng, 0, n, lines.voice.text(rng, 300)))
        script += lines.lines[-1] + b"\n"
    last = b"R 0 0 ".ljust(aim - len(script) - 1, b"x")
    lines.add(last)
    script += last + rng.choice([b"\n", b"x"])
    return header(rng, b"cells", *rest, some_list_room(rng, lines.said), len(script)) + script


def too_long_script(rng):
    lines, *rest = cells_lines(rng, 40)
    lines.run_usual(6)
    part = lines.data() + b"\n"
    length = rng.choice([60001, 60002, 60003, rng.randint(60001, 70000), 99999])
    script = (part * (length // len(part) + 1))[:length]
    room = pick(rng, [(8, rng.choice([60000, 99999, 7])), (1, 7), (1, rng.randint(0, 6))])
    return header(rng, b"cells", *rest, room, len(script)) + script


def many_short_lines(rng):
    """So many short lines that the list is longer than any room."""
    lines, *rest = cells_lines(rng, 0)
    part = [rng.choice([b"F", b"F", b"S 0", b"", b"R 0 0 ", b"M 9", b"S 9"]) for _ in range(50)]
    for line in part * rng.randint(1, 120):
        lines.add(line)
    return cells_case(rng, lines, *rest)


def spoilt_script(rng):
    """Many damaged lines among lawful ones."""
    goal = rng.randint(0, 200)
    lines, *rest = cells_lines(rng, goal)
    lines.begin()
    for _ in range(rng.randint(2, 25)):
        lines.add(lines.spoilt() if rng.random() < 0.45 else lines.usual())
    return cells_case(rng, lines, *rest)


def short_rooms(rng):
    """Lists that run out of room in every way."""
    goal = rng.randint(0, 100)
    lines, *rest = cells_lines(rng, goal)
    lines.run_usual(rng.randint(1, 15))
    total = sum(map(len, lines.said))
    k = rng.randint(0, len(lines.said))
    room = sum(map(len, lines.said[:k])) + rng.choice([-1, 0, 1])
    return cells_case(rng, lines, *rest, room=max(0, min(total + 1, room)))


def outside_measure(rng):
    kind = rng.choice([b"cells", b"calls"])
    measure = rng.choice([0, 60001, 99999])
    script = rng.choice([b"", b"F\n", b"R 0 0 x\nS 0\n"])
    room = rng.choice([0, 500, 60000])
    return header(rng, kind, some_size(rng), measure, some_policy(rng), room, len(script)) + script


def outside_size(rng):
    measure = rng.choice([0, 1, 5000, 60000, 60001])
    script = rng.choice([b"", b"F\n", b"R 0 0 x\nS 0\n"])
    room = rng.choice([0, 500, 60000])
    if rng.random() < 0.5:
        size = rng.choice([0, 2001, 2002, 65537, 99999])
        kind = rng.choice([b"cells", b"calls"])
        return header(rng, kind, size, measure, some_policy(rng), room, len(script)) + script
    tracking = rng.choice([-501, 501, -99999, 99999, -502, 502, 1000])
    font = some_font(rng)
    if rng.random() < 0.3:
        damage(rng, font)
    data = font.data()
    words = [b"font", font.glyph_slots, font.pair_slots, tracking, measure, some_policy(rng), room]
    return header(rng, *words, len(data), len(script)) + data + script


# ---------------------------------------------------------------- calls


def some_calls(rng, lines, count):
    """Changes that are often not settled before the next, and settles that often find nothing."""
    for _ in range(count):
        if lines.sheet.owed is not None:
            line = pick(rng, [
                (60, lines.settle), (12, lines.edit), (4, lines.remeasure), (5, lines.refresh), (12, lines.row),
                (1, lines.edit_beyond), (1, lines.edit_uncovered), (2, lines.remeasure_outside),
                (1, lines.row_beyond), (2, lines.spoilt), (0.5, lines.edit_full),
            ])()
        else:
            line = pick(rng, [(7, lines.settle), (93, lines.usual)])()
        lines.add(line)


def usual_calls(rng):
    goal = some_goal(rng)
    room = rng.choice([0, 1, 2, 5, 10, 20, 60, 4096, 4096, 4096, 60000])
    lines, *rest = cells_lines(rng, goal, room=room)
    if rng.random() < 0.8:
        lines.add(replace_line(rng, 0, 0, lines.voice.text(rng, goal)))
    some_calls(rng, lines, some_count(rng, goal) * 2)
    if lines.sheet.rows and rng.random() < 0.7:
        # A row that just fits, or just does not.
        longest = max(range(len(lines.sheet.rows)), key=lambda k: lines.sheet.rows[k].end - lines.sheet.rows[k].start)
        lines.add(b"S %d" % longest)
    calls = lines.data()
    return header(rng, b"calls", *rest, room, len(calls)) + calls


def short_buffer_calls(rng):
    """Rows shown into a buffer that is about as long as they are."""
    goal = rng.randint(5, 200)
    lines, *rest = cells_lines(rng, goal, room=0)
    text = lines.voice.text(rng, goal)
    shown = setter.Sheet(lines.sheet.measurer, lines.sheet.policy, lines.sheet.measure)
    setter.run_line(shown, replace_line(rng, 0, 0, text))
    longest = max(row.end - row.start for row in shown.rows)
    lines.room = max(0, longest + rng.choice([-3, -1, -1, 0, 0, 1]))
    lines.add(replace_line(rng, 0, 0, text))
    for _ in range(rng.randint(5, 25)):
        if rng.random() < 0.5:
            lines.add(lines.row())
        else:
            some_calls(rng, lines, 1)
    calls = lines.data()
    return header(rng, b"calls", *rest, lines.room, len(calls)) + calls


def long_calls(rng):
    """More bytes of calls than a script may have."""
    lines, *rest = cells_lines(rng, 2000, room=4096)
    while lines.size() < 61000:
        n = len(lines.sheet.text)
        lines.add(replace_line(rng, 0, n, lines.voice.text(rng, rng.randint(500, 4000))))
        some_calls(rng, lines, 5)
    calls = lines.data()[:99999]
    return header(rng, b"calls", *rest, 4096, len(calls)) + calls


# ---------------------------------------------------------------- fonts

NAMES = {32: b"space", 44: b"comma", 45: b"hyphen", 46: b"period", 92: b"backslash"}
SECTIONS = {
    "first": "head", "open glyphs": "glyphs", "close glyphs": "middle", "open pairs": "pairs",
    "close pairs": "tail", "end": "behind",
}
SKIPPED = [
    [], [b"Comment", b"a", b"line"], [b"FontName", b"Trial-Roman"], [b"StartKernData"], [b"Ascender", b"718"],
    [b"C", b"65", b";"], [b"KPX", b"A", b"V"], [b"startcharmetrics", b"3"], [b"StartCharMetrics3"],
    [b"StartTrackKern", b"1"], [b"Notice", b"(c)", b"\xa9"], [b"EndKernData"], [b";"],
    [b"Start", b"CharMetrics", b"2"],
]


class PlannedFont:
    """A font file as a list of [tag, words], to be dressed in bytes at the end; and the slots lent for it."""

    def __init__(self, rng):
        self.rng = rng
        self.lines = []
        self.glyphs = []  # (name, code or None, width)
        self.pairs = []  # (name, name, kern)
        self.glyph_slots = 0
        self.pair_slots = 0
        self.bytes = None  # set where the bytes themselves were damaged
        self.neat = rng.random() < 0.6
        self.line_end = pick(rng, [(7, [b"\n"]), (2, [b"\r\n"]), (1, [b"\n", b"\r\n"])])
        self.last_newline = rng.random() < 0.8

    def dressed(self, words):
        if self.neat or self.rng.random() < 0.5:
            return b" ".join(words)
        blanks = [b" ", b" ", b"  ", b"\t", b" \t "]
        line = b"".join(word + self.rng.choice(blanks) for word in words)
        return self.rng.choice([b"", b" ", b"\t"]) + (line.rstrip(b" \t") if self.rng.random() < 0.5 else line)

    def data(self):
        if self.bytes is None:
            made = b"".join(self.dressed(words) + self.rng.choice(self.line_end) for _, words in self.lines)
            if not self.last_newline and made:
                made = made.rstrip(b"\r\n")
            self.bytes = made[:99999]
        return self.bytes

    def tagged(self, *tags):
        return [k for k, (tag, _) in enumerate(self.lines) if tag in tags]

    def section_before(self, k):
        """The section in which a line would stand that is put before line k."""
        section = None
        for tag, _ in self.lines[:k]:
            section = SECTIONS.get(tag, section)
        return section

    def code(self, name):
        return next((code for known, code, _ in self.glyphs if known == name), None)

    def coded_pairs(self):
        """The pairs that take a slot: (first code, second code, kern)."""
        codes = {name: code for name, code, _ in self.glyphs}
        pairs = [(codes[first], codes[second], kern) for first, second, kern in self.pairs]
        return [pair for pair in pairs if None not in pair]


def glyph_words(name, code, width):
    return [b"C", b"%d" % (-1 if code is None else code), b";", b"WX", b"%d" % width, b";", b"N", name, b";"]


def pair_words(first, second, kern):
    return [b"KPX", first, second, b"%d" % kern]


def some_font(rng, large=False):
    """A lawful font."""
    font = PlannedFont(rng)
    cutting = rng.random() < 0.4  # kerns that cut sums at 0 and at 16,383

    def width():
        if cutting:
            return rng.choice([0, 1, 300, 16000, 16383, rng.randint(0, 16383)])
        return pick(rng, [(9, rng.randint(200, 1000)), (1, 0)])

    def kern():
        if cutting:
            return rng.choice([-16383, 16383, 16383, -300, 400, rng.randint(-16383, 16383)])
        return pick(rng, [(8, rng.randint(-200, 60)), (1, -1200), (1, 0)])

    most = 90 if large else rng.choice([3, 12, 40, 60])
    codes = rng.sample(range(33, 127), rng.randint(0 if rng.random() < 0.1 else 1, most))
    if rng.random() < 0.8:
        codes.append(32)
    codes += rng.sample(range(127, 256), rng.choice([0, 0, 3, 10]))
    codes += rng.sample(range(0, 32), rng.choice([0, 0, 0, 2]))
    if large:
        codes = list(range(256))
    rng.shuffle(codes)
    for code in codes:
        name = NAMES.get(code) or (bytes([code]) if bytes([code]).isalpha() else b"g%d" % code)
        if rng.random() < 0.03:
            name += rng.choice([b"\xe9", b".alt", b"\r", b"\x00", b"'", b"-1", b"/"])
        font.glyphs.append((name, code, width()))
    for k in range(rng.choice([0, 0, 1, 5])):
        font.glyphs.insert(rng.randint(0, len(font.glyphs)), (b"odd%d" % k, None, width()))
    if rng.random() < 0.02 and font.glyphs:
        font.glyphs[0] = (b";", *font.glyphs[0][1:])

    names = [name for name, _, _ in font.glyphs]
    codeless = {name for name, code, _ in font.glyphs if code is None}
    seen = set()
    for _ in range(rng.choice([0, 2, 20, 60, 3000 if large else 30]) if names else 0):
        pair = rng.choice(names), rng.choice(names)
        if pair not in seen or pair[0] in codeless or pair[1] in codeless:  # only a pair without codes may repeat
            font.pairs.append((*pair, kern()))
        seen.add(pair)

    def skipped(tag):
        for _ in range(rng.choice([0, 0, 1, 3])):
            font.lines.append([tag, rng.choice(SKIPPED)])

    def more():
        return rng.choice([[], [], [], [b"L", b"f", b"fi", b";"], [b"B", b"0", b"-9", b"1", b"2", b";"], [b"x"]])

    font.lines.append(["first", [b"StartFontMetrics"] + rng.choice([[b"4.1"], [], [b"2.0", b"x"]])])
    skipped("head")
    font.lines.append(["open glyphs", [b"StartCharMetrics", b"%d" % len(font.glyphs)] + more()])
    for glyph in font.glyphs:
        font.lines.append(["glyph", glyph_words(*glyph) + more()])
        if rng.random() < 0.03:
            font.lines.append(["blank", []])
    font.lines.append(["close glyphs", [b"EndCharMetrics"] + more()])
    skipped("middle")
    if font.pairs or rng.random() < 0.6:
        font.lines.append(["open pairs", [b"StartKernPairs", b"%d" % len(font.pairs)] + more()])
        for pair in font.pairs:
            font.lines.append(["pair", pair_words(*pair) + more()])
            if rng.random() < 0.03:
                font.lines.append(["blank", []])
        font.lines.append(["close pairs", [b"EndKernPairs"] + more()])
        skipped("tail")
    font.lines.append(["end", [b"EndFontMetrics"] + more()])
    if rng.random() < 0.2:
        font.lines.append(["behind", rng.choice([[b"StartFontMetrics"], [b"C", b"65", b";"], [b"EndFontMetrics"]])])
    font.glyph_slots = len(font.glyphs) + rng.choice([0, 0, 1, 500])
    font.pair_slots = len(font.coded_pairs()) + rng.choice([0, 0, 1, 500])
    if rng.random() < 0.2:
        font.glyph_slots = font.pair_slots = pick(rng, [(9, 9999), (1, 99999)])
    return font


# Each damage aims at one refusal number; a few hit another, or none.


def put_line(font, k, words):
    font.lines.insert(k, ["put", words])


def damage_10(rng, font):
    way = rng.randrange(4)
    if way == 0:
        font.lines[0][1] = rng.choice([
            [], [b"startFontMetrics", b"4.1"], [b"StartFontMetric"], [b"Comment"], [b"StartFontMetrics4.1"],
            [b"\xef\xbb\xbfStartFontMetrics"], [b"StartCharMetrics", b"1"], [b"StartFontMetrics\r"],
        ])
        return
    lawful = {
        "head": [b"StartCharMetrics"], "middle": [b"StartKernPairs", b"EndFontMetrics"], "tail": [b"EndFontMetrics"],
        "glyphs": [b"EndCharMetrics", b"C"], "pairs": [b"EndKernPairs", b"KPX"],
    }
    foreign = sorted(setter.SECTION_WORDS)
    entries = [b"Comment", b"CH", b"KPX", b"KP", b"KPY", b"C", b"c", b"kpx", b"EndCharMetric", b";", b"EndKernData"]
    entries.append(b"\r")
    wanted = rng.choice(["head", "middle", "tail", "glyphs", "pairs"])
    spots = [k for k in range(1, len(font.lines)) if font.section_before(k) == wanted]
    if not spots:
        wanted, spots = "glyphs", [k for k in range(1, len(font.lines)) if font.section_before(k) == "glyphs"]
    words = foreign + entries * 2 if wanted in ("glyphs", "pairs") else foreign
    word = rng.choice([word for word in words if word not in lawful[wanted]])
    behind = rng.choice([[], [b"1"], glyph_words(b"q", 65, 9)[1:]])
    put_line(font, rng.choice(spots), [word] + behind)


def damage_11(rng, font):
    tag = rng.choice(["glyph", "glyph", "pair", "pair", "open glyphs", "open pairs"])
    spots = font.tagged(tag) or font.tagged("glyph") or font.tagged("open glyphs")
    line = font.lines[rng.choice(spots)]
    words = line[1] = list(line[1])
    odd = [b"100000", b"000012", b"+1", b"1.5", b"x", b"--1", b"-", b"0x9", b"1-", b"99999", b"-99999", b"1\r"]
    odd.append(b"\xb2")
    if line[0] == "glyph":
        way = rng.randrange(6)
        if way == 0:
            words[1] = rng.choice([b"256", b"-2", rng.choice(odd)])
        elif way == 1:
            words[4] = rng.choice([b"16384", b"-1", rng.choice(odd)])
        elif way == 2:
            k = rng.choice([2, 3, 5, 6, 8])
            words[k] = rng.choice([b"x", b"wx", b"WY", b"W0X", b"n", b":", b";;", b"NN", b"C"])
        elif way == 3:
            del words[rng.randint(1, 8)]
        elif way == 4:
            del words[rng.randint(1, 8):]
        else:
            j, k = rng.sample(range(1, 9), 2)
            words[j], words[k] = words[k], words[j]
    elif line[0] == "pair":
        if rng.random() < 0.7:
            words[3] = rng.choice([b"16384", b"-16384", rng.choice(odd)])
        else:
            del words[rng.randint(1, 3):]
    else:
        del words[1:]
        words += rng.choice([[], [b"10000"], [b"-1"], [rng.choice(odd)], [b";", b"3"]])


def damage_12(rng, font):
    glyphs, pairs = font.tagged("glyph"), font.tagged("pair")
    coded = [k for k in pairs if None not in map(font.code, font.lines[k][1][1:3])]
    if coded and (rng.random() < 0.4 or not glyphs):
        first = rng.choice(coded)
        _, left, right, *_ = font.lines[first][1]
        spots = [k for k in range(first + 1, font.tagged("close pairs")[0] + 1)]
        spot = rng.choice(spots)
        put_line(font, spot, pair_words(left, right, rng.randint(-99, 99)))
        if rng.random() < 0.3:  # the slots are used up as well, but 12 comes first
            font.pair_slots = sum(k < spot for k in coded)
        return
    if not glyphs:
        return
    first = rng.choice(glyphs)
    _, code, _, _, width, _, _, name, *_ = font.lines[first][1]
    new_code = next((c for c in range(256) if c not in {known for _, known, _ in font.glyphs}), None)
    way = rng.randrange(4)
    if way == 0:
        words = list(font.lines[first][1])
    elif way == 1:
        words = glyph_words(name, rng.choice([None, new_code]), rng.randint(0, 999))
    elif way == 2 or code == b"-1":
        words = glyph_words(name, new_code, 500)
    else:
        words = glyph_words(b"quite_new", int(code), 500)
    spot = rng.choice([k for k in range(first + 1, font.tagged("close glyphs")[0] + 1)])
    put_line(font, spot, words)
    if rng.random() < 0.3:
        font.glyph_slots = sum(k < spot for k in glyphs)
    if rng.random() < 0.1:
        words[4] = b"x"  # 11 comes first


def damage_13(rng, font):
    names = [name for name, _, _ in font.glyphs]
    known = rng.choice(names) if names else b"A"
    if not font.tagged("open pairs"):
        end = font.tagged("end")[0]
        font.lines[end:end] = [["open pairs", [b"StartKernPairs", b"1"]], ["close pairs", [b"EndKernPairs"]]]
    unknown = rng.choice([b"/" + known, known + b"x", known.swapcase() + b"_", b"nobody", b";", b"-1", b"65"])
    pair = rng.choice([(known, unknown), (unknown, known), (unknown, unknown), (b"/" + known, b"/" + known)])
    spot = rng.randint(font.tagged("open pairs")[0] + 1, font.tagged("close pairs")[0])
    words = pair_words(*pair, rng.randint(-99, 99))
    if rng.random() < 0.1:
        words[3] = b"?"  # 11 comes first
    put_line(font, spot, words)
    if rng.random() < 0.3:
        font.pair_slots = rng.randint(0, max(1, len(font.coded_pairs())))


def damage_14(rng, font):
    coded = len(font.coded_pairs())
    if coded and rng.random() < 0.5:
        font.pair_slots = rng.choice([0, coded - 1, rng.randrange(coded)])
    elif font.glyphs:
        n = len(font.glyphs)
        font.glyph_slots = rng.choice([0, n - 1, rng.randrange(n)])


def damage_15(rng, font):
    way = pick(rng, [(6, "count"), (3, "over"), (2, "no end"), (3, "end spoilt")])
    if way == "count":
        line = font.lines[rng.choice(font.tagged("open glyphs", "open pairs"))]
        count = int(line[1][1])
        words = line[1] = list(line[1])
        words[1] = b"%d" % max(0, min(9999, rng.choice([count - 1, count + 1, 0, 9999, count + 10])))
        if int(words[1]) == count:
            words[1] = b"%d" % (count + 1)
    elif way == "over":  # at any line, or empty
        del font.lines[rng.randint(0, font.tagged("end")[0]):]
    elif way == "no end":
        del font.lines[font.tagged("end")[0]:]
        font.lines += [["behind", rng.choice(SKIPPED)]] * rng.randint(0, 2)
    else:
        # A return at the very end is dropped only before a newline.
        del font.lines[font.tagged("end")[0] + 1:]
        font.bytes = font.data().rstrip(b" \t\r\n") + rng.choice([b"\r", b"\r", b"x", b"\r\r\n"])


def damage_bytes(rng, font):
    """A few bytes changed, dropped or put in, or lines doubled, dropped or cut."""
    data = bytearray(font.data())
    for _ in range(rng.randint(1, 3)):
        if not data:
            break
        k = rng.randrange(len(data))
        way = rng.randrange(5)
        if way == 0:
            data[k] = rng.choice(b" \t\r\n;C0N9-\xff")
        elif way == 1:
            del data[k]
        elif way == 2:
            data.insert(k, rng.choice(b" \t\r\n;C0N9-\xff"))
        elif way == 3:
            del data[k:]
        else:
            lines = bytes(data).split(b"\n")
            j = rng.randrange(len(lines))
            lines[j:j + 1] = rng.choice([[], [lines[j], lines[j]], [lines[-1]]])
            data = bytearray(b"\n".join(lines))
    font.bytes = bytes(data[:99999])


DAMAGES = [
    (12, damage_10), (10, damage_11), (12, damage_12), (14, damage_13), (11, damage_14), (12, damage_15),
    (5, damage_bytes),
]


def damage(rng, font):
    blow = pick(rng, DAMAGES)
    if blow is not damage_bytes and rng.random() < 0.08:
        # Two faults, the first line at fault decides. These leave the words of the other lines as they are.
        rng.choice([damage_10, damage_13, damage_14])(rng, font)
    blow(rng, font)


def some_tracking(rng):
    return pick(rng, [(4, 0), (4, rng.randint(-60, 60)), (2, rng.randint(-500, 500)), (1, rng.choice([-500, 500]))])


def font_case(rng, font, tracking, measure, policy, room, script):
    data = font.data()
    words = [font.glyph_slots, font.pair_slots, tracking, measure, policy, room, len(data), len(script)]
    return header(rng, b"font", *words) + data + script


def font_script(rng, font):
    """A case with a script that suits a font, which is lawful."""
    entries = [(code, width) for _, code, width in font.glyphs if code is not None]
    pairs = font.coded_pairs()
    tracking = some_tracking(rng)
    measurer = setter.pile(setter.Font(entries, pairs), tracking)
    widths = [width for _, width in entries] or [500]
    unit = max(1, min(5000, sum(widths) // len(widths)))
    goal = some_goal(rng)
    policy = some_policy(rng)
    measure = some_measure(rng, unit, goal * unit // 700)
    sheet = setter.Sheet(measurer, setter.POLICIES[policy], measure)
    voice = Voice(rng, measurer.covers, [pair[:2] for pair in pairs])
    lines = Lines(rng, sheet, voice, unit, goal)
    lines.run_usual(some_count(rng, goal))
    return font_case(rng, font, tracking, measure, policy, some_list_room(rng, lines.said), lines.data())


def lawful_font(rng):
    return font_script(rng, some_font(rng))


def large_font(rng):
    return font_script(rng, some_font(rng, large=True))


def damaged_font(rng):
    font = some_font(rng)
    damage(rng, font)
    script = rng.choice([b"", b"F\n", b"R 0 0 ab\nS 0\n", b"R 0 0 To a\\nb\nM 900\nS 1\nR 1 2 x y\n"])
    room = rng.choice([0, 500, 60000])
    return font_case(rng, font, some_tracking(rng), some_measure(rng, 500), some_policy(rng), room, script)


# ---------------------------------------------------------------- the mix

KINDS = [
    (13, usual_cells),
    (5, few_rows_left),
    (4, few_characters_left),
    (0.7, long_script),
    (0.7, too_long_script),
    (0.3, many_short_lines),
    (3, spoilt_script),
    (3, short_rooms),
    (1.5, outside_measure),
    (6, outside_size),
    (13, usual_calls),
    (5, short_buffer_calls),
    (0.3, long_calls),
    (20, lawful_font),
    (0.5, large_font),
    (34, damaged_font),
]


def unreadable_tail(rng):
    """Bytes that end a run: a header that reads otherwise, or a case whose bytes are over too early."""
    kind, rest = rng.choice([
        (b"cells", b"500 5000 spaces 60000 2"), (b"calls", b"500 5000 anywhere 10 2"),
        (b"font", b"9 9 -1 5000 spaces 60000 0 2"),
    ])
    lawful = kind + b" " + rest
    return rng.choice([
        lawful + b"\nF",
        lawful,
        lawful + b"\r\nF\n",
        lawful + b" \nF\n",
        b" " + lawful + b"\nF\n",
        b"\n" + lawful + b"\nF\n",
        lawful.replace(b" ", b"  ", 1) + b"\nF\n",
        lawful.replace(b"5000", b"-5000") + b"\nF\n",
        lawful.replace(b"5000", b"050000") + b"\nF\n",
        lawful.replace(b"spaces", b"space").replace(b"anywhere", b"Anywhere") + b"\nF\n",
        lawful.replace(b" 5000", b"") + b"\nF\n",
        kind.upper() + b" " + rest + b"\nF\n",
        b"x\n",
        b"\n",
    ])


def main():
    seed, count, *first = map(int, sys.argv[1:])
    first = first[0] if first else 1
    for k in range(first, first + count):
        sys.stdout.buffer.write(case(seed, k))


if __name__ == "__main__":
    main()
