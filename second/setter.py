"""Sets text in rows by first fit: measurers, policies, the clean sheet, font files, scripts and their lists."""

import re
from typing import NamedTuple

NEWLINE = 10
SPACE = 32
MOST_CHARACTERS = 4096
MOST_ROWS = 1024
MOST_ADVANCE = 16383
MOST_DEPTH = 255
MOST_SCRIPT = 60000


class Refusal(Exception):
    """A refused call: its number, and what else it tells."""

    def __init__(self, number, *tells):
        super().__init__(number, *tells)
        self.number = number
        self.tells = tells


def cut(advance):
    return max(0, min(MOST_ADVANCE, advance))


# ---------------------------------------------------------------- measurers
#
# A measurer has covers(c), advance(p, c) for a covered c, and depth(c) for an uncovered one.
# The predecessor p is None at a row's start.


class Cells:
    def __init__(self, size):
        if not 1 <= size <= 2000:
            raise Refusal(17)
        self.size = size

    def covers(self, c):
        return 32 <= c <= 126

    def advance(self, p, c):
        return self.size

    def depth(self, c):
        return 0


class Font:
    """A font from its entries: (code, width) and (first, second, kern), all by code."""

    def __init__(self, glyphs, pairs):
        self.widths = {}
        self.kerns = {}
        for code, width in glyphs:
            self.widths.setdefault(code, min(MOST_ADVANCE, width))  # the first entry counts
        for first, second, kern in pairs:
            self.kerns.setdefault((first, second), kern)

    def covers(self, c):
        return c in self.widths

    def advance(self, p, c):
        if p is None:
            return self.widths[c]
        return cut(self.widths[c] + self.kerns.get((p, c), 0))

    def depth(self, c):
        return 0


class Tracking:
    def __init__(self, units, below):
        if not -500 <= units <= 500:
            raise Refusal(17)
        self.units = units
        self.below = below

    def covers(self, c):
        return self.below.covers(c)

    def advance(self, p, c):
        advance = self.below.advance(p, c)
        return advance if p is None else cut(advance + self.units)

    def depth(self, c):
        return min(MOST_DEPTH, self.below.depth(c) + 1)


class Fallback:
    def __init__(self, first, second):
        self.first = first
        self.second = second

    def owner(self, c):
        return self.first if self.first.covers(c) else self.second

    def covers(self, c):
        return self.owner(c).covers(c)

    def advance(self, p, c):
        owner = self.owner(c)
        if p is not None and self.owner(p) is not owner:
            p = None
        return owner.advance(p, c)

    def depth(self, c):
        return min(MOST_DEPTH, self.second.depth(c) + 1)


class Cache:
    """The advance cache. What it holds cannot be seen from above, so it holds nothing; it counts as a layer."""

    def __init__(self, below):
        self.below = below

    def covers(self, c):
        return self.below.covers(c)

    def advance(self, p, c):
        return self.below.advance(p, c)

    def depth(self, c):
        return min(MOST_DEPTH, self.below.depth(c) + 1)


def pile(font, tracking):
    return Cache(Tracking(tracking, Fallback(font, Cells(500))))


class Advances(dict):
    """The advances of a measurer by (p, c), each asked for once; only to be fast."""

    def __init__(self, measurer):
        super().__init__()
        self.measurer = measurer

    def __missing__(self, pair):
        advance = self[pair] = self.measurer.advance(*pair)
        return advance


# ---------------------------------------------------------------- policies


class Spaces:
    def may(self, p, c):
        return p == SPACE and c != SPACE

    def hangs(self, c):
        return c == SPACE


class Anywhere:
    def may(self, p, c):
        return True

    def hangs(self, c):
        return False


POLICIES = {b"spaces": Spaces(), b"anywhere": Anywhere()}


# ---------------------------------------------------------------- rows by first fit


class Row(NamedTuple):
    start: int
    end: int
    ending: str
    width: int
    reach: int


def row_at(text, s, measure, advances, policy):
    """The row that starts at s. `advances` maps (p, c) to Adv(p, c)."""
    n = len(text)
    q = text.find(NEWLINE, s)
    if q < 0:
        q = n

    # The smallest o for which [s, o+1) does not fit. A part whose last character hangs is no wider than the
    # part before it, which fits, so only a character that does not hang can be at o.
    edges = []
    edge = 0
    p = None
    o = None
    for i in range(s, q):
        c = text[i]
        edge += advances[p, c]
        edges.append(edge)
        if edge > measure and not policy.hangs(c):
            o = i
            break
        p = c

    if o is None:
        end, reach = q, q + 1
    else:
        end = next((e for e in range(o, s, -1) if policy.may(text[e - 1], text[e])), None)
        if end is not None:
            ending = "W"
        else:
            end = max(o, s + 1)  # the first character is taken even where it alone does not fit
            ending = "C"
        reach = max(o, end) + 1
    if end == q:
        ending = "E" if q == n else "N"

    last = end
    while last > s and policy.hangs(text[last - 1]):
        last -= 1
    width = edges[last - s - 1] if last > s else 0
    return Row(s, end, ending, width, reach)


def lay(text, measure, advances, policy):
    """All rows of a text; more than 1,024 are refused."""
    rows = []
    s = 0
    while True:
        if len(rows) == MOST_ROWS:
            raise Refusal(5)
        row = row_at(text, s, measure, advances, policy)
        rows.append(row)
        if row.ending == "E":
            return rows
        s = row.end + 1 if row.ending == "N" else row.end


# ---------------------------------------------------------------- records


class Record(NamedTuple):
    whole: int
    start: int  # `from` in the rules, a word that Python keeps for itself
    removed: int
    put: int
    broken: int


def first_reached(old, at):
    """r: the first old row whose reach exceeds `at`."""
    return next(k for k, row in enumerate(old) if row.reach > at)


def meeting_row(old, new, at, deleted, inserted):
    """m: the first new row behind the insertion that starts where an old row did."""
    starts = {row.start for row in old}
    for k, row in enumerate(new):
        if row.start >= at + inserted and row.start - inserted + deleted in starts:
            return k
    return len(new)


def edit_record(old, new, at, deleted, inserted):
    r = first_reached(old, at)
    m = meeting_row(old, new, at, deleted, inserted)
    front = 0
    for before, after in zip(old, new):
        if before[:3] != after[:3] or before.end > at:  # [:3] is start, end and ending
            break
        front += 1
    back = min(len(new) - m, len(new) - front, len(old) - front)
    return Record(0, front, len(old) - front - back, len(new) - front - back, m - r)


# ---------------------------------------------------------------- the clean sheet


def make_measure(number):
    if not 1 <= number <= 60000:
        raise Refusal(6)
    return number


class Sheet:
    """The clean sheet: each accepted change lays all rows anew; a refused call changes nothing."""

    def __init__(self, measurer, policy, measure):
        self.measurer = measurer
        self.advances = Advances(measurer)
        self.policy = policy
        self.measure = measure
        self.text = b""
        self.owed = None
        self.rows = self.laid(self.text, measure)

    def laid(self, text, measure):
        return lay(text, measure, self.advances, self.policy)

    def replace(self, at, deleted, insertion):
        if self.owed is not None:
            raise Refusal(1)
        if at > len(self.text) or deleted > len(self.text) - at:
            raise Refusal(2)
        if len(self.text) - deleted + len(insertion) > MOST_CHARACTERS:
            raise Refusal(3)
        for offset, c in enumerate(insertion):
            if c != NEWLINE and not self.measurer.covers(c):
                raise Refusal(4, offset, c, self.measurer.depth(c))
        text = self.text[:at] + insertion + self.text[at + deleted:]
        rows = self.laid(text, self.measure)
        self.owed = edit_record(self.rows, rows, at, deleted, len(insertion))
        self.text, self.rows = text, rows

    def remeasure(self, measure):
        if self.owed is not None:
            raise Refusal(1)
        rows = self.laid(self.text, measure)
        self.owed = Record(1, 0, len(self.rows), len(rows), len(rows))
        self.measure, self.rows = measure, rows

    def refresh(self):
        self.owed = Record(1, 0, len(self.rows), len(self.rows), 0)

    def settle(self):
        if self.owed is None:
            raise Refusal(7)
        record, self.owed = self.owed, None
        return record

    def row(self, number, room):
        """The row of that number and its characters, which must fit into `room`."""
        if number >= len(self.rows):
            raise Refusal(8)
        row = self.rows[number]
        if row.end - row.start > room:
            raise Refusal(9)
        return row, self.text[row.start:row.end]


# ---------------------------------------------------------------- lines


def split_lines(data):
    """The lines of some bytes: each ends at code 10 or, if not empty, at the end."""
    lines = data.split(b"\n")
    if not lines[-1]:
        lines.pop()
    return lines


# ---------------------------------------------------------------- font files

FONT_NUMBER = re.compile(rb"-?[0-9]{1,5}")
SECTION_WORDS = {
    b"StartFontMetrics",
    b"StartCharMetrics",
    b"EndCharMetrics",
    b"StartKernPairs",
    b"EndKernPairs",
    b"EndFontMetrics",
}


def font_lines(data):
    """The lines of a font file: a code 13 right before the code 10 is dropped."""
    ended = data.count(b"\n")  # only so many lines end at a code 10
    lines = split_lines(data)
    return [line[:-1] if k < ended and line.endswith(b"\r") else line for k, line in enumerate(lines)]


def words_of(line):
    return [word for word in re.split(rb"[ \t]+", line) if word]


class FontReader:
    """Reads a font file line by line into two lists that have only so many slots."""

    def __init__(self, glyph_slots, pair_slots):
        self.glyph_slots = glyph_slots
        self.pair_slots = pair_slots
        self.glyphs = []  # (name, code or None, width)
        self.pairs = []  # (first code, second code, kern)
        self.codes = {}  # the code, or None, by name
        self.taken_codes = set()
        self.taken_pairs = set()
        self.section = "start"
        self.count = 0  # what the opening word announced
        self.entries = 0  # entry lines of the section so far

    def read(self, data):
        lines = font_lines(data)
        for number, line in enumerate(lines, 1):
            try:
                self.line(words_of(line))
            except Refusal as refusal:
                raise Refusal(refusal.number, number)
            if self.section == "over":
                return Font([(code, width) for _, code, width in self.glyphs if code is not None], self.pairs)
        raise Refusal(15, len(lines) + 1)

    def line(self, words):
        first = words[0] if words else None
        if self.section == "start":
            if first != b"StartFontMetrics":
                raise Refusal(10)
            self.section = "head"
        elif self.section == "glyphs":
            if first == b"C":
                self.glyph(words)
            elif first == b"EndCharMetrics":
                self.close("middle")
            elif first is not None:
                raise Refusal(10)
        elif self.section == "pairs":
            if first == b"KPX":
                self.pair(words)
            elif first == b"EndKernPairs":
                self.close("tail")
            elif first is not None:
                raise Refusal(10)
        elif self.section == "head" and first == b"StartCharMetrics":
            self.open("glyphs", words)
        elif self.section == "middle" and first == b"StartKernPairs":
            self.open("pairs", words)
        elif self.section in ("middle", "tail") and first == b"EndFontMetrics":
            self.section = "over"
        elif first in SECTION_WORDS:
            raise Refusal(10)

    def word(self, words, k):
        if k >= len(words):
            raise Refusal(11)
        return words[k]

    def number(self, words, k, least, most):
        word = self.word(words, k)
        if not FONT_NUMBER.fullmatch(word) or not least <= int(word) <= most:
            raise Refusal(11)
        return int(word)

    def open(self, section, words):
        self.count = self.number(words, 1, 0, 9999)
        self.entries = 0
        self.section = section

    def close(self, section):
        if self.entries != self.count:
            raise Refusal(15)
        self.section = section

    def glyph(self, words):
        # C code ; WX width ; N name ;
        for k, literal in (2, b";"), (3, b"WX"), (5, b";"), (6, b"N"), (8, b";"):
            if self.word(words, k) != literal:
                raise Refusal(11)
        code = self.number(words, 1, -1, 255)
        width = self.number(words, 4, 0, MOST_ADVANCE)
        name = words[7]
        if code == -1:
            code = None
        if name in self.codes or code in self.taken_codes:
            raise Refusal(12)
        if len(self.glyphs) >= self.glyph_slots:
            raise Refusal(14)
        self.glyphs.append((name, code, width))
        self.codes[name] = code
        if code is not None:
            self.taken_codes.add(code)
        self.entries += 1

    def pair(self, words):
        # KPX first second kern
        first = self.word(words, 1)
        second = self.word(words, 2)
        kern = self.number(words, 3, -MOST_ADVANCE, MOST_ADVANCE)
        if (first, second) in self.taken_pairs:
            raise Refusal(12)
        if first not in self.codes or second not in self.codes:
            raise Refusal(13)
        codes = self.codes[first], self.codes[second]
        if None not in codes:  # a pair without codes is only checked
            if len(self.pairs) >= self.pair_slots:
                raise Refusal(14)
            self.pairs.append((*codes, kern))
            self.taken_pairs.add((first, second))
        self.entries += 1


def read_font(data, glyph_slots, pair_slots):
    return FontReader(glyph_slots, pair_slots).read(data)


# ---------------------------------------------------------------- scripts and lists

COMMAND = re.compile(
    rb"R (?P<at>[0-9]{1,5}) (?P<deleted>[0-9]{1,5}) (?P<text>.*)"
    rb"|M (?P<measure>[0-9]{1,5})"
    rb"|F"
    rb"|S (?P<row>[0-9]{1,5})",
    re.DOTALL,
)
ESCAPED_TEXT = re.compile(rb"(?:[^\\]|\\n|\\\\)*", re.DOTALL)


def unescape(escaped):
    """The text that stands in an R line."""
    if not ESCAPED_TEXT.fullmatch(escaped):
        raise Refusal(16)
    text = re.sub(rb"\\(.)", lambda m: b"\n" if m[1] == b"n" else b"\\", escaped, flags=re.DOTALL)
    if len(text) > MOST_CHARACTERS:
        raise Refusal(16)
    return text


def read_command(line):
    """A script's line as a letter and its arguments; a line that is no command is refused."""
    found = COMMAND.fullmatch(line)
    if not found:
        raise Refusal(16)
    letter = line[:1]
    if letter == b"R":
        return letter, int(found["at"]), int(found["deleted"]), unescape(found["text"])
    if letter == b"M":
        return letter, int(found["measure"])
    if letter == b"S":
        return letter, int(found["row"])
    return (letter,)


def change(sheet, letter, arguments):
    """Carries out R, M or F; the record is then owed."""
    if letter == b"R":
        sheet.replace(*arguments)
    elif letter == b"M":
        sheet.remeasure(make_measure(*arguments))
    else:
        sheet.refresh()


def numbers(*values):
    return " ".join(map(str, values)).encode()


def refused(refusal):
    return b"! " + numbers(refusal.number, *refusal.tells)


def shown(row):
    return b"= " + numbers(*row)


def settled(sheet):
    return numbers(*sheet.settle(), len(sheet.rows))


def run_line(sheet, line):
    """Runs one line of a script; what the list says of it, without its number and the code 10."""
    try:
        letter, *arguments = read_command(line)
        if letter == b"S":
            row, _ = sheet.row(*arguments, MOST_CHARACTERS)
            return shown(row)
        change(sheet, letter, arguments)
        return settled(sheet)
    except Refusal as refusal:
        return refused(refusal)


def call_line(sheet, line, room):
    """Runs one line of calls, in which nothing is settled but by P."""
    try:
        if line == b"P":
            return settled(sheet)
        letter, *arguments = read_command(line)
        if letter == b"S":
            row, characters = sheet.row(*arguments, room)
            return shown(row) + b" " + characters
        change(sheet, letter, arguments)
        return b"accepted " + numbers(len(sheet.rows))
    except Refusal as refusal:
        return refused(refusal)


def numbered(k, said):
    return b"%d %s\n" % (k, said)


def list_lines(sheet, script):
    """Runs a script and gives, one by one, the numbers and lines of its list."""
    if len(script) > MOST_SCRIPT:
        yield 0, numbered(0, refused(Refusal(16)))
        return
    for k, line in enumerate(split_lines(script), 1):
        yield k, numbered(k, run_line(sheet, line))


def run_script(sheet, script, room):
    """The list in a buffer of `room` bytes, and the line where the room ran out or None."""
    written = []
    left = room
    for k, line in list_lines(sheet, script):
        if len(line) > left:
            return b"".join(written), k
        written.append(line)
        left -= len(line)
    return b"".join(written), None


def run_calls(sheet, calls, room):
    """What is printed for lines of calls; `room` is the buffer of S."""
    return b"".join(numbered(k, call_line(sheet, line, room)) for k, line in enumerate(split_lines(calls), 1))
