"""Checks setter.py and trials.py against the worked cases of the rules and against the rules taken literally."""

import itertools
import random

import setter
import trials
from setter import Cells, Fallback, Font, Refusal, Row, Sheet, Tracking

SPACES = setter.POLICIES[b"spaces"]
ANYWHERE = setter.POLICIES[b"anywhere"]

# Space 100, a 600, b 1200, c 300, and b after a space 1200 less.
KERNED = Font([(32, 100), (97, 600), (98, 1200), (99, 300)], [(32, 98, -1200)])


def sheet_of(text, measure=5000, policy=SPACES, measurer=None):
    sheet = Sheet(measurer or Cells(500), policy, measure)
    if text:
        sheet.replace(0, 0, text)
        sheet.settle()
    return sheet


def rows_of(text, *rest):
    return "; ".join(" ".join(map(str, row)) for row in sheet_of(text, *rest).rows)


def refusal_of(call, *arguments):
    try:
        call(*arguments)
    except Refusal as refusal:
        return (refusal.number, *refusal.tells)
    return None


def test_worked_labels():
    assert rows_of(b"") == "0 0 E 0 1"
    assert rows_of(b"abcdefghij") == "0 10 E 5000 11"
    assert rows_of(b"abcdefghijk") == "0 10 C 5000 11; 10 11 E 500 12"
    assert rows_of(b"abcdefghij  ") == "0 12 E 5000 13"
    assert rows_of(b"ab", 499) == "0 1 C 500 2; 1 2 E 500 3"
    assert rows_of(b"\n") == "0 0 N 0 1; 1 1 E 0 2"
    assert rows_of(b"the red ink") == "0 8 W 3500 11; 8 11 E 1500 12"
    assert rows_of(b"the red ink", 5000, ANYWHERE) == "0 10 W 5000 11; 10 11 E 500 12"
    assert len(sheet_of(b"\n" * 1023).rows) == 1024
    assert refusal_of(sheet_of, b"\n" * 1024) == (5,)
    assert rows_of(b"a bcc", 1000, SPACES, KERNED) == "0 2 W 600 5; 2 3 C 1200 4; 3 5 E 600 6"


def test_worked_edits():
    def edited(sheet, at, deleted, insertion):
        sheet.replace(at, deleted, insertion)
        rows = "; ".join(" ".join(map(str, row)) for row in sheet.rows)
        return rows, " ".join(map(str, sheet.settle()))

    kerned = sheet_of(b"a bcc", 1000, SPACES, KERNED)
    assert edited(kerned, 4, 1, b"") == ("0 4 E 1000 5", "0 0 3 1 1")
    assert edited(sheet_of(b""), 0, 0, b"the red ink") == ("0 8 W 3500 11; 8 11 E 1500 12", "0 0 1 2 2")
    assert edited(sheet_of(b"the red ink", 4000), 4, 4, b"") == ("0 7 E 3500 8", "0 0 2 1 1")
    assert edited(sheet_of(b"the ink", 4000), 0, 0, b"a\n") == ("0 1 N 500 2; 2 9 E 3500 10", "0 0 0 1 1")


WORKED_SCRIPT = b"R 0 0 the red ink\nM 4000\nR 4 4 \nR 9 0 z\nR 0 0 a\\n\nS 1\n"
WORKED_LIST = b"1 0 0 1 2 2 2\n2 1 0 2 2 2 2\n3 0 0 2 1 1 1\n4 ! 2\n5 0 0 0 1 1 2\n6 = 2 9 E 3500 10\n"


def test_worked_script():
    assert setter.run_script(sheet_of(b""), WORKED_SCRIPT, 60000) == (WORKED_LIST, None)
    assert setter.run_script(sheet_of(b""), WORKED_SCRIPT[:-1], 60000) == (WORKED_LIST, None)
    # The room: exactly enough, one too few, none.
    assert setter.run_script(sheet_of(b""), WORKED_SCRIPT, len(WORKED_LIST)) == (WORKED_LIST, None)
    short = WORKED_LIST[:WORKED_LIST.index(b"6 =")]
    assert setter.run_script(sheet_of(b""), WORKED_SCRIPT, len(WORKED_LIST) - 1) == (short, 6)
    assert setter.run_script(sheet_of(b""), WORKED_SCRIPT, 0) == (b"", 1)


def test_script_limits():
    assert setter.run_script(sheet_of(b""), b"F\n" * 30000, 13) == (b"", 1)
    assert setter.run_script(sheet_of(b""), b"F\n" * 30000 + b"F", 7) == (b"0 ! 16\n", None)
    assert setter.run_script(sheet_of(b""), b"F\n" * 30000 + b"F", 6) == (b"", 0)
    sheet = sheet_of(b"")
    most = b"R 0 0 " + b"\\\\" * 4096
    assert setter.run_line(sheet, most) == b"0 0 1 410 410 410"
    assert setter.run_line(sheet, most + b"x") == b"! 16"
    assert setter.run_line(sheet, b"R 4096 0 x") == b"! 3"
    assert setter.run_line(sheet, b"R 4095 1 x") == b"0 409 1 1 1 410"


def test_lines_of_scripts():
    def said(line):
        return setter.run_line(sheet_of(b"the red ink"), line)

    no_commands = [
        b"", b"f", b"F ", b" F", b"FF", b"F\r", b"P", b"R", b"R ", b"R 0", b"R 0 0", b"R 0 0\tx", b"R  0 0 x",
        b"R 0  0 x", b"R -1 0 x", b"R 000000 0 x", b"R 0 000000 x", b"R 0 0 \\", b"R 0 0 \\x", b"R 0 0 \\\\\\",
        b"M", b"M ", b"M 5000 ", b"M 5000\r", b"M +5000", b"M 100000", b"S", b"S 1 ", b"S 000001", b"\xff",
    ]
    for line in no_commands:
        assert said(line) == b"! 16", line
    assert said(b"R 12 0 x") == b"! 2"
    assert said(b"R 11 1 ") == b"! 2"
    assert said(b"R 00011 00000 ") == b"0 2 0 0 1 2"
    assert said(b"R 0 0 x\r") == b"! 4 1 13 0"
    assert said(b"R 0 0 \\n\xff") == b"! 4 1 255 0"
    assert said(b"M 0") == said(b"M 60001") == said(b"M 99999") == b"! 6"
    assert said(b"M 60000") == b"1 0 2 1 1 1"
    assert said(b"F") == b"1 0 2 2 0 2"
    assert said(b"S 2") == b"! 8"
    assert said(b"S 00001") == b"= 8 11 E 1500 12"


def test_calls():
    sheet = sheet_of(b"")
    said = [setter.call_line(sheet, line, 3) for line in [
        b"P", b"R 0 0 abc", b"R 9 9 x", b"M 0", b"M 9", b"S 0", b"F", b"P", b"P", b"R 3 0 d", b"S 0", b"S 1", b"P ",
    ]]
    assert said == [
        b"! 7", b"accepted 1", b"! 1", b"! 6", b"! 1", b"= 0 3 E 1500 4 abc", b"accepted 1", b"1 0 1 1 0 1", b"! 7",
        b"accepted 1", b"! 9", b"! 8", b"! 16",
    ]


def test_measurers():
    font = Font([(65, 100), (66, 16000), (65, 7), (67, 99999)], [(65, 66, 500), (66, 65, -500), (65, 66, 1)])
    assert font.advance(None, 65) == 100 and font.advance(67, 65) == 100
    assert font.advance(65, 66) == 16383 and font.advance(66, 65) == 0 and font.advance(None, 67) == 16383
    over = Fallback(font, Cells(500))
    assert over.advance(65, 66) == 16383 and over.advance(97, 66) == 16000 and over.advance(65, 97) == 500
    tracked = Tracking(-200, over)
    assert tracked.advance(None, 65) == 100 and tracked.advance(97, 65) == 0 and tracked.advance(65, 97) == 300
    assert setter.pile(font, 0).depth(200) == 3 and not setter.pile(font, 0).covers(200)
    assert refusal_of(Cells, 0) == refusal_of(Cells, 2001) == refusal_of(Tracking, 501, font) == (17,)


FONT = b"""StartFontMetrics 4.1
Comment the head
StartCharMetrics 3
C 84 ; WX 600 ; N T ; B 0 0 1 1 ;
C 97\t;  WX 540 ; N a ;\r

C -1 ; WX 1 ; N odd ;
EndCharMetrics
StartKernData
StartKernPairs 3
KPX T a -90
KPX T odd -90
KPX T odd -90
EndKernPairs
EndKernData
EndFontMetrics
C 5
"""


def test_fonts():
    def read(data, glyphs=9, pairs=9):
        return refusal_of(setter.read_font, data, glyphs, pairs)

    def swapped(old, new):
        assert old in FONT
        return read(FONT.replace(old, new, 1))

    font = setter.read_font(FONT, 3, 1)
    assert font.widths == {84: 600, 97: 540} and font.kerns == {(84, 97): -90}
    assert read(b"") == (15, 1)
    assert read(b"\n") == (10, 1)
    assert read(b"StartFontMetrics") == (15, 2)
    assert read(FONT, 2) == (14, 7) and read(FONT, 3, 0) == (14, 11)
    assert swapped(b"Comment", b"EndFontMetrics") == (10, 2)
    assert swapped(b"Comment", b"StartFontMetrics") == (10, 2)
    assert swapped(b"\n\n", b"\nComment\n") == (10, 6)
    assert swapped(b"StartKernData", b"EndCharMetrics") == (10, 9)
    assert swapped(b"EndKernData", b"StartKernPairs 0") == (10, 15)
    assert swapped(b"540", b"16384") == (11, 5) and swapped(b"97", b"256") == (11, 5)
    assert swapped(b"-1 ;", b"-2 ;") == (11, 7) and swapped(b"Metrics 3", b"Metrics") == (11, 3)
    assert swapped(b"C 97", b"C 84") == (12, 5) and swapped(b"N odd", b"N T") == (12, 7)
    assert swapped(b"T odd", b"T a") == (12, 12)
    assert swapped(b"KPX T a", b"KPX /T /a") == (13, 11)
    assert swapped(b"Metrics 3", b"Metrics 4") == (15, 8) and swapped(b"Pairs 3", b"Pairs 2") == (15, 14)
    assert swapped(b"EndFontMetrics", b"EndFont") == (15, 18)
    assert read(FONT[:FONT.index(b"EndFontMetrics") + 14]) is None
    assert read(FONT[:FONT.index(b"EndFontMetrics") + 14] + b"\r") == (15, 17)


def test_trials():
    def outcomes(data):
        return b"".join(trials.outcomes(data))

    assert outcomes(b"") == b""
    assert outcomes(b"cells 0 0 spaces 0 0\n") == b"case 1\n17\n"
    assert outcomes(b"cells 1 0 spaces 0 0\ncalls 1 1 anywhere 0 2\nF\n") == b"case 1\n6\ncase 2\n1 accepted 1\n"
    assert outcomes(b"font 0 0 -501 0 spaces 0 0 0\n") == b"case 1\n17\n"
    assert outcomes(b"font 0 0 -500 60001 spaces 0 0 0\n") == b"case 1\n6\n"
    assert outcomes(b"font 0 0 -500 60000 spaces 0 0 0\n") == b"case 1\n15 1\n"
    assert outcomes(b"cells 1 1 spaces 0 2\nF\n") == b"case 1\n9 1\n"
    for header in b"cells 1 1 spaces 0 1\n", b"cells 1 1 spaces 0 0", b"cells 1 1 Spaces 0 0\n", b"\n":
        assert outcomes(header) == b"case 1: unreadable\n", header


# ---------------------------------------------------------------- the rules, literally


def literal_row(text, s, measure, measurer, policy):
    """A row exactly as the rules state it, with nothing shared between the steps."""

    def width(e):
        while e > s and policy.hangs(text[e - 1]):
            e -= 1
        return sum(measurer.advance(text[i - 1] if i > s else None, text[i]) for i in range(s, e))

    q = next((i for i in range(s, len(text)) if text[i] == 10), len(text))
    at_q = "N" if q < len(text) else "E"
    over = [o for o in range(s, q) if width(o + 1) > measure]
    if not over:
        return Row(s, q, at_q, width(q), q + 1)
    o = min(over)
    places = [e for e in range(s + 1, o + 1) if policy.may(text[e - 1], text[e])]
    if places:
        end, ending = max(places), "W"
    elif o > s:
        end, ending = o, "C"
    else:
        end, ending = s + 1, "C" if s + 1 < q else at_q
    return Row(s, end, ending, width(end), max(o, end) + 1)


def shown_row(sheet, row):
    """What a screen shows of a row: its characters, the edge behind each, and its ending."""
    characters = sheet.text[row.start:row.end]
    advances = (sheet.measurer.advance(p, c) for p, c in zip((None, *characters), characters))
    return characters, list(itertools.accumulate(advances)), row.ending


def test_rows_and_records_at_random():
    rng = random.Random(20)
    for _ in range(300):
        font = Font(
            [(c, rng.choice([0, 100, 300, 900])) for c in b" abc\\" if rng.random() < 0.8],
            [(p, c, rng.choice([-900, -300, 200, 16383])) for p in b" abc" for c in b" abc" if rng.random() < 0.3],
        )
        measurer = setter.pile(font, rng.choice([-500, -100, 0, 0, 50, 500]))
        policy = rng.choice([SPACES, ANYWHERE])
        sheet = Sheet(measurer, policy, rng.choice([1, 500, 1000, 3000]))
        screen = [(b"", [], "E")]
        for _ in range(12):
            n = len(sheet.text)
            at = rng.randint(0, n)
            deleted = rng.choice([0, rng.randint(0, n - at)])
            insertion = bytes(rng.choice(b"  aaabbcd\n") for _ in range(rng.choice([0, 1, 3, 20])))
            old = sheet.rows
            sheet.replace(at, deleted, insertion)
            record = sheet.settle()

            # The rows are those of the literal relation.
            rows, s = [], 0
            while not rows or rows[-1].ending != "E":
                rows.append(literal_row(sheet.text, s, sheet.measure, measurer, policy))
                s = rows[-1].end + (rows[-1].ending == "N")
            assert rows == sheet.rows

            # Rows before r stay; from the meeting row on they are the old ones, moved.
            moved = len(insertion) - deleted
            r = setter.first_reached(old, at)
            m = setter.meeting_row(old, rows, at, deleted, len(insertion))
            assert r <= m and rows[:r] == old[:r]
            rest = rows[m:]
            assert not rest or rest == [
                Row(row.start + moved, row.end + moved, row.ending, row.width, row.reach + moved)
                for row in old[-len(rest):]
            ]

            # A screen that follows the record shows the sheet's rows.
            front, removed, put = record.start, record.removed, record.put
            screen[front:front + removed] = [shown_row(sheet, row) for row in rows[front:front + put]]
            assert screen == [shown_row(sheet, row) for row in rows]


if __name__ == "__main__":
    tests = [test for name, test in list(globals().items()) if name.startswith("test_")]
    for test in tests:
        test()
        print(test.__name__, "holds")
