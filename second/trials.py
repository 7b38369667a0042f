"""Runs the cases on standard input and prints what came of each: python3 trials.py < cases > outcomes."""

import re
import sys
from typing import NamedTuple

import setter
from setter import Refusal

NUMBER = rb"([0-9]{1,5})"
POLICY = rb"(spaces|anywhere)"
HEADERS = [
    re.compile(b" ".join([b"(cells)", NUMBER, NUMBER, POLICY, NUMBER, NUMBER])),
    re.compile(
        b" ".join([b"(font)", NUMBER, NUMBER, rb"(-?[0-9]{1,5})", NUMBER, POLICY, NUMBER, NUMBER, NUMBER])
    ),
    re.compile(b" ".join([b"(calls)", NUMBER, NUMBER, POLICY, NUMBER, NUMBER])),
]
# How a refusal is printed: of a line, and of a case or of its list.
REFUSED_LINE = re.compile(rb"[0-9]+ ! ([0-9]+)(?: .*)?")
REFUSED_CASE = re.compile(rb"(6|17)|(9|1[0-5]) [0-9]+")


def read_header(line):
    """The words of a header with its numbers read, or None where it reads otherwise."""
    for pattern in HEADERS:
        found = pattern.fullmatch(line)
        if found:
            kind, *rest = found.groups()
            return kind, [word if word in setter.POLICIES else int(word) for word in rest]
    return None


def with_list(sheet, script, room):
    written, line = setter.run_script(sheet, script, room)
    return written if line is None else written + b"9 %d\n" % line


def run_cells(data, size, measure, policy, room, length):
    cells = setter.Cells(size)
    sheet = setter.Sheet(cells, setter.POLICIES[policy], setter.make_measure(measure))
    return with_list(sheet, data, room)


def run_font(data, glyph_slots, kern_slots, tracking, measure, policy, room, font_length, script_length):
    # The tracking and the measure are made before the font is read, so their refusals come first.
    setter.Tracking(tracking, None)
    measure = setter.make_measure(measure)
    font = setter.read_font(data[:font_length], glyph_slots, kern_slots)
    sheet = setter.Sheet(setter.pile(font, tracking), setter.POLICIES[policy], measure)
    return with_list(sheet, data[font_length:], room)


def run_calls(data, size, measure, policy, room, length):
    cells = setter.Cells(size)
    sheet = setter.Sheet(cells, setter.POLICIES[policy], setter.make_measure(measure))
    return setter.run_calls(sheet, data, room)


RUNS = {b"cells": run_cells, b"font": run_font, b"calls": run_calls}


class Case(NamedTuple):
    header: bytes  # without its code 10
    kind: bytes
    values: list  # what follows the kind in the header
    body: bytes


def split_cases(data):
    """The cases of a file one by one; None, as the last, where one is unreadable."""
    place = 0
    while place < len(data):
        newline = data.find(b"\n", place)
        header = data[place:newline]
        read = read_header(header) if newline >= 0 else None
        if read is None:
            yield None
            return
        kind, values = read
        length = sum(values[-2:]) if kind == b"font" else values[-1]
        place = newline + 1 + length
        if place > len(data):
            yield None
            return
        yield Case(header, kind, values, data[newline + 1:place])


def run_case(case):
    try:
        return RUNS[case.kind](case.body, *case.values)
    except Refusal as refusal:
        return setter.numbers(refusal.number, *refusal.tells) + b"\n"


def outcomes(data):
    """What is printed for a file of cases, case by case."""
    for k, case in enumerate(split_cases(data), 1):
        if case is None:
            yield b"case %d: unreadable\n" % k
        else:
            yield b"case %d\n" % k + run_case(case)


def refusals(outcome):
    """The refusal numbers in an outcome."""
    for line in outcome.split(b"\n"):
        found = REFUSED_LINE.fullmatch(line) or REFUSED_CASE.fullmatch(line)
        if found:
            yield int(found[found.lastindex])


def main():
    for outcome in outcomes(sys.stdin.buffer.read()):
        sys.stdout.buffer.write(outcome)


if __name__ == "__main__":
    main()
