#!/usr/bin/env python3
"""Writes the two example files beside this script: wheels.rec (a table file) and crew.rec (a sum file).

The meaning of every number is told in README.md. Python's standard library is all that it needs.
"""
import pathlib
import struct

HERE = pathlib.Path(__file__).resolve().parent


def variable(number, window, stops, minutes):
    """A kind 1 record: the closings in `window` are the start word; each closing has its stops and minutes."""
    word = sum(1 << closing for closing in window)
    costs = b"".join(struct.pack("<HH", stops(v), minutes(v)) for v in range(32))
    return struct.pack("<BBBBI", 1, number, 0, 0, word) + costs


def table(x, y, allowed):
    """A kind 2 record: closing a of x goes with closing b of y where allowed(a, b)."""
    rows = [sum(1 << b for b in range(32) if allowed(a, b)) for a in range(32)]
    return struct.pack("<BBBBI32I", 2, x, y, 0, 0, *rows)


def objective(coefficients):
    padded = (coefficients + [0] * 32)[:32]
    return struct.pack("<BBBBI32i", 3, len(coefficients), 0, 0, 0, *padded)


def at_least(coefficients, least):
    padded = (coefficients + [0] * 32)[:32]
    return struct.pack("<BBBBi32i", 4, 0, 0, 0, least, *padded)


def wheels():
    windows = [(0, 4), (0, 5), (2, 8), (3, 9), (0, 6), (1, 6), (4, 11), (8, 13)]
    records = []
    for i, (first, last) in enumerate(windows):
        # A change near the end of the window stops fewer rides; Saturdays (5 and 12) take longer.
        records.append(
            variable(
                i,
                range(first, last + 1),
                lambda v, last=last: max(0, last - v),
                lambda v, i=i: 40 + 5 * i + (30 if v % 7 == 5 else 0),
            )
        )
    # Sets 0 to 3 hang on one hoist, sets 4 to 7 on the other: never two at one closing.
    for group in (range(0, 4), range(4, 8)):
        for x in group:
            for y in group:
                if x < y:
                    records.append(table(x, y, lambda a, b: a != b))
    # The bogie of set 0 comes out at least two closings before set 1 and three before set 2.
    records.append(table(0, 1, lambda a, b: a + 2 <= b))
    records.append(table(0, 2, lambda a, b: a + 3 <= b))
    # Sets 3 and 7 need the crane, which is lent out for three closings at a time.
    records.append(table(3, 7, lambda a, b: abs(a - b) >= 3))
    # Set 5 waits for the spare axle that set 4 frees.
    records.append(table(4, 5, lambda a, b: a < b))
    return b"".join(records)


def crew():
    records = [objective([3, 5, 4, 2, 6])]
    # Each night needs two fitters of those on call, and fitter 3 may not work without fitter 0.
    records.append(at_least([1, 1, 1, 1, 1], 2))
    records.append(at_least([1, 0, 0, -1, 0], 0))
    records.append(at_least([0, 1, 1, 0, 1], 1))
    return b"".join(records)


(HERE / "wheels.rec").write_bytes(wheels())
(HERE / "crew.rec").write_bytes(crew())
