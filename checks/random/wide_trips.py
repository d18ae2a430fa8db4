#!/usr/bin/env -S python3 -B
"""Runs a program over trips with `--wide` on random tables, with numbers near 62 bits.

    checks/random/wide_trips.py PROGRAM [TABLES [SEED]]

PROGRAM is mobnear or mobthin. Coordinates, distances and instants are whole numbers and fractions
of up to 62 bits. The trips of mobthin go along a straight course, with noise or in a zigzag whose
turns are often exactly as far from the course as the distance that is asked for.

With the option the answer, or the note, must be what this trial computes with fractions of any
size. Without it a run that ends with 0 must have written the same. It tries 5,000 tables if no
number is given. The seed is printed first, so a trial can be repeated. It ends with 0 where every
run answered as it should.
"""
import os
import random
import sys
from fractions import Fraction

from trials import ROOT, all_of, arguments, ran
from wide import SECONDS, Writer, fits, least, moment, report, shared

sys.path.insert(0, os.path.join(ROOT, "checks"))
from thin import straightened, thinned  # pylint: disable=wrong-import-position


def field(text):
    return f'"{text}"' if "," in text else text


def table(rows):
    return "\n".join(["id,trip"] + [f"{n},{field(text)}" for n, text in rows]) + "\n"


def near_table(chance):
    """A table, arguments of mobnear, and the right end of a run."""
    writer = Writer(chance)
    rows = [writer.moving() if chance.random() < 0.9 else ("\\N", [])
            for _ in range(chance.randint(1, 6))]
    if chance.random() < 0.3:
        place = writer.east(), writer.number()
        target, there = f"POINT({place[0]} {place[1]})", place
    else:
        target, there = writer.moving()
    found = []
    for number, (_, pieces) in enumerate(rows):
        squares = [least(it) for it in shared(pieces, there)] if pieces else []
        if squares:
            found.append((min(squares), number))
    count = chance.choice((1, 2, 5, 1000))
    first = sorted(found)[:count]
    words = ["--k", str(count), "--to", target]
    large = [number for square, number in first if not fits(square)]
    text = table([(number, text) for number, (text, _) in enumerate(rows)])
    if large:
        return text, words, (8, b"", f"rows {large[0] + 1}: the value passes 62 bits\n".encode())
    lines = ["id,approach"] + [f"{number},{square}" for square, number in first]
    return text, words, (0, "\n".join(lines + [f"({len(first)} rows)\n"]).encode(), b"")


def course(chance, writer):
    """The points of a sequence, and a distance."""
    kind, count = chance.choice(("any", "noise", "zigzag")), chance.choice((2, 3, 5, 12, 30))
    place, way = [writer.number(), writer.number()], [writer.number(), writer.number()]
    noise, seconds = abs(writer.number()), 0
    points = []
    for i in range(count):
        if kind == "any":
            x, y = writer.number(), writer.number()
        else:
            turns = Fraction(0), Fraction(i % 2)
            if kind == "noise":
                turns = [Fraction(chance.randint(-9, 9), 9) for _ in range(2)]
            x, y = (a + b * seconds + noise * turn for a, b, turn in zip(place, way, turns))
        points.append((Fraction(seconds), x, y))
        seconds += 1 if kind == "zigzag" else chance.randint(1, 3)
    distance = chance.choice((noise, noise, noise * 2, noise / 2, abs(writer.number())))
    return points, distance


def thin_table(chance):
    """The same for mobthin."""
    while True:
        points, distance = course(chance, Writer(chance))
        numbers = [distance] + [it for point in points for it in point]
        if all(fits(it) for it in numbers):
            break
    first, last = chance.random() < 0.7, chance.random() < 0.7

    def trip(points, zone):
        texts = ", ".join(report((t, (x, y))) + zone for t, x, y in points)
        return "[("[not first] + texts + "])"[not last]

    kept = thinned(straightened(points), distance**2)
    words = ["--within", str(distance)]
    return table([(1, trip(points, ""))]), words, (0, table([(1, trip(kept, "+00"))]).encode(), b"")


TABLES = {"mobnear": near_table, "mobthin": thin_table}


def one(program, seed, number):
    """How a run ends, and what to print where it does not answer as it should."""
    make = TABLES[os.path.basename(program)]
    text, words, right = make(random.Random(f"{seed} {number}"))
    wide = ran([program, *words, "--wide"], text.encode(), SECONDS)
    narrow = ran([program, *words], text.encode(), SECONDS)
    runs = f"right: {right}\nwide: {wide}\nnarrow: {narrow}"
    told = f"table {number} of seed {seed}: {words}\n{text}{runs}"
    if wide is None or wide != right:
        return "a wrong answer", told
    if narrow is None or narrow[0] not in (0, 8) or (narrow[0] == 0 and narrow != wide):
        return "another answer without the option", told
    if wide[0] == 8:
        return "a fault in both modes", None
    return f"an answer in {'both modes' if narrow[0] == 0 else 'the wide mode alone'}", None


def main():
    program, tables, seed, _ = arguments(5000)
    return all_of(lambda number: one(program, seed, number), range(tables))


if __name__ == "__main__":
    sys.exit(main())
