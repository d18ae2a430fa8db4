#!/usr/bin/env -S python3 -B
"""Runs random queries with `--wide`, with numbers near 62 bits.

    checks/random/wide.py PROGRAM [SCRIPTS [SEED]]

A script is one SELECT of one to three items: `eDwithin`, `nearestApproachSquared`, `?` and `%`
signs of points and of numbers, the instants of `#` signs, `atValues` and `minusValues`, and `+`,
`-` and `*` of numbers and of such squares. Points move in sequences with and without their ends,
stay, or are there at instants alone. Coordinates, distances and instants are whole numbers and
fractions of up to 62 bits. In half of the scripts points keep their first coordinate, so that many
distances are numbers that can be written: such a distance is often asked for exactly.

With the option the answer, or the byte of the note, must be what this trial computes with fractions
of any size: the first operator whose value does not fit ends the run. Without the option a run that
ends with 0 must have written the same. The trial prints how many queries have an answer in both
modes, and in the wide mode alone, so both paths are seen. The seed is printed first, so a trial can
be repeated. It ends with 0 where every run answered as it should.
"""
import random
import re
import sys
from fractions import Fraction
from math import isqrt

from trials import all_of, arguments, ran

LIMIT = 2**62
SECONDS = 60
# The seconds from the epoch to the day of the instants.
DAY = 9617 * 86400


class Fault(Exception):
    """The mark of an operator whose value does not fit."""


def fits(number):
    return abs(number.numerator) < LIMIT and number.denominator < LIMIT


class Writer:
    """Writes one script, and answers it."""

    def __init__(self, chance):
        self.chance, self.marks = chance, 0
        # How large the numbers of this script are, in bits.
        self.bits = chance.choice((4, 12, 30, 31, 40, 61))
        self.aligned = chance.random() < 0.5
        self.easts, self.times = (self.number(), self.number()), self.instants(8)

    def whole(self):
        return self.chance.randrange(2 ** self.chance.choice((2, self.bits)))

    def number(self):
        """A number that fits, of either sign."""
        below = self.chance.choice((1, 1, 1, 10, 10, 1 + self.whole()))
        return Fraction(self.chance.choice((1, 1, -1)) * self.whole(), below)

    def mark(self):
        self.marks += 1
        return self.marks

    # ---- texts

    def east(self):
        return self.chance.choice(self.easts) if self.aligned else self.number()

    def instants(self, count):
        """Rising instants of 2026-05-01, in seconds: whole, or with a fraction."""
        found = set()
        while len(found) < count:
            second = self.chance.randrange(self.chance.choice((8, 3600, 86400)))
            below = self.chance.choice((1, 1, 1, 10, 7, 2**20))
            found.add(second + Fraction(self.chance.randrange(below), below))
        return sorted(found)

    def course(self, places, write):
        """A text of a value over time, and its pieces: two instants, two places, two flags."""
        kind = self.chance.choice(("instant", "instants", "sequence", "sequence", "set"))
        count = {"instant": 1, "instants": 3, "sequence": 4, "set": 6}[kind]
        times = self.instants(count)
        if self.aligned:
            times = sorted(self.chance.sample(self.times, count))
        reports = [(t, place) for t, place in zip(times, places(count))]
        if kind in ("instant", "instants"):
            texts = [write(it) for it in reports]
            text = texts[0] if kind == "instant" else "{" + ", ".join(texts) + "}"
            return text, [(t, t, p, p, True, True) for t, p in reports]
        parts = [reports] if kind == "sequence" else [reports[:3], reports[3:]]
        texts, pieces = [], []
        for part in parts:
            first, last = self.chance.random() < 0.7, self.chance.random() < 0.7
            texts.append("[("[not first] + ", ".join(map(write, part)) + "])"[not last])
            for k, ((t, p), (u, q)) in enumerate(zip(part, part[1:])):
                pieces.append((t, u, p, q, first or k > 0, last or k + 2 < len(part)))
        return texts[0] if len(texts) == 1 else "{" + ", ".join(texts) + "}", pieces

    def moving(self):
        """A text of a moving point, and its pieces."""

        def places(count):
            east = self.east()
            return [(east if self.aligned else self.east(), self.number()) for _ in range(count)]

        return self.course(places, report)

    def changing(self):
        """A text of a number over time, and its pieces: its places have one coordinate."""
        return self.course(lambda count: [(self.east(),) for _ in range(count)], number_report)

    def point(self):
        """A text of a moving or a fixed point, and its pieces, or its place."""
        if self.chance.random() < 0.25:
            place = self.east(), self.number()
            return f"geometry 'POINT({place[0]} {place[1]})'", place
        text, pieces = self.moving()
        return f"tgeompoint '{text}'", pieces

    def both(self):
        """Two points, at least one of which moves, and the pieces that they share."""
        text, pieces = self.moving()
        first, second = (f"tgeompoint '{text}'", pieces), self.point()
        if self.chance.random() < 0.3:
            first, second = second, first
        return first[0], second[0], list(shared(first[1], second[1]))

    def two(self):
        """The same as the operands of a call."""
        first, second, pieces = self.both()
        return f"{first}, {second}", pieces

    def on_the_way(self, pieces):
        """A place at an end of a piece or inside it, or None where it does not fit."""
        it = self.chance.choice(pieces)
        begin, end = it[0], it[1]
        t = self.chance.choice((begin, end, (begin + end) / 2, (2 * begin + end) / 3))
        place = at(it, t)
        return place if all(map(fits, place)) else None

    # ---- expressions: a text with marks, and its value

    def literal(self, value=None):
        value = self.number() if value is None else value
        if value >= 0 and value.denominator == 1 and self.chance.random() < 0.7:
            return str(value), lambda: value
        return f"numeric '{value}'", lambda: value

    def square(self):
        mark, (text, pieces) = self.mark(), self.two()

        def value():
            found = [least(it) for it in pieces]
            return checked(min(found), mark) if found else None

        return f"<{mark}>nearestApproachSquared({text})", value

    def term(self, depth=0):
        if depth == 2 or self.chance.random() < 0.5:
            return self.literal()
        if self.chance.random() < 0.3:
            return self.square()
        (left, a), (right, b) = self.term(depth + 1), self.term(depth + 1)
        mark, sign = self.mark(), self.chance.choice("+-*")

        def value():
            one, other = a(), b()
            if one is None or other is None:
                return None
            return checked({"+": one + other, "-": one - other, "*": one * other}[sign], mark)

        return f"({left} <{mark}>{sign} {right})", value

    def distance(self, pieces):
        """Any number, or a distance at which two points are at an end or nearest on a piece."""
        squares = {square for it in pieces for square in (*ends(it), least(it))}
        roots = [it for it in map(root, sorted(squares)) if it is not None and fits(it)]
        if roots and self.chance.random() < 0.7:
            return self.literal(self.chance.choice(roots[:2]))
        return self.term()

    def within(self):
        text, pieces = self.two()
        distance, d = self.distance(pieces)

        def value():
            bound = d()
            if bound is None or not pieces:
                return None
            return bound >= 0 and any(reaches(it, bound * bound) for it in pieces)

        return f"eDwithin({text}, {distance})", value

    def passing(self):
        """A point or a number over time, a value that it often takes, and its pieces."""
        if self.chance.random() < 0.5:
            text, course = self.moving()
            place = self.on_the_way(course) if self.chance.random() < 0.8 else None
            place = (self.east(), self.number()) if place is None else place
            value = f"geometry 'POINT({place[0]} {place[1]})'"
            return f"tgeompoint '{text}'", value, course, place
        text, course = self.changing()
        place = self.on_the_way(course) if self.chance.random() < 0.6 else None
        place = (self.number(),) if place is None else place
        return f"tfrac '{text}'", f"numeric '{place[0]}'", course, place

    def operands(self):
        """Two operands of a sign, their pieces, and the relations that it may ask for."""
        if self.chance.random() < 0.2:
            first, second, pieces = self.both()
            return first, second, pieces, ("=", "<>")
        first, second, course, place = self.passing()
        relations = ("=", "<>", "<", "<=", ">", ">=")
        return first, second, list(shared(course, place)), relations[: 2 if len(place) == 2 else 6]

    def changed(self):
        """The instants at which a `#` sign is true."""
        first, second, pieces, relations = self.operands()
        mark, relation = self.mark(), self.chance.choice(relations)
        text = f"whenTrue({first} <{mark}>#{relation} {second})"
        return text, lambda: true_times(pieces, relation, mark)

    def taken(self):
        """The instants at which a value is taken, or those at which it is not."""
        first, second, course, place = self.passing()
        mark, minus = self.mark(), self.chance.random() < 0.5
        text = f"getTime(<{mark}>{'minusValues' if minus else 'atValues'}({first}, {second}))"
        pieces, relation = list(shared(course, place)), "<>" if minus else "="
        return text, lambda: true_times(pieces, relation, mark)

    def sign(self):
        """A `?` or `%` sign of two points, or of a number over time and a number."""
        first, second, pieces, relations = self.operands()
        scope, relation = self.chance.choice("?%"), self.chance.choice(relations)

        def value():
            if not pieces:
                return None
            results = {holds(relation, order) for it in pieces for order in orders(it)}
            return True in results if scope == "?" else False not in results

        return f"{first} {scope}{relation} {second}", value

    def item(self):
        signs = self.sign, self.changed, self.changed, self.taken
        return self.chance.choice((*signs, self.within, self.square, self.term))

    def script(self):
        """The script, the place of each mark, and the answer: lines, or a mark."""
        items, values = [], []
        for n in range(self.chance.choice((1, 1, 2, 3))):
            text, value = self.item()()
            items.append(f"{text} AS v{n}")
            values.append(value)
        text, places = unmarked("SELECT " + ", ".join(items) + ";")
        try:
            row = ",".join(printed(it()) for it in values)
        except Fault as fault:
            return text, places, fault.args[0]
        names = ",".join(f"v{n}" for n in range(len(values)))
        return text, places, f"{names}\n{row}\n(1 rows)\n"


# ---- what is computed


def checked(number, mark):
    if not fits(number):
        raise Fault(mark)
    return number


def at(piece, t):
    begin, end, p, q, _, _ = piece
    part = (t - begin) / (end - begin) if begin < end else 0
    return tuple(a + (b - a) * part for a, b in zip(p, q))


def shared(a, b):
    """The pieces of two points: two instants, the two differences there, and two flags."""
    if isinstance(b, tuple):
        b = [(t, u, b, b, True, True) for t, u, *_ in a]
        pairs = zip(a, b)
    elif isinstance(a, tuple):
        a = [(t, u, a, a, True, True) for t, u, *_ in b]
        pairs = zip(a, b)
    else:
        pairs = ((p, q) for p in a for q in b)
    for p, q in pairs:
        begin, end = max(p[0], q[0]), min(p[1], q[1])
        first = all(it[4] or it[0] < begin for it in (p, q))
        last = all(it[5] or end < it[1] for it in (p, q))
        if begin < end or (begin == end and first and last):
            gaps = [tuple(x - y for x, y in zip(at(p, t), at(q, t))) for t in (begin, end)]
            yield begin, end, gaps[0], gaps[1], first, last


def square_of(gap):
    return gap[0] ** 2 + gap[1] ** 2


def root(square):
    """The root of a square, or None where it is irrational."""
    found = Fraction(isqrt(square.numerator), isqrt(square.denominator))
    return found if found * found == square else None


def ends(piece):
    """The squares of the differences at the ends of a piece."""
    return square_of(piece[2]), square_of(piece[3])


def foot(piece):
    """The square of the least difference strictly inside a piece, or None."""
    begin, end, p, q, _, _ = piece
    way = (q[0] - p[0], q[1] - p[1])
    length, along = square_of(way), p[0] * way[0] + p[1] * way[1]
    if begin == end or not (along < 0 < length + along):
        return None
    part = -along / length
    return square_of((p[0] + way[0] * part, p[1] + way[1] * part))


def least(piece):
    inside = foot(piece)
    return min(ends(piece)) if inside is None else inside


def reaches(piece, bound):
    """Whether the square is at most the bound at an instant of the piece."""
    inside = foot(piece)
    if inside is not None:
        return inside <= bound
    first, last = ends(piece)
    if piece[2] == piece[3]:
        return first <= bound
    if first < bound or last < bound:
        return True
    return (piece[4] and first == bound) or (piece[5] and last == bound)


def order_of(gap):
    """-1, 0 or 1: the order of two numbers with this gap. Points that differ have the order -1."""
    if not any(gap):
        return 0
    return -1 if len(gap) > 1 or gap[0] < 0 else 1


def orders(piece):
    """The orders that the two have at the instants of a piece."""
    begin, end, p, q, first, last = piece
    if begin == end:
        return {order_of(p)}
    found = {order_of(gap) for gap, there in ((p, first), (q, last)) if there}
    # The instants at which a gap is 0, as parts of the piece, and one between each two.
    roots = {a / (a - b) for a, b in zip(p, q) if a * b < 0}
    cuts = sorted({Fraction(0), Fraction(1), *roots})
    parts = [*roots, *((s + t) / 2 for s, t in zip(cuts, cuts[1:]))]
    return found | {order_of(tuple(a + (b - a) * part for a, b in zip(p, q))) for part in parts}


def cells(piece, relation):
    """The instants and open spans of a piece, in order, each with whether the relation holds."""
    begin, end, p, q, first, last = piece
    if begin == end:
        return [(begin, end, True, holds(relation, order_of(p)))]

    def there(part):
        return holds(relation, order_of(tuple(a + (b - a) * part for a, b in zip(p, q))))

    cuts = sorted({Fraction(0), Fraction(1), *(a / (a - b) for a, b in zip(p, q) if a * b < 0)})
    found = [(begin, begin, True, there(0))] if first else []
    for part, after in zip(cuts, cuts[1:]):
        t, u = (begin + (end - begin) * it for it in (part, after))
        found += [(t, t, True, there(part))] if part else []
        found.append((t, u, False, there((part + after) / 2)))
    return found + ([(end, end, True, there(1))] if last else [])


def true_times(pieces, relation, mark):
    """The text of the instants at which the relation holds.

    Those inside a piece at which it begins or ceases to hold have to fit.
    """
    spans = []
    for piece in pieces:
        row = cells(piece, relation)
        for (_, t, *_, one), (*_, other) in zip(row, row[1:]):
            if one != other and piece[0] < t < piece[1]:
                checked(DAY + t, mark)
        for begin, end, held, true in row:
            if not true:
                continue
            if spans and spans[-1][1] == begin and (held or spans[-1][3]):
                spans[-1][1], spans[-1][3] = end, held
            else:
                spans.append([begin, end, held, held])
    texts = [
        f"{'[' if first else '('}{shown(t)}, {shown(u)}{']' if last else ')'}"
        for t, u, first, last in spans
    ]
    return '"{' + ", ".join(texts) + '}"' if texts else None


def holds(relation, order):
    return {
        "=": order == 0,
        "<>": order != 0,
        "<": order < 0,
        "<=": order <= 0,
        ">": order > 0,
        ">=": order >= 0,
    }[relation]


# ---- texts


def moment(t):
    second, part = int(t), t - int(t)
    text = f"2026-05-01 {second // 3600:02}:{second // 60 % 60:02}:{second % 60:02}"
    return text + (f"({part})" if part else "")


def shown(t):
    """An instant as it prints."""
    part = t - int(t)
    if 10**6 % part.denominator:
        return moment(t) + "+00"
    places = f"{int(part * 10**6):06}".rstrip("0")
    return moment(Fraction(int(t))) + (f".{places}" if places else "") + "+00"


def report(it):
    t, (x, y) = it
    return f"POINT({x} {y})@{moment(t)}"


def number_report(it):
    t, (x,) = it
    return f"{x}@{moment(t)}"


def printed(value):
    if value is None or isinstance(value, bool):
        return {None: "\\N", True: "t", False: "f"}[value]
    return str(value)


def unmarked(text):
    """The text without marks, and the place of each."""
    places, parts = {}, re.split(r"<(\d+)>", text)
    for n in range(1, len(parts), 2):
        places[int(parts[n])] = sum(len(part) for part in parts[0:n:2])
    return "".join(parts[0::2]), places


def one(program, seed, number):
    """How a script ends, and what to print where a run does not answer as it should."""
    text, places, answer = Writer(random.Random(f"{seed} {number}")).script()
    if isinstance(answer, str):
        right = 0, answer.encode(), b""
    else:
        note = f"statement 1, rows -, byte {places[answer]}: the value passes 62 bits\n"
        right = 8, b"", note.encode()
    wide = ran([program, "--wide"], text.encode(), SECONDS)
    narrow = ran([program], text.encode(), SECONDS)
    runs = f"right: {right}\nwide: {wide}\nnarrow: {narrow}"
    told = f"script {number} of seed {seed}:\n{text}\n{runs}"
    if wide is None or wide != right:
        return "a wrong answer", told
    if narrow is None or narrow[0] not in (0, 8) or (narrow[0] == 0 and narrow != wide):
        return "another answer without the option", told
    if wide[0] == 8:
        return "a fault in both modes", None
    return f"an answer in {'both modes' if narrow[0] == 0 else 'the wide mode alone'}", None


def main():
    program, scripts, seed, _ = arguments(20000)
    return all_of(lambda number: one(program, seed, number), range(scripts))


if __name__ == "__main__":
    sys.exit(main())
