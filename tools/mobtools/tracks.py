"""Tracks: pieces between silences, common instants, rounding, and their texts.

A track is a list of instants with places. A place (x, y, w) is the point x/w, y/w, so that places
between two instants are exact without a division.
"""
from fractions import Fraction
from math import lcm

from .numbers import NANO, nano
from .times import DAY, time_of


def pieces_of(reports, silent):
    """The reports of one thing, divided where it was silent for longer, and between segments."""
    pieces = [[reports[0]]]
    for earlier, later in zip(reports, reports[1:]):
        if later.seconds - earlier.seconds > silent or later.segment != earlier.segment:
            pieces.append([])
        pieces[-1].append(later)
    return pieces


def common_instants(first, last, every):
    """Each instant between two that is a multiple of so many seconds after midnight."""
    instant = first
    while True:
        midnight = instant // DAY * DAY
        instant = min(midnight + ((instant - midnight) // every + 1) * every, midnight + DAY)
        if instant >= last:
            return
        yield instant


def places_at(track, instants):
    """The place of a track at each of some rising instants of its span."""
    segments = zip(track, track[1:])
    (start, (x, y, w)), (end, (next_x, next_y, next_w)) = next(segments)
    for instant in instants:
        while instant > end:
            (start, (x, y, w)), (end, (next_x, next_y, next_w)) = next(segments)
        before, after = next_w * (end - instant), w * (instant - start)
        yield x * before + next_x * after, y * before + next_y * after, w * next_w * (end - start)


def reported_track(piece):
    """The track of a piece as it was reported."""
    track = []
    for it in piece:
        x, y = nano(it.x), nano(it.y)
        w = lcm(x.denominator, y.denominator)
        track.append((it.seconds, (int(x * w), int(y * w), w * NANO)))
    return track


def new_track(track, every, unit):
    """A track on the common instants, with its places to the unit."""
    first, last = track[0][0], track[-1][0]
    instants = [first, *common_instants(first, last, every), last]
    track = list(zip(instants, places_at(track, instants)))
    return [(instant, unit.nearest(place)) for instant, place in track] if unit else track


def greatest_square(pairs):
    """The square of the greatest distance in pairs of places."""
    square, over = 0, 1
    for (x1, y1, w1), (x2, y2, w2) in pairs:
        this, its_over = (x1 * w2 - x2 * w1) ** 2 + (y1 * w2 - y2 * w1) ** 2, (w1 * w2) ** 2
        if this * over > square * its_over:
            square, over = this, its_over
    return Fraction(square) / over


def farthest(reported, new):
    """The square of the greatest distance of two tracks of one span. Between two instants at which
    neither turns it is greatest at one of them."""
    instants = sorted({instant for instant, _ in reported + new})
    return greatest_square(zip(places_at(reported, instants), places_at(new, instants)))


def place_text(place, unit):
    x, y, w = place
    if unit:
        return f"POINT({unit.text(x)} {unit.text(y)})"
    return f"POINT({Fraction(x) / w} {Fraction(y) / w})"


def report_time(report):
    return report.time or time_of(report.seconds)


def rounded(piece, unit):
    """The parts of the literal of a piece that is rounded alone, and the square of how far it was
    moved: between two reports no further than at one of them."""
    parts, square = [], 0
    for it in piece:
        x, y = nano(it.x), nano(it.y)
        across, up = unit.round(x), unit.round(y)
        parts.append(f"POINT({unit.text(across * unit.steps)} {unit.text(up * unit.steps)})"
                     f"@{report_time(it)}")
        square = max(square, (x - across * unit.nano) ** 2 + (y - up * unit.nano) ** 2)
    return parts, Fraction(square) / NANO**2


def changed(piece, every, unit):
    """The parts of the literal of a piece on common instants, and the square of how far it was
    moved. An instant at which there was a report keeps its text."""
    reported = reported_track(piece)
    track = new_track(reported, every, unit)
    times = {it.seconds: it for it in piece}
    parts = [f"{place_text(place, unit)}@"
             f"{report_time(times[instant]) if instant in times else time_of(instant)}"
             for instant, place in track]
    return parts, farthest(reported, track)


def literal(pieces):
    """The literal of pieces, each a list of texts of a value and its time."""
    text = "], [".join(map(", ".join, pieces))
    return "{[" + text + "]}" if len(pieces) > 1 else "[" + text + "]"


def parts_of(piece, asked):
    """The parts of the literal of a piece, and the square of how far it was moved. A piece of one
    report stays as it is, but for its projection."""
    if asked.every and len(piece) > 1:
        return changed(piece, asked.every, asked.to)
    if asked.projection or (asked.to and len(piece) > 1):
        return rounded(piece, asked.to)
    return [f"POINT({it.x} {it.y})@{report_time(it)}" for it in piece], 0


def track_of(reports, asked):
    """The pieces of a track as texts, and the square of how far it was moved."""
    pieces, square = [], 0
    for piece in pieces_of(reports, asked.silent):
        parts, its_square = parts_of(piece, asked)
        pieces.append(parts)
        square = max(square, its_square)
    return pieces, square


def readings_of(reports, asked):
    """The pieces of a value over time as texts. A report may lack it beside a place."""
    known = [it for it in reports if it.value is not None]
    return [[f"{it.value}@{report_time(it)}" for it in piece]
            for piece in (pieces_of(known, asked.silent) if known else [])]
