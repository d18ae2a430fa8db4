"""Shapes of SVG, round numbers for axes, and the axis of time."""
import re
from datetime import datetime, timedelta
from fractions import Fraction
from html import escape
from math import hypot

from .answers import NULL, plain
from .times import days

COLOURS = ("#1f5a94", "#2f7d4f", "#8a5a12", "#6a4c93", "#3b7a8c", "#7a3b5c", "#55702b", "#444444")
RED, GREY, GRID = "#c8161d", "#555", "#d5e2ea"
WIDTH = 900
DAY = 86400
EPOCH = days(2000, 1, 1) * DAY


def moment(seconds):
    """The seconds since the year 2000, for drawing."""
    return float(Fraction(seconds) - EPOCH)


def shown_text(text):
    """A text for a picture: XML has no control characters."""
    return escape(re.sub(r"[\0-\x08\x0b-\x1f\x7f\ud800-\udfff\ufffe\uffff]", "\ufffd", text))


def text(x, y, shown, colour="#333", more=""):
    where = f'x="{round(x, 1)}" y="{round(y, 1)}"'
    return f'<text {where} fill="{colour}"{more}>{shown_text(shown)}</text>'


def arrow(begin, end, colour):
    """The head of an arrow that ends there."""
    (x, y), (tip_x, tip_y) = begin, end
    length = hypot(tip_x - x, tip_y - y)
    if not length:
        return ""
    across, up = (tip_x - x) / length, (tip_y - y) / length
    corners = [end] + [(tip_x - 9 * across - side * up, tip_y - 9 * up + side * across)
                       for side in (4.5, -4.5)]
    course = " L".join(f"{cx:.1f} {cy:.1f}" for cx, cy in corners)
    return f'<path d="M{course} Z" fill="{colour}"/>'


def stroke(course, colour, width):
    """A line of round ends."""
    return (f'<path d="{course}" fill="none" stroke="{colour}" stroke-width="{width}" '
            'stroke-linecap="round" stroke-linejoin="round"/>')


def dot(x, y, colour, radius=3.5):
    return f'<circle cx="{round(x, 1)}" cy="{round(y, 1)}" r="{radius}" fill="{colour}"/>'


def box(x, y, wide, high, colour, more=""):
    sizes = f'width="{round(wide, 1)}" height="{round(high, 1)}"'
    return f'<rect x="{round(x, 1)}" y="{round(y, 1)}" {sizes} fill="{colour}"{more}/>'


def badge(x, y, number):
    """A red circle with a number."""
    bold = ' text-anchor="middle" font-weight="bold" font-size="12"'
    return dot(x, y, RED, 9) + text(x, y + 4.5, str(number), "white", bold)


def clock(second, form="%H:%M:%S"):
    """The time of day of a second, with the part of a second left out."""
    return (datetime(2000, 1, 1) + timedelta(seconds=second // 1)).strftime(form)


def round_step(length, parts):
    """The least of 1, 2, 5, 10, .. that divides a length into at most so many parts."""
    steps = (part * 10.0**power for power in range(-9, 15) for part in (1, 2, 5))
    return next(it for it in steps if length / it <= parts)


def round_numbers(low, high, step):
    """The multiples of a step between two numbers."""
    return [step * it for it in range(int(low // step) + 1, int(high // step) + 1)]


def axis_text(number):
    """A number of an axis, with all its digits."""
    shown = f"{number:.9f}".rstrip("0").rstrip(".")
    return "0" if shown == "-0" else shown


class Times:
    """The axis of time, from one second to another."""
    STEPS = (0.1, 0.2, 0.5, 1, 2, 5, 10, 30, 60, 300, 600, 1800, 3600, 7200, 10800, 21600, 43200,
             DAY, 2 * DAY, 5 * DAY, 10 * DAY, 30 * DAY, 100 * DAY, 365 * DAY, 3650 * DAY)

    def __init__(self, first, last, margin):
        self.first, self.last, self.margin = first, last, margin

    def at(self, moment):
        part = (moment - self.first) / (self.last - self.first or 1)
        return round(self.margin + part * (WIDTH - self.margin - 36), 1)

    def lines(self, top, bottom):
        """The frame, and a line at each round part of the time."""
        wide = WIDTH - self.margin - 12
        yield box(self.margin - 8, top, wide, bottom - top, "#f7fafc", ' stroke="#8aa"')
        step = next((it for it in self.STEPS if (self.last - self.first) / it <= 10), 36500 * DAY)
        form = "%Y-%m-%d" if step >= DAY else "%H:%M" if step >= 60 else "%H:%M:%S"
        moment = -(-self.first // step) * step
        while moment <= self.last:
            shown = clock(moment, form) + (f".{round(moment % 1 * 10)}" if step < 1 else "")
            yield stroke(f"M{self.at(moment)} {top} V{bottom}", GRID, 1)
            yield text(self.at(moment), bottom + 18, shown, GREY, ' text-anchor="middle"')
            moment += step

    def day(self, y):
        """On which day the time begins."""
        return text(12, y, f'Time in UTC, from {clock(self.first, "%Y-%m-%d")} on.', GREY)


def label_of(row):
    """The texts of a row without times; NULL where there is no other."""
    texts = [it for it in row if not re.search(r"\d{4}-\d\d-\d\d \d\d:\d\d:\d\d", it)]
    return ", ".join([plain(it) for it in texts if it != NULL] or texts)


def picture(height, shapes, title):
    """A whole SVG."""
    size = f'viewBox="0 0 {WIDTH} {height:.0f}" width="{WIDTH}" height="{height:.0f}"'
    yield f'<svg xmlns="http://www.w3.org/2000/svg" {size} font-family="sans-serif" font-size="14">'
    yield f"<title>{shown_text(title)}</title>"
    yield '<rect width="100%" height="100%" fill="white"/>'
    yield text(12, 28, title, "#1b2a38", ' font-size="19" font-weight="bold"')
    yield from shapes
    yield "</svg>"
