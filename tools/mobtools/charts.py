"""Charts over time: bars of spans and truth values, and curves of numbers."""
from .answers import Timed, value_of
from .command import Refused
from .drawing import (COLOURS, GREY, GRID, WIDTH, Times, axis_text, box, dot, label_of, moment,
                      round_numbers, round_step, stroke, text)


def stretches(value):
    """The stretches of time of spans or of a truth value, each with whether it is true; None for
    any other value."""
    if isinstance(value, list):
        return [(moment(it.start), moment(it.end), True) for it in value]
    if not isinstance(value, Timed) or value.kind != "truth":
        return None
    return [(moment(begin), moment(end), is_true) for piece in value.pieces
            for (is_true, begin), (_, end) in zip(piece, piece[1:] or piece)]


def columns(found, read):
    """Each column of the answers with its values: a label and what is read of a field."""
    for answer in found:
        for at, name in enumerate(answer.names):
            fields = [(label_of(row), read(value_of(row[at]))) for row in answer.rows]
            yield name, [it for it in fields if it[1] is not None]


class Bars:
    TOP, ROW = 46, 26

    def __init__(self, found):
        self.rows, drawn = [], 0
        for name, timed in columns(found, stretches):
            if any(label for label, _ in timed):
                self.rows.append((name, None, None))
            colour = COLOURS[drawn % len(COLOURS)]
            self.rows += [(label or name, spans, colour) for label, spans in timed]
            drawn += len(timed) > 0
        self.spans = [it for _, spans, _ in self.rows for it in spans or ()]
        if not self.spans:
            raise Refused("no span and no truth value over time is in these answers")
        margin = max((7.6 if spans else 8.8) * len(label) for label, spans, _ in self.rows) + 24
        self.times = Times(min(it[0] for it in self.spans), max(it[1] for it in self.spans), margin)
        self.bottom = self.TOP + self.ROW * len(self.rows) + 8

    def bar(self, y, colour, begin, end, true):
        wide = max(2, round(self.times.at(end) - self.times.at(begin), 1))
        top, high = (y, 17) if true else (y + 8, 1.5) if begin < end else (y + 4, 9)
        return box(self.times.at(begin), top, wide, high, colour if true else "#888")

    def legend(self):
        """On which day the time begins, and what the bars are."""
        y, has_false = self.bottom + 42, any(not it[2] for it in self.spans)
        yield self.times.day(y)
        yield box(262, y - 11, 28, 13, COLOURS[0])
        yield text(298, y, "true" if has_false else "at these times", GREY)
        if has_false:
            yield box(350, y - 5, 28, 1.5, "#888") + text(386, y, "false", GREY)
            yield text(446, y, "nothing: not known", GREY)

    def drawn(self):
        """The height of the picture, and its shapes."""
        shapes = list(self.times.lines(self.TOP, self.bottom))
        for number, (label, spans, colour) in enumerate(self.rows):
            y = self.TOP + 6 + self.ROW * number
            if spans is None:
                shapes.append(text(12, y + 14, label.replace("_", " "), "#333",
                                   ' font-weight="bold"'))
            else:
                shapes.append(text(self.times.margin - 16, y + 14, label, "#333",
                                   ' text-anchor="end"'))
            shapes += [self.bar(y, colour, *it) for it in spans or ()]
        return self.bottom + 58, shapes + list(self.legend())


def numbers(value):
    """The pieces of a number over time; None for any other value."""
    if not isinstance(value, Timed) or value.kind != "number":
        return None
    return [[(float(it), moment(second)) for it, second in piece] for piece in value.pieces]


class Curves:
    """Numbers over time. Whole numbers go in steps, as those of `tCount`, others in lines."""
    TOP, HIGH = 46, 300

    def __init__(self, found, is_linear=False):
        self.curves = [(label or name, pieces) for name, values in columns(found, numbers)
                       for label, pieces in values]
        points = [it for _, pieces in self.curves for piece in pieces for it in piece]
        if not points:
            raise Refused("no number over time is in these answers")
        self.is_linear = is_linear or any(value % 1 for value, _ in points)
        self.low = min(0, *(value for value, _ in points))
        self.high = max(self.low + 1, *(value for value, _ in points))
        self.step = round_step(self.high - self.low, 8)
        marks = self.marks()
        margin = 24 + 8 * max(len(axis_text(it)) for it in marks)
        times = [second for _, second in points]
        self.times = Times(min(times), max(times), margin)

    def marks(self):
        return round_numbers(self.low - self.step / 2, self.high + self.step / 2, self.step)

    def up(self, value):
        part = (value - self.low) / (self.high - self.low)
        return round(self.TOP + 10 + (1 - part) * (self.HIGH - 20), 1)

    def joined(self, pieces):
        """The pieces, with steps from one to the next where they share an instant."""
        found = []
        for piece in pieces:
            if found and not self.is_linear and found[-1][-1][1] == piece[0][1]:
                found[-1] = found[-1] + piece
            else:
                found.append(piece)
        return found

    def course(self, piece):
        """The line of a piece."""
        (value, second), *rest = piece
        course = f"M{self.times.at(second)} {self.up(value)}"
        for value, second in rest:
            x, y = self.times.at(second), self.up(value)
            course += f" L{x} {y}" if self.is_linear else f" H{x} V{y}"
        return course

    def drawn(self):
        """The height of the picture, and its shapes."""
        bottom = self.TOP + self.HIGH
        shapes = list(self.times.lines(self.TOP, bottom))
        for it in self.marks():
            y = self.up(it)
            shapes.append(stroke(f"M{self.times.margin - 8} {y} H{WIDTH - 20}", GRID, 1))
            shapes.append(text(self.times.margin - 16, y + 4, axis_text(it), GREY,
                               ' text-anchor="end"'))
        legend = bottom + 42
        shapes.append(self.times.day(legend))
        for number, (label, pieces) in enumerate(self.curves):
            colour, y = COLOURS[number % len(COLOURS)], legend + 24 + 20 * number
            for piece in self.joined(pieces):
                shapes.append(stroke(self.course(piece), colour, 2) if len(piece) > 1 else
                              dot(self.times.at(piece[0][1]), self.up(piece[0][0]), colour, 3))
            shapes += [stroke(f"M14 {y - 5} h28", colour, 2), text(50, y, label)]
        return legend + 24 + 20 * len(self.curves), shapes
