"""A map of answers: areas, points, and moving points as lines."""
from fractions import Fraction

from .answers import Area, Place, Timed, plain, value_of
from .command import Refused
from .drawing import (COLOURS, DAY, GREY, GRID, RED, WIDTH, arrow, axis_text, badge, box, clock,
                      dot, moment, round_numbers, round_step, stroke, text)

# From how many spots of lines on labels keep clear of one for each square alone.
MANY = 20_000


def lines_of(value):
    """The places of a value: of each ring, each piece, or the one point."""
    if isinstance(value, Area):
        lines = value.rings
    elif isinstance(value, Place):
        lines = [[value]]
    else:
        lines = [[place for place, _ in piece] for piece in value.pieces]
    return [[(float(x), float(y)) for x, y in line] for line in lines]


def is_drawn(value):
    return isinstance(value, (Area, Place)) or isinstance(value, Timed) and value.kind == "point"


class Shape:
    """A field that is drawn: the name of its column, its row, its value and its lines. A row is the
    names of its columns with their fields: two columns may have one name."""

    def __init__(self, name, row, value):
        self.name, self.row, self.value = name, row, value
        self.lines, self.is_area = lines_of(value), isinstance(value, Area)
        self.is_moving = isinstance(value, Timed)

    def label(self):
        return plain(self.row[0][1])

    def texts(self):
        """The texts of the row of an encounter: who it is."""
        return [plain(it) for name, it in self.row if name != "squared"
                and not isinstance(value_of(it), (Timed, list, Area, Place))]

    def span(self):
        """The first and the last second of a moving point."""
        times = [moment(it) for piece in self.value.pieces for _, it in piece]
        return min(times), max(times)


class Map:
    TOP, RIGHT = 46, 16
    HALO = ' stroke="white" stroke-width="4" stroke-linejoin="round" paint-order="stroke"'

    def __init__(self, found):
        self.labels, self.meetings = [], []
        self.shapes = [Shape(name, row, value) for answer in found
                       for row in (list(zip(answer.names, it)) for it in answer.rows)
                       for name, field in row if is_drawn(value := value_of(field))]
        if not self.shapes:
            raise Refused("no place is in these answers")
        days = {it // DAY for shape in self.shapes if self.is_meeting(shape) for it in shape.span()}
        self.clock_form = "%Y-%m-%d %H:%M:%S" if len(days) > 1 else "%H:%M:%S"
        xs, ys = zip(*(it for shape in self.shapes for line in shape.lines for it in line))
        wide, high = max(xs) - min(xs), max(ys) - min(ys)
        edge = max(wide, high, 1) / 25
        self.west, self.east = min(xs) - edge, max(xs) + edge
        self.south, self.north = min(ys) - edge, max(ys) + edge
        self.step = round_step(max(self.east - self.west, self.north - self.south), 10)
        self.left = max(66, 16 + 8 * max(len(axis_text(it)) for it in self.heights()))
        self.scale = (WIDTH - self.left - self.RIGHT) / max(self.east - self.west,
                                                            self.north - self.south)
        self.right = self.left + (self.east - self.west) * self.scale
        self.bottom = self.TOP + (self.north - self.south) * self.scale
        self.ways = self.spots([line for it in self.shapes if not it.is_area for line in it.lines])

    def heights(self):
        return round_numbers(self.south, self.north, self.step) or [0]

    def at(self, it):
        x, y = it
        across, up = (x - self.west) * self.scale, (y - self.south) * self.scale
        return round(self.left + across, 1), round(self.bottom - up, 1)

    def spots(self, lines):
        """Spots along some lines; where there are many, one for each square of 4 by 4."""
        found = [spot for line in lines for spot in self.spots_on(line)]
        if len(found) > MANY:
            found = list({(x // 4, y // 4): (x, y) for x, y in found}.values())
        return found

    def spots_on(self, line):
        """Spots on the picture along a line, some 4 apart, which labels keep clear of."""
        drawn = self.drawn_line(line)
        for (x, y), (next_x, next_y) in zip(drawn, drawn[1:] or drawn):
            count = int(max(abs(next_x - x), abs(next_y - y)) / 4) + 1
            for i in range(count + 1):
                yield x + (next_x - x) * i / count, y + (next_y - y) * i / count

    def drawn_line(self, line):
        """The spots of a line on the picture. Of a long line none is as good as on the last one."""
        drawn = list(map(self.at, line))
        if len(drawn) < 1000:
            return drawn
        kept = drawn[:1]
        for x, y in drawn[1:]:
            if abs(x - kept[-1][0]) + abs(y - kept[-1][1]) >= 0.5:
                kept.append((x, y))
        return kept + drawn[-1:]

    def path(self, line):
        return "M" + " L".join(f"{x} {y}" for x, y in self.drawn_line(line))

    def cost(self, box):
        """How much lies under a label: other labels, then lines; and whether it leaves the map."""
        left, top, right, bottom = box
        crowded = sum(left < x1 and right > x0 and top < y1 and bottom > y0
                      for x0, y0, x1, y1 in self.labels)
        crossed = sum(left < x < right and top < y < bottom for x, y in self.ways)
        outside = left < self.left or right > self.right or top < self.TOP or bottom > self.bottom
        return 1000 * outside + 100 * crowded + crossed

    def label(self, shape, colour):
        """The text in a corner of an area, or beside an end of a line, where it covers least."""
        shown = shape.label()
        wide, boxes = 7.6 * len(shown), []
        if shape.is_area:
            corners = list(map(self.at, shape.lines[0]))
            middle_x, middle_y = (sum(it) / len(it) for it in zip(*corners))
            boxes = [(x + 6 if x < middle_x else x - 6 - wide, y + 5 if y < middle_y else y - 18)
                     for x, y in corners]
        else:
            for x, y in (self.at(it) for line in shape.lines[:5] for it in (line[0], line[-1])):
                boxes += [(left, top) for top in (y - 18, y + 5)
                          for left in (x + 6, x - 6 - wide, x - wide / 2)]
                boxes += [(x + 8, y - 7), (x - 8 - wide, y - 7)]
        left, top, *_ = free = min(((x, y, x + wide, y + 14) for x, y in boxes), key=self.cost)
        self.labels.append(free)
        return text(left, top + 12, shown, colour, self.HALO)

    def badge_at(self, line, number):
        """A badge near the middle of a line."""
        spots = list(self.spots_on(line))
        boxes = [(x + dx - 9, y + dy - 9, x + dx + 9, y + dy + 9)
                 for x, y in [spots[len(spots) // 2], spots[-1], spots[0]]
                 for dx, dy in ((0, -16), (0, 16), (18, 0), (-18, 0), (16, -22), (-16, 22))]
        free = min(boxes, key=self.cost)
        self.labels.append(free)
        return badge(free[0] + 9, free[1] + 9, number)

    def meeting(self, shape):
        """A thick red line where two were near. Who and when goes to the legend, by a number, with
        the dates if there are several."""
        first, last = shape.span()
        squared = value_of(dict(shape.row).get("squared", ""))
        apart = f", nearest {float(squared) ** 0.5:.1f}" if isinstance(squared, Fraction) else ""
        times = "–".join(clock(it, self.clock_form) for it in (first, last))
        shown = f"{' and '.join(shape.texts())} {times}{apart}"
        self.meetings.append((len(self.meetings) + 1, shown))
        return "".join(stroke(self.path(it if len(it) > 1 else it * 2), RED, 5)
                       for it in shape.lines)

    def is_meeting(self, shape):
        return shape.name == "near" and shape.is_moving

    def drawn_shape(self, number, shape):
        """What is drawn of a shape, and its colour."""
        if shape.is_area:
            rings = " ".join(self.path(it) + " Z" for it in shape.lines)
            return (f'<path d="{rings}" fill="#bcd9ee" stroke="#6f9cbd" fill-rule="evenodd"/>',
                    "#2f6288")
        if self.is_meeting(shape):
            return self.meeting(shape), RED
        if not shape.is_moving:
            x, y = self.at(shape.lines[0][0])
            return (f'<path d="M{x} {y - 7} l6 7 l-6 7 l-6 -7 Z" fill="#e8a317" stroke="#7a5200"/>',
                    "#7a5200")
        colour = COLOURS[number % len(COLOURS)]
        return "".join(self.way(it, colour) for it in shape.lines), colour

    def way(self, line, colour):
        """A dot where a line begins, and an arrow where it ends, if it goes anywhere."""
        begin, *_, end = [line[0], *line]
        before = next((it for it in reversed(line) if it != end), None)
        if before is None:
            return dot(*self.at(begin), colour)
        return (stroke(self.path(line), colour, 1.6) + arrow(self.at(before), self.at(end), colour)
                + dot(*self.at(begin), colour))

    def axes(self):
        """The frame, with lines at round numbers."""
        wide, high = self.east - self.west, self.north - self.south
        yield box(self.left, self.TOP, wide * self.scale, high * self.scale, "#eff6fb",
                  ' stroke="#8aa"')
        for it in round_numbers(self.west, self.east, self.step):
            x, _ = self.at((it, 0))
            yield stroke(f"M{x} {self.TOP} V{self.bottom:.1f}", GRID, 1)
            yield text(x, self.bottom + 18, axis_text(it), GREY, ' text-anchor="middle"')
        for it in round_numbers(self.south, self.north, self.step):
            _, y = self.at((0, it))
            yield stroke(f"M{self.left} {y} H{self.right:.1f}", GRID, 1)
            yield text(self.left - 8, y + 4, axis_text(it), GREY, ' text-anchor="end"')

    def legend_lines(self):
        """How many lines the encounters take: in one column where a text is too wide for two."""
        is_wide = any(7.2 * len(shown) > 390 for _, shown in self.meetings)
        return len(self.meetings) if is_wide else (len(self.meetings) + 1) // 2

    def legend(self, y):
        """What the signs are; then who met, and when."""
        x = self.left
        yield dot(x + 6, y - 4, GREY) + text(x + 18, y, "first report", GREY)
        yield (stroke(f"M{x + 120} {y - 4:.1f} h28", GREY, 1.6)
               + arrow((0, y - 4), (x + 150, y - 4), GREY))
        yield text(x + 162, y, "last report", GREY)
        if self.meetings:
            yield stroke(f"M{x + 264} {y - 4:.1f} h28", RED, 5)
            yield text(x + 304, y, "near one another (UTC):", GREY)
        for number, shown in self.meetings:
            column, line = divmod(number - 1, self.legend_lines())
            left, low = x + 9 + column * 416, y + 24 + 22 * line
            yield (badge(left, low - 4.5, number)
                   + text(left + 18, low, shown, more=' font-size="13.5"'))

    def drawn(self):
        """The height of the picture, and its shapes."""
        shapes = [(it, *self.drawn_shape(number, it)) for number, it in enumerate(self.shapes)]
        drawn = list(self.axes()) + [shown for _, shown, _ in shapes]
        meetings = [it for it in self.shapes if self.is_meeting(it)]
        badges = [self.badge_at(it.lines[0], number) for number, it in enumerate(meetings, 1)]
        labels = [self.label(it, colour) for it, _, colour in shapes if not self.is_meeting(it)]
        legend = self.bottom + 48
        height = legend + 22 * self.legend_lines() + 18
        return height, drawn + labels + badges + list(self.legend(legend))
