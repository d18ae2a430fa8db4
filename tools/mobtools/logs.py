"""A log that is being read: its reports, and which lines are at fault or dropped."""
from collections import Counter, namedtuple

from .command import write_lines
from .texts import quoted_field

# One report of a thing. `source` is the number of its file, `line` the number of its line or point.
# `time` is the text of its time, or None. `x` and `y` are None, texts of numbers, or numbers in
# degrees; after a projection they are a thousand million times the metres. `value` is a text or
# None. Between two segments nothing is known.
Report = namedtuple("Report", "seconds source line time x y value segment")


class Log:
    """What was read of a log, with its faults and what was dropped."""

    def __init__(self, sources, part="line"):
        self.sources, self.part = sources, part
        self.heading, self.value_heading, self.has_places = "name", None, True
        self.reports, self.read, self.computed = {}, 0, 0
        self.faults, self.dropped, self.notes = [], [], []
        self.skips_malformed = False

    def add(self, name, report):
        self.read += 1
        group = self.reports.get(name)
        if group is None:
            self.reports[name] = group = []
        group.append(report)

    def fault(self, source, line, why):
        """A fault that ends the run."""
        self.faults.append((source, line, str(why)))

    def malformed(self, source, line, why):
        """A line that is no report."""
        self.read += 1
        self.spoilt(source, line, why)

    def spoilt(self, source, line, why):
        """A report that was counted and is none."""
        if self.skips_malformed:
            self.drop(source, line, "malformed", why)
        else:
            self.fault(source, line, why)

    def missing(self, source, line, why, kind="without a place"):
        """A report that lacks its place."""
        self.read += 1
        self.drop(source, line, kind, why)

    def drop(self, source, line, kind, why):
        self.dropped.append((source, line, kind, str(why)))

    def place(self, source, line):
        """The text of a place in the log."""
        return f"{self.sources[source]}, {self.part} {line}" if line else self.sources[source]

    def fault_lines(self):
        """All faults, in the order of the log."""
        return [f"{self.place(source, line)}: {why}" for source, line, why in sorted(self.faults)]

    def summary(self):
        """How many reports were dropped, and why."""
        kinds = Counter(it[2] for it in self.dropped)
        why = ", ".join(f"{count} {kind}" for kind, count in kinds.items())
        return f"dropped {len(self.dropped)} of {self.read} reports{': ' * bool(why)}{why}"

    def write_dropped(self, path):
        """Writes each dropped line with its file, its number and the reason."""
        rows = (f"{quoted_field(self.sources[source])},{line},{quoted_field(why)}"
                for source, line, _, why in sorted(self.dropped))
        write_lines(path, [f"file,{self.part},reason", *rows])
