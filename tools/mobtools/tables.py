"""Table files: the rows of a log, in files that mobsql accepts, and the statements for them."""
import os

from .command import write_lines
from .texts import is_text, name_of, table_field
from .tracks import literal, readings_of, track_of

FILE_BYTES = 16_777_216
INSTANTS = 100_000
ROWS = 1_000_000


def quoted(text):
    """A literal as a field of a table file."""
    return '"' + text.replace('"', '""') + '"'


def size_of(line):
    """The bytes of a line in a file."""
    return (len(line) if line.isascii() else len(line.encode("utf-8", "surrogateescape"))) + 1


class Table:
    """The table of a log: a row for each thing."""

    def __init__(self, log, asked):
        self.log, self.asked = log, asked
        self.has_places = log.has_places
        self.columns = [(asked.key or log.heading, "text"), (asked.column, asked.type)]
        if self.has_places:
            self.columns[1] = (asked.column, "tgeompoint")
            if log.value_heading:
                self.columns.append((log.value_heading, asked.type))
        self.rows, self.bounds, self.square = [], [], 0

    def header(self):
        return ",".join(name for name, _ in self.columns)

    def build(self):
        """Makes the rows, by name."""
        for name, reports in sorted(self.log.reports.items()):
            if not reports:
                self.log.notes.append(f"{name}: no report is left")
                continue
            fields = [table_field(name)]
            if self.has_places:
                pieces, square = track_of(reports, self.asked)
                fields.append(self.field(name, reports[0], pieces))
                self.square = max(self.square, square)
                self.bounds.append((name, square))
            if not self.has_places or self.log.value_heading:
                fields.append(self.field(name, reports[0], readings_of(reports, self.asked)))
            self.rows.append(",".join(fields))
            if size_of(self.rows[-1]) + size_of(self.header()) > FILE_BYTES:
                self.log.fault(reports[0].source, reports[0].line, f"{name} is larger than a file "
                               f"may be, {FILE_BYTES} bytes: take a shorter time")
        if len(self.rows) > ROWS:
            self.log.fault(0, 0, f"a table has at most {ROWS} rows, this one {len(self.rows)}")

    def field(self, name, first, pieces):
        """The field of a value over time; a value that mobsql does not read is a fault."""
        if not pieces:
            return "\\N"
        instants = sum(map(len, pieces))
        if instants > INSTANTS:
            self.log.fault(first.source, first.line, f"{name} has {instants} reports, and a value "
                           f"at most {INSTANTS}: take a shorter time, or fewer with --every")
        return quoted(literal(pieces))

    def bound_lines(self, unit):
        """How far the tracks were moved."""
        yield from (f"{name}: at most {unit.root_above(square)} m from the reported track"
                    for name, square in self.bounds)
        yield f"all tracks: at most {unit.root_above(self.square)} m from the reported ones"


def parts_of(header, rows):
    """The rows in parts, each within the size of a file."""
    parts, size = [[]], FILE_BYTES + 1
    for row in rows:
        its_size = size_of(row)
        if size + its_size > FILE_BYTES:
            parts.append([])
            size = size_of(header)
        parts[-1].append(row)
        size += its_size
    return parts[1:] or [[]]


def paths_of(path, count):
    """The paths of the parts of a table."""
    stem, end = os.path.splitext(path)
    return [path] if count == 1 else [f"{stem}_{it}{end}" for it in range(1, count + 1)]


def table_name(path):
    """The name of a table, by that of its file."""
    return name_of(os.path.splitext(os.path.basename(path))[0])


def string(text):
    """A text as a string of a script."""
    return "'" + text.replace("'", "''") + "'"


def write_files(path, table, parts):
    """Writes the parts of a table to files, and yields the statements that read them."""
    name = table_name(path)
    columns = ", ".join(f"{column} {kind}" for column, kind in table.columns)
    yield f"CREATE TABLE {name} ({columns});"
    for its_path, rows in zip(paths_of(path, len(parts)), parts):
        write_lines(its_path, [table.header(), *rows])
        yield f"COPY {name} FROM {string(its_path)} WITH (FORMAT csv, HEADER);"


def can_be_named(path):
    """Whether a script can name a file."""
    return is_text(path) and path.isprintable()
