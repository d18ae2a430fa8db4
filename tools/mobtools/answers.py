"""Answers of mobsql: their records, and the values in their fields, exactly."""
import csv
import re
from collections import namedtuple
from fractions import Fraction

from .command import Refused
from .texts import is_text
from .times import seconds_of

NUMBER = r"-?(?:0|[1-9]\d{0,30})(?:/[1-9]\d{0,30})?"
MOMENT = r"(\d{4}-\d\d-\d\d \d\d:\d\d:\d\d(?:\.\d+)?)(?:\((\d+)/(\d+)\))?\+00"
POINT = re.compile(rf"POINT\(({NUMBER}) ({NUMBER})\)")
RING = re.compile(rf"\({NUMBER} {NUMBER}(?:,{NUMBER} {NUMBER})+\)")
POLYGON = re.compile(rf"POLYGON\({RING.pattern}(?:,{RING.pattern})*\)")
SPAN = re.compile(rf"([\[(]){MOMENT}, {MOMENT}([\])])")
PART = re.compile(rf'([\[(]?)(POINT\({NUMBER} {NUMBER}\)|{NUMBER}|[tf]|"(?:[^"\\]|\\.)*")'
                  rf"@{MOMENT}([\])]?)")
NULL = "\\N"

# A value over time: its kind (`point`, `number`, `truth` or `text`) and its pieces, each a list of
# a value and a second. A span: its ends as seconds.
Timed = namedtuple("Timed", "kind pieces")
Span = namedtuple("Span", "start end")
Place = namedtuple("Place", "x y")
Area = namedtuple("Area", "rings")
Answer = namedtuple("Answer", "names rows")


def second(moment, above, below):
    exact = seconds_of(moment)
    return exact + Fraction(int(above), int(below)) if below else exact


def place(text):
    return Place(*map(Fraction, POINT.fullmatch(text).groups()))


def timed_value(text):
    """A value in a value over time, with its kind."""
    if text.startswith("POINT"):
        return "point", place(text)
    if text.startswith('"'):
        return "text", re.sub(r"\\(.)", r"\1", text[1:-1])
    return ("truth", text == "t") if text in "tf" else ("number", Fraction(text))


def listed(pattern, text):
    """The matches of a pattern that are all of a text, with `, ` between them; or None."""
    found, at = [], 0
    while True:
        match = pattern.match(text, at)
        if not match:
            return None
        found.append(match)
        at = match.end()
        if at == len(text):
            return found
        if not text.startswith(", ", at):
            return None
        at += 2


def without_braces(text):
    return text[1:-1] if text.startswith("{") and text.endswith("}") else text


def timed(text):
    """A value over time; None for any other text."""
    found = listed(PART, without_braces(text)) if "@" in text else None
    if found is None:
        return None
    kinds, pieces, inside = set(), [], False
    for opened, shown, *moment, closed in map(re.Match.groups, found):
        kind, value = timed_value(shown)
        kinds.add(kind)
        if opened or not inside:
            pieces.append([])
        pieces[-1].append((value, second(*moment)))
        inside = (inside or opened) and not closed
    return Timed(kinds.pop(), pieces) if len(kinds) == 1 else None


def spans(text):
    """The spans of a span or of a set of spans; None for any other text."""
    found = listed(SPAN, without_braces(text)) if text[:1] in ("{", "[", "(") else None
    if found is None:
        return None
    return [Span(second(*it[1:4]), second(*it[4:7])) for it in map(lambda it: it.groups(), found)]


def plain(text):
    """A text of an answer without the backslash that it may get in front."""
    return text[1:] if text.startswith("\\\\") else text


def value_of(text):
    """What a field is: a value over time, a list of spans, a place, an area, a number as mobsql
    prints it, None where it is NULL, and else its text."""
    if text == NULL:
        return None
    if re.fullmatch(NUMBER, text, re.ASCII) and str(Fraction(text)) == text:
        return Fraction(text)
    if POINT.fullmatch(text):
        return place(text)
    if POLYGON.fullmatch(text):
        return Area([[Place(*map(Fraction, it.split())) for it in ring[1:-1].split(",")]
                     for ring in RING.findall(text)])
    try:
        found = timed(text) or spans(text)
    except Refused:
        found = None
    return plain(text) if found is None else found


def column_type(answer, at):
    """The type of the values of a column, NULL aside. A column with texts that look like something
    else beside others is one of texts. A value over time in the first row speaks for all."""
    values = (value_of(row[at]) for row in answer.rows if row[at] != NULL)
    found = type(next(values, None))
    return found if found is Timed or all(type(it) is found for it in values) else str


def typed(text, kind):
    """The value of a field in a column of a type."""
    return plain(text) if kind is str and text != NULL else value_of(text)


def records(lines):
    """The records of some lines; bytes that are no text are refused."""
    reader = csv.reader(lines)
    try:
        for record in reader:
            if not all(map(is_text, record)):
                raise Refused(f"answer, line {reader.line_num}: bytes that are no UTF-8")
            yield reader.line_num, record
    except csv.Error as fault:
        raise Refused(f"answer, line {reader.line_num}: {fault}") from fault
    except OSError as fault:
        raise Refused(f"standard input: {fault.strerror}") from fault


def answers(lines):
    """Each answer: its names and its rows, as texts. An answer ends with the count of its rows."""
    found, line = [], 0
    for line, record in records(lines):
        if found and record == [f"({len(found) - 1} rows)"]:
            yield Answer(found[0], found[1:])
            found = []
            continue
        if found and len(record) != len(found[0]):
            raise Refused(f"answer, line {line}: {len(record)} fields, and {len(found[0])} columns")
        found.append(record)
    if found:
        raise Refused(f"answer, line {line}: an answer ends with its count of rows")


def chosen(found, number):
    """The answer of a number."""
    if not 1 <= number <= len(found):
        raise Refused(f"no answer {number}: there are {len(found)}")
    return found[number - 1]
