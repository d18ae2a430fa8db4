"""Lines of CSV, fields of table files and names of columns."""
import csv
import json
import re
import sys

from .command import Refused

RESERVED = frozenset("""
and as asc by copy create csv delete delimiter desc distinct explain false format from gist group
header index insert into is join left limit not null on or order select table true using values
where with
""".split())
CONTROL = re.compile(r"[\0-\x08\x0b-\x1f\x7f]")
MARK = "\ufeff"
csv.field_size_limit(sys.maxsize)


def is_text(text):
    """Whether a text that was read has bytes that are no UTF-8."""
    return text.isascii() or not re.search("[\ud800-\udfff]", text)


def line_of(text):
    """A line without its end. A line that no table file may have is refused."""
    text = text.removesuffix("\n").removesuffix("\r")
    if text.isascii() and text.isprintable():
        return text
    if not is_text(text):
        raise Refused("bytes that are no UTF-8")
    if CONTROL.search(text):
        raise Refused("a control character")
    return text


def check_name(text):
    """Refuses a name that no table file may have, or that takes more than one line."""
    if not is_text(text):
        raise Refused("bytes that are no UTF-8 in the name of a track")
    if CONTROL.search(text) or "\n" in text:
        raise Refused("a control character in the name of a track")


def fields_of(text, separator=","):
    """The fields of a line. One in double quotes may have separators and doubled quotes."""
    if '"' not in text:
        return text.split(separator)
    try:
        return next(csv.reader([text], delimiter=separator, strict=True))
    except csv.Error as fault:
        raise Refused("a double quote that is not closed, or a text after one") from fault


def quoted_field(text):
    """A field of CSV."""
    return '"' + text.replace('"', '""') + '"' if re.search('[",\r\n]', text) else text


def table_field(text):
    """A text as a field of a table file."""
    return quoted_field("\\" + text if text.startswith("\\") else text)


def is_name(text):
    """Whether a text is a name of a column or a table."""
    return (re.fullmatch("[A-Za-z_][A-Za-z0-9_]*", text, re.ASCII) is not None
            and text.lower() not in RESERVED)


def name_of(text):
    """A text as a name, in lower case."""
    if is_name(text):
        return text.lower()
    name = re.sub("[^a-z0-9]+", "_", text.lower()).strip("_")
    return name if is_name(name) else f"c_{name}"


def json_text(value):
    """The text of a value in JSON. It closes no element of HTML."""
    return json.dumps(value, ensure_ascii=False).replace("<", "\\u003c")
