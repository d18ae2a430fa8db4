"""Answers as rows for other programs: decimals in place of fractions, times in UTC."""
from fractions import Fraction

from .command import Refused, digits
from .numbers import decimal, root
from .times import UNIX, time_of

ROUNDED = "rounded"


def root_option(text):
    """The argument of --root: the column, and the name of the root."""
    column, _, name = text.partition("=")
    return column, name or column


def add_options(made):
    """The options of the tools that write decimals."""
    made.add_argument("--answer", metavar="N", type=int, help="the answer of this number alone")
    made.add_argument("--digits", metavar="N", type=digits, default=3,
                      help="decimal places; 3 by default")
    made.add_argument("--root", metavar="COLUMN[=NAME]", type=root_option,
                      help="show the square root of this column, under this name")


class Shown:
    """A row that is being made, and which of its columns had to be rounded."""

    def __init__(self, digits, root):
        self.digits, self.values, self.rounded = digits, {}, []
        self.squared, self.root_name = root or (None, None)

    def name(self, column):
        """The name under which a column is shown."""
        return self.root_name if column == self.squared else column

    def put(self, name, value, is_rounded):
        self.values[name] = value
        if is_rounded:
            self.rounded.append(name)

    def number(self, name, value):
        """A number as a decimal; in its place the root, if that is asked for."""
        if name == self.squared:
            self.root(self.root_name, value)
        else:
            self.put(name, *decimal(value, self.digits))

    def root(self, name, square):
        """The square root of a number as a decimal."""
        if square < 0:
            raise Refused(f"{self.squared} has no root: it is below 0")
        value, is_exact = root(square, self.digits + 3)
        text, is_rounded = decimal(value, self.digits)
        self.put(name, text, is_rounded or not is_exact)

    def time(self, name, seconds):
        """An instant in UTC."""
        text, is_rounded = clock(seconds, self.digits)
        self.put(name, text, is_rounded)


def clock(seconds, digits):
    """The text of an instant in UTC with at most so many digits, and whether that is not exact."""
    scaled = Fraction(seconds) * 10**digits
    whole = round(scaled)
    text = time_of(Fraction(whole, 10**digits), digits)
    return (text.rstrip("0") if "." in text else text), whole != scaled


def iso(seconds, digits):
    """An instant as ISO 8601 has it."""
    return clock(seconds, digits)[0].replace(" ", "T") + "Z"


def unix(seconds, digits):
    """The seconds since 1970, as a number of JSON."""
    value = round(Fraction(seconds) - UNIX, digits)
    return int(value) if value == int(value) else float(value)
