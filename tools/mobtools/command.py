"""The command line: arguments, standard streams, and how a tool ends."""
import argparse
import contextlib
import os
import signal
import sys


# The characters of a text that a message shows.
LONGEST = 60


class Refused(Exception):
    """Why an input is not accepted."""


def shown(text, longest=LONGEST):
    """A text of an input in a message, cut where it is long."""
    return text if len(text) <= longest else text[:longest] + ".."


def parser(description, usage):
    """A parser whose help is the description of a tool."""
    return argparse.ArgumentParser(usage=usage, description=description, allow_abbrev=False,
                                   formatter_class=argparse.RawDescriptionHelpFormatter)


def use_streams():
    """Standard streams in UTF-8. Bytes that are no UTF-8 come in as lone surrogates."""
    signal.signal(signal.SIGPIPE, signal.SIG_DFL)
    if None in (sys.stdin, sys.stdout, sys.stderr):
        raise Refused("a standard stream is closed")
    for stream in sys.stdin, sys.stdout, sys.stderr:
        stream.reconfigure(encoding="utf-8", errors="surrogateescape", newline="\n")


def stop(tool, why):
    """Ends the tool with status 1. Output that is still held back is dropped."""
    with contextlib.suppress(OSError, AttributeError):
        sys.stderr.write(f"{tool}: {why}\n")
        sys.stderr.flush()
    os._exit(1)


def run(tool, main):
    """Runs a tool. What is refused, by it or by the system, is its last line, with status 1."""
    try:
        use_streams()
        try:
            main()
        finally:
            sys.stdout.flush()
    except Refused as why:
        stop(tool, why)
    except OSError as fault:
        stop(tool, f"{fault.filename or 'standard output'}: {fault.strerror}")


def write_lines(path, lines):
    """Writes a file of these lines."""
    try:
        with open(path, "w", encoding="utf-8", errors="surrogateescape", newline="\n") as file:
            file.writelines(f"{it}\n" for it in lines)
    except OSError as fault:
        raise Refused(f"{path}: {fault.strerror}") from fault


def is_same_file(one, other):
    """Whether two paths lead to one file. A path may be the number of a stream."""
    try:
        return os.path.samefile(one, other) and os.path.isfile(one)
    except OSError:
        return not isinstance(one, int) and os.path.realpath(one) == os.path.realpath(other)


def whole_seconds(text):
    if not (text.isascii() and text.isdigit()):
        raise argparse.ArgumentTypeError("a whole number of seconds")
    return int(text)


def positive_seconds(text):
    if not whole_seconds(text):
        raise argparse.ArgumentTypeError("at least one second")
    return whole_seconds(text)


def digits(text):
    if not (text.isascii() and text.isdigit()) or int(text) > 18:
        raise argparse.ArgumentTypeError("a number of digits from 0 to 18")
    return int(text)


def arguments(words, roles=()):
    """The arguments, with a latitude or an offset below 0 taken for no option. Each column gets a
    `--columns` of its own, up to the last one with a role, so that files may come after them."""
    joined, rest = [], list(words)
    while rest:
        word = rest.pop(0)
        if word == "--":
            return [*joined, word, *rest]
        if word == "--columns":
            count = next((at for at, it in enumerate(rest) if it.startswith("-")), len(rest))
            while count and rest[count - 1].partition("=")[0] not in roles:
                count -= 1
            joined += [f"{word}={it}" for it in rest[:count]] or [word]
            rest = rest[count:]
            continue
        takes_sign = word in ("--around", "--zone") and rest
        joined.append(f"{word}={rest.pop(0)}" if takes_sign else word)
    return joined
