"""Tries the links, the paths and the names of the documents: `python3 checks/links.py`.

It fails on a link or a path that leads nowhere, and on a crate, a function, a law or another name
in backticks that the code does not have. It looks at no network.
"""
import functools
import glob
import os
import re
import subprocess
import sys

# Pages for users. A name of theirs may stand in an example or in a check instead of a crate.
USERS = {f"docs/{page}.md" for page in """
REFERENCE COOKBOOK ERRORS FROM_MOBILITYDB MOBNEAR MOBTHIN MOBTILE TOOLS
""".split()} | {"README.md", "CHANGELOG.md"}
# This page names the functions of another system: only its links, paths and crates are tried.
FOREIGN = {"docs/FROM_MOBILITYDB.md"}
# Names that no crate has: calls of Rust and of the kit, options, and what a recipe makes up.
EXCEPTIONS = set("""
assert_eq into_iter_items push_str sort_by strip_prefix_is strip_suffix_is take_while zip_first
zip_second then_cmp back_total jiff_core must_fail RuntimeError ST_CPAWithin
""".split())

SKIPPED = re.compile(r"^(https?:|mailto:)")
FENCE = re.compile(r"^\s*(```|~~~)")
CODE = re.compile(r"(?<!`)`([^`\n]+)`(?!`)")
LINK = re.compile(r"\]\(<?([^)\s>]+)>?(?: \"[^\"]*\")?\)")
DEFINED = re.compile(r"^ {0,3}\[([^\]]+)\]:\s*<?(\S+?)>?\s*$")
FULL_REFERENCE = re.compile(r"\]\s?\[([^\]]+)\]")
SHORT_REFERENCE = re.compile(r"(?<![\]\\!])\[(`[^`\]]+`)\](?![\[(:])")
PATH = re.compile(r"^(crates|checks|docs|examples|tools|bench|\.ci|mob_\w+)/[\w./*{}, -]+$")
SNAKE = re.compile(r"^[a-z][a-z0-9]*(_[a-z0-9]+)+$")
CAMEL = re.compile(r"^[A-Z][a-z0-9]+([A-Z][a-z0-9]*)+$")
OF_CRATE = re.compile(r"`([\w:]+)` of `(mob_\w+)`")
PLACE = r"`(mob_\w+/(?:specs|src|proofs)[\w/.{}, ]*)`(?:\]\([^)]*\)|\]\[[^\]]*\]|\])?"
OF_PLACE = re.compile(r"`([\w:-]+)` of \[?" + PLACE)
IN_PLACE = re.compile(PLACE + r" \(((?:`[^`]+`(?:, | and |; )?)+)\)")


def files():
    """The documents."""
    named = ["README.md", "CHANGELOG.md", "bench/README.md"]
    return [path for path in named if os.path.exists(path)] + sorted(glob.glob("docs/*.md"))


def prose(path):
    """The lines of a page outside of its blocks of code, each with its number."""
    inside = False
    with open(path, encoding="utf-8") as file:
        for number, line in enumerate(file, 1):
            if FENCE.match(line):
                inside = not inside
            elif not inside:
                yield number, line.rstrip("\n")


@functools.cache
def anchors(path):
    """The anchors of the headings of a page, as GitHub and GitLab make them."""
    found, seen = set(), {}
    for _, line in prose(path):
        heading = re.match(r"^#{1,6}\s+(.*?)\s*#*$", line)
        if heading:
            text = re.sub(r"\[([^\]]*)\]\([^)]*\)", r"\1", heading.group(1))
            slug = re.sub(r"[^\w\- ]", "", text.lower()).replace(" ", "-")
            count = seen.get(slug, 0)
            seen[slug] = count + 1
            found.add(slug if count == 0 else f"{slug}-{count}")
    return found


def expanded(path):
    """The paths that a word with braces stands for: mob_x/specs/{A, B}."""
    braces = re.search(r"\{([^}]*)\}", path)
    if not braces:
        return [path]
    before, after = path[: braces.start()], path[braces.end() :]
    parts = [part.strip() for part in braces.group(1).split(",")]
    return [it for part in parts for it in expanded(before + part + after)]


def standing(path):
    """The files and folders that a path of a document stands for.

    mob_x/specs/A leaves crates/ and .antt out. CRATE, NAME, FILE and FUNCTION are any name.
    """
    base = f"crates/{path}" if path.startswith("mob_") else path
    base = re.sub(r"\b(CRATE|NAME|FILE|FUNCTION)\b", "*", base)
    return [it for end in ("", ".antt", ".rt") for it in glob.glob(base.rstrip("/") + end)]


@functools.cache
def words_at(place):
    """The words of the files that a place of a document means, with those of its folders."""
    found = set()
    for top in [top for path in expanded(place) for top in standing(path)]:
        inside = os.path.isdir(top) and glob.glob(f"{top}/**/*.*", recursive=True)
        found |= words_of(inside or [top])
    return found


def listed_files():
    """The files of the repository: those of git, or all but what is built."""
    command = ["git", "ls-files", "-z", "--cached", "--others", "--exclude-standard"]
    listed = subprocess.run(command, capture_output=True, text=True, check=False)
    paths = [it for it in listed.stdout.split("\0") if it] if listed.returncode == 0 else []
    if not paths:
        walked = [(top, name) for top, _, names in os.walk(".") for name in names]
        paths = [os.path.join(top, name)[2:] for top, name in walked if "/out/" not in top]
    return [it for it in paths if os.path.exists(it)]


def words_of(paths):
    """All words of some files, and the names of these files."""
    found = set()
    for path in paths:
        found.update(re.findall(r"\w+", os.path.basename(path)))
        try:
            with open(path, encoding="utf-8") as file:
                found.update(re.findall(r"[\w-]+", file.read()))
        except UnicodeDecodeError:
            continue
    return found | {part for word in found if "-" in word for part in word.split("-")}


class Words:
    """The words of each crate, of all crates, and of these with the examples and checks."""

    def __init__(self):
        paths = listed_files()
        by_crate = {}
        for path in paths:
            if path.startswith("crates/") and path.endswith((".rt", ".antt", ".edit")):
                by_crate.setdefault(path.split("/")[1], []).append(path)
        self.by_crate = {crate: words_of(paths) for crate, paths in by_crate.items()}
        self.code = EXCEPTIONS.union(*self.by_crate.values())
        folders = ("examples/", "checks/", "bench/", "tools/")
        beside = [it for it in paths if it.startswith(folders) or "/" not in it]
        beside = [it for it in beside if not it.endswith((".md", ".svg", ".png"))]
        self.known = self.code | words_of(beside)


def wrong_links(path, line, defined):
    """Links of a line without a target."""
    for target in LINK.findall(line) + [it.group(2) for it in [DEFINED.match(line)] if it]:
        if SKIPPED.match(target):
            continue
        place, _, anchor = target.partition("#")
        file = os.path.normpath(os.path.join(os.path.dirname(path), place)) if place else path
        if not os.path.exists(file):
            yield f"a link leads nowhere: {target}"
        elif anchor and file.endswith(".md"):
            if anchor not in anchors(file):
                yield f"a link names a heading that its page does not have: {target}"
    plain = CODE.sub(lambda it: re.sub(r"[\[\]]", " ", it.group(0)), line)
    for name in FULL_REFERENCE.findall(plain) + SHORT_REFERENCE.findall(plain):
        if name.lower() not in defined:
            yield f"a link has no target on this page: [{name}]"


def names_of_places(line):
    """Each name that a line gives to a file or folder, with that place."""
    for place, names in IN_PLACE.findall(line):
        yield from ((name, place) for name in re.findall(r"`([\w-]+)`", names))
    for name, place in OF_PLACE.findall(line):
        yield from ((it, place) for it in re.findall(r"^[\w-]+$", name))


def misplaced_names(line, words):
    """Names that the crate or the file beside them does not have."""
    for name, crate in OF_CRATE.findall(line):
        last = name.split("::")[-1]
        if last not in words.by_crate.get(crate, {last}) and last not in EXCEPTIONS:
            yield f"no `{last}` in {crate}"
    for name, place in names_of_places(line):
        if name not in words_at(place):
            yield f"no `{name}` in {place}"


def wrong_names(path, line, words):
    """Crates, paths and names in backticks that do not exist."""
    known = words.known if path in USERS else words.code
    for word in CODE.findall(line):
        if re.match(r"^(mob_\w+|mobsql)$", word):
            if not os.path.isdir(f"crates/{word}"):
                yield f"no crate {word}"
        elif PATH.match(word) and "/out" not in word:
            for it in expanded(word if "{" in word else word.split()[0]):
                if not standing(it):
                    yield f"a path leads nowhere: {it}"
        elif path not in FOREIGN:
            for name in re.split(r"::|\.", word.removesuffix("()")):
                if (SNAKE.match(name) or CAMEL.match(name)) and name not in known:
                    yield f"a name that the code does not have: {name}"


def faults_of(path, words):
    """The faults of a page, each with the number of its line."""
    lines = list(prose(path))
    defined = {it.group(1).lower() for _, line in lines if (it := DEFINED.match(line))}
    for at, (number, line) in enumerate(lines):
        found = [*wrong_links(path, line, defined), *wrong_names(path, line, words)]
        # A sentence may be broken after `name` of, so such a line is read with the next one.
        if at + 1 < len(lines) and re.search(r"`( of| \(`?.*,?)?$", line):
            line += " " + lines[at + 1][1].strip()
        yield number, found + list(misplaced_names(line, words))


def main():
    words, failed, count = Words(), False, 0
    for path in files():
        for number, found in faults_of(path, words):
            count += 1
            for fault in found:
                failed = True
                print(f"{path}:{number}: {fault}")
    print(f"links: {count} lines tried")
    return 1 if failed else 0


sys.exit(main())
