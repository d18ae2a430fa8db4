"""Tries the rules of docs/CONTRIBUTING.md that a script can try: `python3 checks/rules.py`.

`checks/rules_known` lists what broke a rule before the rule was tried. It may only shrink: a line
without its fault is a fault too. `python3 checks/rules.py --shrink` removes such lines.
"""
import functools
import glob
import os
import re
import sys

KNOWN = "checks/rules_known"
LONGEST_CHAIN = 8
COLUMNS = 100
README_LINES = 150
FUNCTION_LINES = 40
WRONG_BODIES = 4
# The crates that may have more wrong bodies: docs/GATE.md says why.
MORE_WRONG_BODIES = {"mob_knn": 6, "mob_statements": 6}
# Layers of crates.txt that do not count towards a chain.
UNCOUNTED_LAYERS = {"Tests", "What times crates"}

FUNCTION = re.compile(r"^( *)(?:pub(?:\(\w+\))? )?(?:const )?fn (\w+)(.*)$", re.M)
DEFINITION = re.compile(
    r"^(?:\s*(?:abbrev|unfoldable|opaque) pub|\s*pub (?:record|data|abbrev|unfoldable)|pub) "
    r"(?!(?:mod|use|record|data|abbrev|unfoldable)\b)(\S+)", re.M)


@functools.cache
def text_of(path):
    with open(path, encoding="utf-8") as file:
        return file.read()


def sources(crate, *folders):
    """The files of some folders of a crate."""
    return sorted(path for folder in folders for kind in ("rt", "antt")
                  for path in glob.glob(f"crates/{crate}/{folder}/**/*.{kind}", recursive=True))


def read_crates():
    """The layers of crates.txt, and the libraries of each crate."""
    layers, uses, heading = {}, {}, ""
    for line in text_of("crates.txt").splitlines():
        if line.startswith("#"):
            heading = line[1:].strip()
        elif line:
            name, libraries = line.split(":")
            layers.setdefault(heading, []).append(name)
            uses[name] = libraries.split()
    return layers, uses


LAYERS, USES = read_crates()


def libraries_are_listed():
    """Lowest layer first, and no library that neither the crate nor a wrong body names."""
    seen = set()
    for crate, libraries in USES.items():
        paths = sources(crate, "src", "specs", "proofs")
        paths += glob.glob(f"crates/{crate}/must-fail/*.edit")
        words = {word for path in paths for word in re.findall(r"\w+", text_of(path))}
        for library in libraries:
            if library in USES and library not in seen:
                yield f"order {crate}: crates.txt lists {library} after it"
            if library not in words:
                yield f"unused {crate}: crates.txt lists {library}, which it does not name"
        seen.add(crate)


def has_running_code(crate):
    """Whether a crate has a function that is no law: a law has no parameter and no result."""
    heads = [it for path in sources(crate, "src") for it in FUNCTION.findall(text_of(path))]
    return any(not re.match(r"(<.*>)?\(\)$", after) for _, _, after in heads)


def chains_are_short():
    """No chain of crates is too long; docs/ARCHITECTURE.md says what counts."""
    uncounted = {"mob_list"} | {crate for layer in UNCOUNTED_LAYERS for crate in LAYERS[layer]}
    height = {}
    for crate, libraries in USES.items():
        program = os.path.exists(f"crates/{crate}/src/main.rt")
        counts = crate not in uncounted and not program and has_running_code(crate)
        height[crate] = counts + max([height.get(it, 0) for it in libraries], default=0)
        if counts and height[crate] > LONGEST_CHAIN:
            yield f"chain {crate}: it ends a chain of {height[crate]} crates"


def crates_are_introduced():
    """docs/ARCHITECTURE.md names each crate in its layer."""
    page = text_of("docs/ARCHITECTURE.md")
    listed = page[page.index("\n## The crates\n"):page.index("\n## The repository\n")]
    items = dict(re.findall(r"^- \*\*(.+?)\*\*(.*?)(?=^- |\Z)", listed, re.M | re.S))
    for heading, crates in LAYERS.items():
        if heading not in items:
            yield f"layer {heading}: docs/ARCHITECTURE.md has no such layer"
        for crate in crates:
            if f"`{crate}`" not in items.get(heading, f"`{crate}`"):
                yield f"layer {crate}: docs/ARCHITECTURE.md does not name it under {heading}"


def names_are_defined_once():
    """No public name is defined in the specs/ of two crates."""
    crates = {}
    for crate in USES:
        for path in sources(crate, "specs"):
            for name in DEFINITION.findall(text_of(path)):
                crates.setdefault(name, set()).add(crate)
    for name, defining in sorted(crates.items()):
        if len(defining) > 1:
            yield f"twice {name} {' '.join(sorted(defining))}: each defines it"


def files_have_heads():
    """Each file of code and of definitions begins with a comment."""
    for crate in USES:
        for path in sources(crate, "src", "specs"):
            if not text_of(path).startswith(("//", "--")) and not path.endswith("/Lib.antt"):
                yield f"head {path}: it has no head comment"


def function_at(lines, at, indent):
    """The lines of the function that begins at a line, to its closing brace or semicolon."""
    begun = False
    for number in range(at, len(lines)):
        line = lines[number]
        closed = line == indent + "}" or re.match(indent + r"\{.*\}$", line)
        if closed or (number == at and line.endswith("}")) or (line.endswith(";") and not begun):
            return lines[at:number + 1]
        begun |= line.endswith("{")
    return lines[at:]


def functions_are_short():
    """A function has few lines and one loop."""
    for crate in USES:
        for path in sources(crate, "src"):
            text = text_of(path)
            for head in FUNCTION.finditer(text):
                at = text.count("\n", 0, head.start())
                lines = function_at(text.splitlines(), at, head[1])
                loops = sum(bool(re.match(r" *(?:for|while|loop)\b", it)) for it in lines)
                if len(lines) >= FUNCTION_LINES:
                    yield f"long {path} {head[2]}: it has {len(lines)} lines"
                if loops > 1:
                    yield f"loops {path} {head[2]}: it has {loops} loops"


def clauses_have_names():
    """Each clause has a name."""
    for crate in USES:
        for path in sources(crate, "src"):
            for clause in re.findall(r"^ *(?:ensures|requires) (?!\w+ )(.*)$", text_of(path), re.M):
                yield f"clause {path}: no name before {clause}"


def wrong_bodies_are_few():
    """A crate has few wrong bodies. Each can be tried: the crate has what its new text names."""
    for crate in USES:
        paths = sorted(glob.glob(f"crates/{crate}/must-fail/*.edit"))
        if len(paths) > MORE_WRONG_BODIES.get(crate, WRONG_BODIES):
            yield f"bodies {crate}: it has {len(paths)} wrong bodies"
        for path in paths:
            named = set(re.findall(r"\b(mob_\w+)::", text_of(path)))
            for library in named - set(USES[crate]):
                yield f"bodies {path}: it names {library}, which crates.txt does not list"


def wide_lines(path):
    """The numbers of the lines of a document that are too wide, outside of blocks and tables."""
    inside = False
    for number, line in enumerate(text_of(path).splitlines(), 1):
        inside ^= line.startswith("```")
        table_or_link = re.match(r" *\||\[[^\]]*\]: ", line)
        if len(line) > COLUMNS and not inside and not table_or_link:
            yield number


def lines_are_narrow():
    """Documents and scripts have narrow lines, and README is short."""
    for path in ["README.md", "CHANGELOG.md", "bench/README.md", *sorted(glob.glob("docs/*.md"))]:
        for number in wide_lines(path):
            yield f"wide {path}: line {number} has more than {COLUMNS} columns"
    if len(text_of("README.md").splitlines()) > README_LINES:
        yield f"wide README.md: it has more than {README_LINES} lines"
    for path in scripts():
        count = sum(len(line) > COLUMNS for line in text_of(path).splitlines())
        if count:
            yield f"wide {path}: {count} lines have more than {COLUMNS} columns"


def scripts():
    """The scripts beside the crates."""
    yield from ("try", "build.sh", ".ci/run")
    for folder in ("checks", "bench", "tools"):
        for path in sorted(glob.glob(f"{folder}/**/*", recursive=True)):
            data = path.endswith((".md", ".rows", ".csv")) or path == KNOWN
            if os.path.isfile(path) and not data and "/__pycache__/" not in path:
                yield path


RULES = (
    libraries_are_listed, chains_are_short, crates_are_introduced,
    names_are_defined_once, files_have_heads, functions_are_short, clauses_have_names,
    wrong_bodies_are_few, lines_are_narrow,
)


def main():
    faults = {}
    for rule in RULES:
        for fault in rule():
            faults.setdefault(fault.split(": ")[0], []).append(fault)
    lines = text_of(KNOWN).splitlines()
    known = {line for line in lines if line and not line.startswith("#")}
    if sys.argv[1:] == ["--shrink"]:
        with open(KNOWN, "w", encoding="utf-8") as file:
            file.writelines(f"{it}\n" for it in lines if it not in known or it in faults)
        known &= set(faults)
    new = [it for place in faults if place not in known for it in faults[place]]
    stale = [it for it in sorted(known) if it not in faults]
    for fault in new:
        print(f"rules: FAILED: {fault}")
    for place in stale:
        print(f"rules: FAILED: {place}: it is mended; remove it from {KNOWN}")
    print(f"rules: {len(RULES)} tried, {len(known)} known faults, {len(new) + len(stale)} others")
    return 1 if new or stale else 0


sys.exit(main())
