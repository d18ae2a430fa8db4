"""Makes the second half of docs/INDEX.md from the sources: `python3 checks/index.py --write`.

For each file of `specs/` it lists the definitions that clauses of public functions cite, and for
each file of `src/` its public laws, with the first sentence of the comment at the head of the file.
Without `--write` it fails if the page has something else.
"""
import functools
import glob
import os
import re
import sys

PAGE = "docs/INDEX.md"
BEGIN = "<!-- Made by checks/index.py: begin -->\n"
END = "<!-- Made by checks/index.py: end -->\n"

IMPORT = re.compile(r"ghost use Rattle\.(mob_\w+)\.specs\.((?:\w+\.)*\w+)\.\{(.*?)\};", re.S)
# The head of a block or of a function. A law is a function without a parameter and a result.
BLOCK = re.compile(r"^(?:pub trait (\w+)|(?:unsafe )?impl(?:<[^{]*?>)? (.*?)[ <{].*)")
FUNCTION = re.compile(r"^( *)(pub )?(?:const )?fn (\w+)(.*)$")
LAW = re.compile(r"(<.*>)?\(\)$")
EXPORTED = re.compile(r"^pub use [\w:]*?(\{[^}]*\}|\w+(?: as \w+)?);", re.M)


def text_of(path):
    with open(path, encoding="utf-8") as file:
        return file.read()


def layers():
    """The headings of crates.txt, each with its crates."""
    found, heading = {}, ""
    for line in text_of("crates.txt").splitlines():
        if line.startswith("#"):
            heading = line[1:].strip()
        elif line:
            found.setdefault(heading, []).append(line.split(":")[0])
    return found


def first_sentence(path):
    """The first sentence of the comment at the head of a file."""
    words = []
    for line in text_of(path).splitlines():
        comment = re.match(r"(?://!?|--)(?: (.*))?$", line)
        if not comment or not comment[1]:
            break
        words.append(comment[1])
    sentence = re.match(r".*?[.:](?= |$)", " ".join(words))
    return (sentence[0] if sentence else " ".join(words)).rstrip(".:").replace("|", "\\|")


@functools.cache
def exported(crate):
    """The names that a crate exports from its private modules, and its public modules."""
    text = text_of(f"crates/{crate}/src/lib.rt")
    names = {re.split(r" as ", name)[-1] for it in EXPORTED.findall(text)
             for name in re.findall(r"\w+(?: as \w+)?", it)}
    return names, set(re.findall(r"^pub mod (\w+);", text, re.M))


def public_functions(crate, path, lines):
    """The public functions of a file: the name, the head, and the text up to the body."""
    names, modules = exported(crate)
    module = path.split("/src/")[1].split("/")[0].removesuffix(".rt")
    whole, block = module in modules | {"lib"}, ""
    for at, line in enumerate(lines):
        if line and not line.startswith((" ", "}")):
            start = BLOCK.match(line)
            block = (start[1] or start[2]) if start and " for " not in line else ""
        head = FUNCTION.match(line)
        if not head:
            continue
        owner = block if head[1] else head[3]
        in_trait = head[1] and any(it.startswith(f"pub trait {block}") for it in lines[:at])
        if (head[2] or (block and in_trait)) and (whole or owner in names):
            end = at + 1
            while re.match(head[1] + r"( |\))", lines[end]) and not lines[end - 1].endswith("{}"):
                end += 1
            yield head[3], head[4], "\n".join(lines[at:end])


def cited(path, functions):
    """The definitions that clauses of these functions cite: pairs of crate/specs/FILE and name."""
    homes = {}
    for crate, module, names in IMPORT.findall(text_of(path)):
        if module.split(".")[0] not in ("declared", "contracts"):
            for name in filter(None, (it.strip() for it in names.split(","))):
                place = f"{crate}/specs/{module.replace('.', '/')}"
                homes[name.split(" as ")[-1].strip("◌")] = (place, name.split(" as ")[0])
    words = set(re.findall(r"[^\s(){}\[\],;.]+", "\n".join(text for _, _, text in functions)))
    return {homes[word] for word in words & set(homes)}


def gather(crates):
    """The definitions that public clauses cite, by file, and the public laws, by file."""
    definitions, laws = {}, {}
    libraries = [it for it in crates if os.path.exists(f"crates/{it}/src/lib.rt")]
    for crate in libraries:
        for path in sorted(glob.glob(f"crates/{crate}/src/**/*.rt", recursive=True)):
            functions = list(public_functions(crate, path, text_of(path).splitlines()))
            for place, name in cited(path, functions):
                definitions.setdefault(place, set()).add(name)
            found = {name for name, head, _ in functions if LAW.match(head)}
            if found:
                laws[path.removeprefix("crates/")] = found
    return definitions, laws


def table(crates, definitions, laws):
    """The table of the crates of a layer."""
    rows = []
    for crate in crates:
        places = sorted(it for it in definitions if it.startswith(f"{crate}/"))
        files = [(it, f"crates/{it}.antt", definitions[it]) for it in places]
        places = sorted(it for it in laws if it.startswith(f"{crate}/"))
        files += [(it, f"crates/{it}", laws[it]) for it in places]
        for place, path, names in files:
            listed = ", ".join(f"`{name}`" for name in sorted(names))
            rows.append(f"| [`{place}`](../{path}) | {first_sentence(path)} | {listed} |\n")
    if not rows:
        return ""
    return "| file | what it is for | definitions and laws |\n|---|---|---|\n" + "".join(rows)


def made():
    found = layers()
    crates = [crate for layer in found.values() for crate in layer]
    definitions, laws = gather(crates)
    tables = {heading: table(layer, definitions, laws) for heading, layer in found.items()}
    return "".join(f"\n### {heading}\n\n{text}" for heading, text in tables.items() if text) + "\n"


def main():
    page = text_of(PAGE)
    before, _, rest = page.partition(BEGIN)
    _, _, after = rest.partition(END)
    new = before + BEGIN + made() + END + after
    if sys.argv[1:] == ["--write"]:
        with open(PAGE, "w", encoding="utf-8") as file:
            file.write(new)
    elif new != page:
        print(f"index: FAILED: {PAGE} is stale: run python3 checks/index.py --write")
        return 1
    print(f"index: {new.count('](../crates/')} files listed")
    return 0


os.chdir(os.path.join(os.path.dirname(os.path.abspath(__file__)), ".."))
sys.exit(main())
