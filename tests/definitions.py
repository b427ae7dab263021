#!/usr/bin/env python3
"""Follows each definition that the promises below and the clauses of `run` and of the calls for C rest on, from file to file, and
fails where no row of docs/DEFINITIONS.md names one with its file, where a row names one that its files don't have, where a part of them is larger than
the page says at its head, and where the table that is to be read first differs from the core."""
import argparse
import glob
import os
import re
import sys

ROOT = os.path.dirname(os.path.dirname(os.path.abspath(__file__)))
PROMISES = [
    ("answer_texts", "Headline", "IsSynthesisText"),
    ("answer_texts", "Headline", "IsEmbeddingText"),
    ("answer_texts", "MoveTexts", "IsMovesText"),
    ("answer_texts", "MarginTexts", "IsMarginText"),
    ("answer_texts", "CornerTexts", "IsCornersText"),
]
# Where calls stand whose clauses are followed, and how they begin.
RUN = ("crates/cts_program/src/run.rt", r"pub fn run<")
LIBRARY = ("crates/cts_c/src/*.rt", r'pub extern "C" fn ')
# What the headline says of the chip: its period, its arrivals, its skews and its wire.
CORE = [("outcomes", "Syntheses", "IsSynthesis")]
HEAD = re.compile(r"(?:abbrev|unfoldable)? ?pub (?:record |data )?([^\s({:]+)")
NAME = re.compile(r"[A-Za-z_][\w'-]*(?:\.[A-Za-z_][\w'-]*)?")
USE = re.compile(r"(?:pub |ghost )?use Rattle\.(\w+)\.(?:specs|proofs)\.([\w.]+?)(?:\.\{(.*)\}| as (\w+));?$")

FOLDER = re.compile(r"`crates/(\w+)/specs/?([\w/]*)`")


def text_of(path):
    with open(os.path.join(ROOT, path), encoding="utf-8") as file:
        return file.read()


def imports_of(text):
    """What the lines of a file import: crate, file and name of each, by its name in the file. A whole file has no name."""
    found = {}
    for line in re.findall(r"^(?:pub |ghost )?use Rattle\..*$", text, re.MULTILINE):
        use = USE.match(line)
        if not use:
            sys.exit(f"definitions.py can't read this line: {line}")
        crate, file, names, alias = use.groups()
        if alias:
            found[alias] = (crate, file, None)
        for word in (names or "").split(", "):
            name, _, other = word.partition(" as ")
            found[other or name] = (crate, file, name)
    return found


def read_specs():
    """The text of each definition by crate, file and name, and what each file imports."""
    texts, imports = {}, {}
    for path in glob.glob("crates/*/specs/**/*.antt", root_dir=ROOT, recursive=True):
        crate, file = re.match(r"crates/(\w+)/specs/(.*)\.antt$", path).groups()
        where, name = (crate, file.replace("/", ".")), None
        text = text_of(path)
        imports[where] = imports_of(text)
        for line in text.splitlines():
            if not line.startswith(("use", "pub use", "--")):
                head = HEAD.match(line)
                name = head.group(1) if head else name
                if name:
                    texts[(*where, name)] = texts.get((*where, name), "") + line + "\n"
    return texts, imports


def source_of(texts, imports, name):
    """Where a name is defined that a file has, or imports and hands on."""
    while name and name not in texts:
        name = imports.get(name[:2], {}).get(name[2])
    return name


def cited(texts, imports, text, here):
    """The definitions that a text of the file here names."""
    for word in set(NAME.findall(text)):
        first, _, rest = word.partition(".")
        there = imports[here].get(first, (*here, first))
        yield source_of(texts, imports, (*there[:2], rest) if there[2] is None else there)


def followed(texts, imports, start):
    """The definitions that some definitions rest on, with themselves."""
    passed, left = set(), list(start)
    while left:
        definition = left.pop()
        if definition and definition not in passed:
            passed.add(definition)
            left.extend(cited(texts, imports, texts[definition], definition[:2]))
    return passed


def clauses_of(texts, imports, files, begin):
    """The definitions that the clauses of some calls name."""
    found = set()
    for path in glob.glob(files, root_dir=ROOT):
        text = text_of(path)
        here = (path.split("/")[1], path)
        imports[here] = imports_of(text)
        for clauses in re.findall(rf"^{begin}.*?^\{{$", text, re.MULTILINE | re.DOTALL):
            found.update(cited(texts, imports, clauses, here))
    if not found:
        sys.exit(f"{files} has no clauses of such calls")
    return found - {None}


def rows_of(page):
    """Each row of the page's tables: the names in its first cell, and the files of its second one. Their folders stand there too,
    or else at the head of the column or of the section."""
    heading, column = "", ""
    for line in page.splitlines():
        cells = line.strip("| ").split(" | ")
        if line.startswith("#"):
            heading = line
        elif line.startswith(("| Definition |", "| Helper |")):
            column = cells[1]
        elif line.startswith("| "):
            folders = next(filter(None, map(FOLDER.findall, (cells[1], column, heading))), [])
            files = re.findall(r"([\w/]+)\.antt", cells[1])
            paths = {(crate, f"{folder}/{file}".strip("/").replace("/", ".")) for crate, folder in folders for file in files}
            yield re.findall(r"`([^`]+)`", cells[0]), paths


def sizes_told(page):
    """How many definitions and lines each part has at most, as the table at the head of the page says."""
    rows = re.findall(r"^\| (core|headline|run|library) \|.*?\| ([\d,]+) \| ([\d,]+) \|$", page, re.MULTILINE)
    return {name: tuple(int(number.replace(",", "")) for number in numbers) for name, *numbers in rows}


def size_of(texts, definitions):
    """How many definitions these are, and how many lines they have without comments."""
    lines = [line.strip() for definition in definitions for line in texts[definition].splitlines()]
    return len(definitions), sum(1 for line in lines if line and not line.startswith("--"))


def larger_parts(texts, imports, run, library, page):
    """Each part that is larger than the page says, or that it doesn't name. The library's is what the program doesn't rest on."""
    told = sizes_told(page)
    parts = {name: followed(texts, imports, begin) for name, begin in (("core", CORE), ("headline", PROMISES[:1]), ("run", run))}
    parts["library"] = followed(texts, imports, library) - parts["run"]
    for name, definitions in parts.items():
        found = size_of(texts, definitions)
        if name not in told or any(here > most for here, most in zip(found, told[name])):
            yield f"docs/DEFINITIONS.md says {told.get(name)} definitions and lines of {name}, which has {found}"


def misread(texts, imports, page):
    """What the table that is to be read first says wrongly: rows with another number of lines, and what of the core is in none."""
    left = followed(texts, imports, CORE)
    for row in re.findall(r"^\| .* \|$", page[page.index("| To read |") :].split("\n\n")[0], re.MULTILINE)[1:]:
        what, file, names, lines = (cell.strip() for cell in row.strip("|").split(" | "))
        place = file.split(".antt")[0].replace("/", ".")
        here = {definition for definition in left if definition[1] == place and f"`{definition[2]}`" in names}
        left -= here
        if (len(here), int(lines)) != (names.count("`") // 2, size_of(texts, here)[1]):
            yield f"docs/DEFINITIONS.md says {lines} lines of what to read of {what}, which has {size_of(texts, here)[1]}"
    yield from (f"docs/DEFINITIONS.md doesn't name {name} of the core among what to read first" for _, _, name in sorted(left))


def main():
    parser = argparse.ArgumentParser(description=__doc__)
    parser.add_argument("--of", nargs=3, metavar=("CRATE", "FILE", "NAME"), help="begin at this definition alone")
    other = parser.parse_args().of
    texts, imports = read_specs()
    run = PROMISES + sorted(clauses_of(texts, imports, *RUN))
    library = sorted(clauses_of(texts, imports, *LIBRARY))
    passed = followed(texts, imports, [tuple(other)] if other else run + library)
    page = text_of("docs/DEFINITIONS.md")
    wrong = [] if other else [*larger_parts(texts, imports, run, library, page), *misread(texts, imports, page)]
    print(*wrong, sep="\n", end="\n" if wrong else "")
    named, failed = set(), len(wrong)
    for names, places in rows_of(page):
        for name in names:
            there = {(*place, name) for place in places} & texts.keys()
            named |= there
            if not there:
                print(f"docs/DEFINITIONS.md names {name}, which isn't in {sorted(places)}")
                failed += 1
    for crate, file, name in sorted(passed - named):
        print(f"docs/DEFINITIONS.md doesn't name {name} of crates/{crate}/specs/{file.replace('.', '/')}.antt")
        failed += 1
    print(f"{len(passed & named)} passed, {failed} failed")
    return 1 if failed else 0


sys.exit(main())
