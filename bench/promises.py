"""Looks that what docs/PROMISES.md names is there.

A line that begins with `Carried by` names functions, each as crate::function, or as function where its crate is that of the
one before. Behind a colon it names clauses: each is one of the functions before it, and what stands behind its point is a
field of a record of that crate. Behind `Defined in` it names files of specs/, as crate/File or File, and behind a colon
definitions, which stand in that file. In all other lines each word that begins with a crate and `::` is a function, a type or
a module of it.

docs/CLAUSES.md is compared with the table that clauses.py makes; `--write` writes it anew.

Looks the same of docs/GLOSSARY.md: each word in backticks stands in the file of its row, as a definition, a type or a member.
"""
import pathlib
import re
import sys

import clauses

ROOT = pathlib.Path(__file__).resolve().parent.parent
CRATES = {p.name: p for p in (ROOT / "crates").iterdir() if (p / "src").is_dir()}


def text_of(crate, folder, ending):
    return "\n".join(p.read_text() for p in sorted((CRATES[crate] / folder).rglob("*" + ending)))


SPECS = {name: text_of(name, "specs", ".antt") if (p / "specs").is_dir() else "" for name, p in CRATES.items()}
CLAUSES = {crate: {name: {it.strip("[]") for it in its} for name, its, _, _ in clauses.functions(crate)} for crate in CRATES}
CODE = {name: text_of(name, "src", ".rt") for name, p in CRATES.items()}


def ticked(cell):
    return re.findall(r"`([^`]+)`", cell)


def is_defined(text, word):
    return re.search(r"(?m)^(abbrev |unfoldable |opaque |pub |record |data )+" + re.escape(word) + r"(\s|$|:)", text) is not None


def has_function(crate, word):
    name = word.split("::")[-1]
    return re.search(r"\b(fn|struct|enum|trait|const|ghost|mod) " + re.escape(name) + r"\b", CODE[crate]) is not None


def is_type(crate, word):
    return re.search(r"\b(struct|enum|trait) " + re.escape(word) + r"\b", CODE[crate]) is not None


def has_field(crate, word):
    return re.search(r"(?m)^\s+pub " + re.escape(word) + r" :", SPECS[crate]) is not None


def rows_of(page):
    head = []
    for line in page.splitlines():
        if not line.startswith("|"):
            head = []
            continue
        cells = [cell.strip() for cell in line.strip("|").split("|")]
        if not head:
            head = cells
        elif not set(line) <= set("|-: "):
            yield head, cells


def carried(text):
    """What a line of contracts names and is not there."""
    crate = None
    for item in text.split("; "):
        names, _, clauses = item.partition(": ")
        known = set()
        for name in ticked(names):
            first, _, word = name.partition("::")
            crate, word = (first, word) if first in CRATES else (crate, name)
            if crate is None or word not in CLAUSES[crate] and not is_type(crate, word):
                yield f"function {name} of {crate}"
            else:
                known |= CLAUSES[crate].get(word, set())
        for clause in ticked(clauses):
            first, _, field = clause.partition(".")
            if first not in known or field and not all(has_field(crate, part) for part in field.split(".")):
                yield f"clause {clause} of {names}"


def defined(text):
    """What a line of definitions names and is not there."""
    crate = None
    for item in text.split("; "):
        file, _, words = item.partition(": ")
        first, mark, path = ticked(file)[0].partition("/")
        crate, path = (first, path) if mark else (crate, first)
        place = ROOT / "crates" / crate / "specs" / (path + ".antt")
        if not place.is_file():
            yield f"file {crate}/specs/{path}.antt"
            continue
        for word in ticked(words):
            if not is_defined(place.read_text(), word):
                yield f"definition {word} in {crate}/specs/{path}.antt"


def missing(page):
    for line in page.splitlines():
        if line.startswith("Carried by "):
            contracts, _, definitions = line.removeprefix("Carried by ").removesuffix(".").partition(". Defined in ")
            yield from carried(contracts)
            if definitions:
                yield from defined(definitions)
        for word in ticked(line):
            crate, mark, name = word.partition("::")
            if mark and crate in CRATES and not has_function(crate, name):
                yield f"function {word}"


def unfound(page):
    for head, cells in rows_of(page):
        file = ROOT / "crates" / cells[1]
        if cells[1] == "crates.txt":
            continue
        if not file.is_file():
            yield f"file {cells[1]} of the word {cells[0]}"
            continue
        text = file.read_text()
        for word in ticked(cells[0]):
            if not re.search(r"(?m)(^\s*(abbrev |unfoldable |pub |record |data )*|\b(fn|struct|enum|trait|const|ghost|pub|type) )" + re.escape(word) + r"\b", text):
                yield f"word {word} in {cells[1]}"


TABLE = ROOT / "docs" / "CLAUSES.md"
if sys.argv[1:] == ["--write"]:
    TABLE.write_text(clauses.table())
lost = sorted(set(missing((ROOT / "docs" / "PROMISES.md").read_text())) | set(unfound((ROOT / "docs" / "GLOSSARY.md").read_text())))
if not TABLE.is_file() or TABLE.read_text() != clauses.table():
    lost.append("docs/CLAUSES.md is not that of the sources: bench/promises.sh --write")
for line in lost:
    print("missing:", line)
print(f"{len(lost)} missing")
sys.exit(1 if lost else 0)
