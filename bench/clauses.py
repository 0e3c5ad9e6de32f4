"""Makes the table of clauses and definitions from the sources: for each crate of the product its public functions with the
names of their clauses, and the definitions that these clauses cite or docs/PROMISES.md names, each with the sentence that
stands above it and, of a record, the names of its fields."""
import collections
import pathlib
import re

ROOT = pathlib.Path(__file__).resolve().parent.parent
HEAD = """# Clauses and definitions

Made by `bench/promises.sh --write` from the sources, and compared by `bench/promises.sh`: change those, and not this page. docs/PROMISES.md says what is promised, and docs/GLOSSARY.md what the words mean.

For each crate: its public functions, with the names of their clauses, conditions in brackets, and the first sentence of what they say; and the definitions that these clauses cite or docs/PROMISES.md names, with theirs and, of a record, its fields. A function of a trait stands under the trait.
"""
FUNCTION = re.compile(r"^(?P<indent> *)(?P<public>pub )?(?:const )?(?:unsafe )?fn (?P<name>\w+)")
BLOCK = re.compile(r"^(?:pub )?(?:impl(?:<[^>]*>)? (?:(?P<of>[\w:]+)(?:<.*>)? for )?&?(?:'\w+ )?(?P<type>\w+)|trait (?P<trait>\w+))")
CLAUSE = re.compile(r"(?m)^ *(requires|ensures)\*? ?(\w+)? ?\{")
FIELD = re.compile(r"^  pub ([^\s:]+) :")
DEFINITION = re.compile(r"^\s*(?:(?:abbrev|unfoldable|opaque|pub|data|record)\s+)+([^\s:({]+)")


def product():
    """The crates in the order of crates.txt, but for those that hold tests alone."""
    for line in (ROOT / "crates.txt").read_text().splitlines():
        name = re.split(r"[ :]", line)[0]
        if name and not name.startswith(("#", "trial_", "row_")) and not name.endswith(("_trials", "_rows")):
            yield name


def exported(crate):
    """The names that the crate's root makes public."""
    root = ROOT / "crates" / crate / "src" / "lib.rt"
    text = root.read_text() if root.is_file() else ""
    names = set()
    for path in re.findall(r"(?m)^pub use ([^;]+);", text):
        names |= set(re.findall(r"\w+", path.partition("{")[2] if "{" in path else path.rpartition("::")[2]))
    return names


def sentence(lines):
    text = " ".join(" ".join(lines).split()).replace("|", "\\|")
    found = re.match(r"(.+?)\.(?: |$)", text)
    return found[1] if found else text


def imports(text):
    """The definitions that a file's ghost uses name: the crate and the file of each."""
    found = {}
    for crate, path, names in re.findall(r"ghost use Rattle\.(\w+)\.specs\.([\w.]+?)\.\{([^}]*)\}", text):
        if "declared" not in path:
            for name in names.split(","):
                old, _, new = name.strip().partition(" as ")
                found[new or old] = crate, path, old
    return found


def ends_contract(line, indent, is_first):
    """Whether a function's body begins on this line, or it has none."""
    is_head = is_first or line.startswith(indent + ")")
    return line == indent + "{" or line.endswith(";") or line.endswith("{}") or is_head and line.endswith(" {")


def functions(crate):
    """Each public function: its name in the crate, its clauses, its sentence, and what these cite."""
    public = exported(crate)
    for file in sorted((ROOT / "crates" / crate / "src").rglob("*.rt")):
        text = file.read_text()
        known, block, is_trait, doc = imports(text), "", False, []
        lines = text.split("\n")
        for at, line in enumerate(lines):
            stripped = line.strip()
            if stripped.startswith("///"):
                doc.append(stripped[3:].strip())
                continue
            head = BLOCK.match(line)
            if head:
                block, is_trait = head["type"] or head["trait"], bool(head["trait"])
                block = "" if head["of"] else block
            elif line.startswith("}"):
                block, is_trait = "", False
            found = FUNCTION.match(line)
            if found:
                own = found["name"]
                is_public = own in public and found["public"] if not found["indent"] else block in public and (found["public"] or is_trait)
                if is_public:
                    # (the clauses end where the body begins)
                    end = next(it for it in range(at, len(lines)) if ends_contract(lines[it], found["indent"], it == at))
                    contract = "\n".join(lines[at + 1 : end + 1])
                    clauses = [f"[{name or 'one'}]" if kind == "requires" else name or "one" for kind, name in CLAUSE.findall(contract)]
                    cited = [known[it] for it in dict.fromkeys(re.findall(r"[^\s(){}.,λ]+", contract)) if it in known]
                    yield f"{block}::{own}" if block else own, clauses, sentence(doc), cited
            if not stripped.startswith("#["):
                doc = []


def definitions(crate, path):
    """The sentences of a file's definitions, by their names, and with the fields of records."""
    file = ROOT / "crates" / crate / "specs" / (path.replace(".", "/") + ".antt")
    found, above, fields, last = {}, [], {}, None
    for line in file.read_text().split("\n") if file.is_file() else ():
        named = DEFINITION.match(line)
        if line.strip().startswith("--"):
            above.append(line.strip()[2:].strip())
        else:
            field = FIELD.match(line)
            if field and last:
                fields.setdefault(last, []).append(f"`{field[1]}`")
            elif named:
                last = named[1] if "record " in line.partition(":")[0] else None
                found.setdefault(named[1], sentence(above))
            above = []
    return {name: f"{said}. Fields: {', '.join(fields[name])}".removeprefix(". ") if name in fields else said for name, said in found.items()}


def promised():
    """The definitions that docs/PROMISES.md names: the crate, the file and the name of each."""
    page = ROOT / "docs" / "PROMISES.md"
    for line in page.read_text().splitlines() if page.is_file() else ():
        if line.startswith("Carried by "):
            crate = None
            for item in filter(None, line.removesuffix(".").partition(". Defined in ")[2].split("; ")):
                file, _, words = item.partition(": ")
                first, mark, path = file.strip("`").partition("/")
                crate, path = (first, path) if mark else (crate, first)
                for name in re.findall(r"`([^`]+)`", words):
                    yield crate, path, name


def table():
    texts, cited = [HEAD], collections.defaultdict(dict)
    rows = {crate: list(functions(crate)) for crate in product()}
    for of in rows.values():
        for _, _, _, names in of:
            for crate, path, name in names:
                cited[crate][path, name] = None
    for crate, path, name in promised():
        cited[crate][path, name] = None
    for crate, of in rows.items():
        if of or cited[crate]:
            texts.append(f"\n## {crate}\n")
        if of:
            texts.append("\n| Contract | Clauses | What it gives |\n|---|---|---|\n")
            texts += [f"| `{name}` | {', '.join(f'`{it}`' for it in clauses)} | {said} |\n" for name, clauses, said, _ in of]
        if cited[crate]:
            texts.append("\n| Definition | File | What it says |\n|---|---|---|\n")
            for path in sorted({path for path, _ in cited[crate]}):
                said = definitions(crate, path)
                texts += [f"| `{name}` | `{path.replace('.', '/')}` | {said.get(name, '')} |\n" for name in sorted(name for at, name in cited[crate] if at == path)]
    return "".join(texts)
