"""Compares the names of the crates with the documents: python3 tools/names.py [CRATE..]

Prints each name that stands on one side alone, and nothing where all agree. In docs/PROVED.md each public function, law and trait has an
item, and each clause in parentheses there is one. In docs/LAYERS.md each crate has an item, and each file of a walk is there. In
docs/DEFINITIONS.md the words of the glossary and of the top call's promise are words of specs/, and the reading list has the files
that the clauses of `bureau` reach. docs/INDEX.md is what --write makes of the crates: the lemmas that others import, and the words
of specs/. Status 1: something is missing.
"""

import re
import sys
from pathlib import Path

HOME = Path(__file__).resolve().parent.parent
CRATES = HOME / "crates"
DOCS = HOME / "docs"
GIVEN_ON = re.compile(r"\bRattle\.\w+\.specs\.(?=\w+\.(?:specs|proofs)\.)")
WORD = r"(?:abbrev |unfoldable )?pub (?:(record|data) )?([^\s:({]+)"
INDEX_HEAD = """# Index

`python3 tools/names.py --write` makes this file of the crates, and nobody edits it.
"""


def crates_in_order():
    """The names of the crates of crates.txt."""
    lines = (HOME / "crates.txt").read_text().splitlines()
    heads = [line.partition("#")[0].partition(":") for line in lines]
    return [head.split()[0] for head, colon, _ in heads if colon]


def spec_modules(crate):
    """Of each public module of a crate's specs/, its public words in order."""
    found = {}
    folder = CRATES / crate / "specs"
    if not (folder / "Lib.antt").exists():
        return found
    for module in re.findall(r"^pub mod (\w+)", (folder / "Lib.antt").read_text(), re.M):
        deep, words = None, found.setdefault(module, [])
        for line in (folder / f"{module}.antt").read_text().splitlines():
            if not line.strip():
                continue
            indent = len(line) - len(line.lstrip())
            if deep is not None and indent > deep:
                continue
            deep = None
            head = re.match(" *" + WORD, line)
            if head and "◌" not in head[2] and head[2] not in ("use", "open", "mod"):
                words.append(head[2])
                deep = indent if head[1] else None
    return found


def text_of(file):
    """The text of a file, in which a crate that another one gives on stands under its own name alone."""
    return GIVEN_ON.sub("Rattle.", file.read_text())


def lent_lemmas():
    """Of each crate, the modules of its proofs/ that other crates import."""
    found = {}
    for file in CRATES.glob("*/*/**/*.antt"):
        crate = file.relative_to(CRATES).parts[0]
        if "out" not in file.relative_to(CRATES).parts:
            for below, module in re.findall(r"Rattle\.(\w+)\.proofs\.([A-Z]\w*)", text_of(file)):
                if below != crate:
                    found.setdefault(below, set()).add(module)
    return found


def quoted(names):
    return ", ".join(f"`{it}`" for it in names)


def index(listed):
    """The text of docs/INDEX.md."""
    lent = lent_lemmas()
    lemmas = [f"- `{it}`: {quoted(sorted(lent[it]))}\n" for it in listed if it in lent]
    modules = {it: [f"{module} ({quoted(names)})" for module, names in spec_modules(it).items() if names] for it in listed}
    words = [f"- `{it}`: {', '.join(found)}\n" for it, found in modules.items() if found]
    return (
        INDEX_HEAD
        + "\n## Modules of `proofs/` that crates above import\n\n" + "".join(lemmas)
        + "\n## Words of `specs/`, module by module\n\n" + "".join(words)
    )


def definitions(text):
    """The definitions of a file of specs/, each with its lines."""
    found, name = {}, None
    for line in text.splitlines():
        head = re.match(WORD, line)
        if head and head[2] not in ("use", "open", "mod"):
            name = head[2]
        elif not line or line.startswith(("--", "use ", "pub use ")):
            continue
        if name:
            found[name] = found.get(name, "") + line.partition("--")[0] + "\n"
    return found


def given_on_modules():
    """Of each module of specs/ that a crate gives on from another one, `(crate, Module)`, where it stands."""
    homes = {}
    for file in CRATES.glob("*/specs/Lib.antt"):
        for home, module in re.findall(r"^pub use Rattle\.(\w+)\.specs\.([A-Z]\w*) as \w+$", text_of(file), re.M):
            homes[file.parent.parent.name, module] = (home, module)
    return homes


def reached():
    """The files of specs/ that the clauses of `bureau` and the definitions of these reach, as `crate Module`."""
    files = [f for f in CRATES.glob("*/specs/*.antt") if f.stem != "Lib"]
    texts = {(f.parent.parent.name, f.stem): text_of(f) for f in files}
    known = {place: definitions(text) for place, text in texts.items()}
    lent = {place: re.findall(r"^use Rattle\.(\w+)\.specs\.(\w+)\.\{([^}]*)\}", text, re.M) for place, text in texts.items()}
    top = text_of(CRATES / "bureau_commands" / "src" / "top.rt")
    asked = set(re.findall(r"[\w']+", re.search(r"pub fn bureau<.*?^\{", top, re.M | re.S)[0]))
    imports = re.findall(r"use Rattle\.(\w+)\.specs\.(\w+)\.\{([^}]*)\}", top)
    homes = given_on_modules()
    to_do = [((crate, module), name) for crate, module, names in imports for name in asked & set(names.split(", ")) if name[0].isupper()]
    found = set()
    while to_do:
        place, word = to_do.pop()
        place = homes.get(place, place)
        if (place, word) in found or word not in known.get(place, {}):
            continue
        found.add((place, word))
        names = set(re.findall(r"[^\s(){},;]+", known[place][word]))
        to_do += [(place, name) for name in names]
        for crate, module, words in lent[place]:
            to_do += [((crate, module), name.strip()) for name in words.split(",") if name.strip() in names]
    return {f"{crate} {module}" for (crate, module), _ in found}


def sources(crate):
    """The crate's source files but its tests, with its root file first."""
    folder = CRATES / crate / "src"
    files = [f for f in sorted(folder.rglob("*.rt")) if f.stem != "tests" and "tests" not in f.parts[len(folder.parts):-1]]
    return sorted(files, key=lambda f: f.stem not in ("lib", "main"))


def exported(crate):
    """The names that a crate's root file exports or declares itself."""
    text = sources(crate)[0].read_text()
    names = set(re.findall(r"^pub (?:fn|struct|enum|trait|const) (\w+)", text, re.M))
    for group in re.findall(r"^pub use [\w:]+::(\{[^}]*\}|\w+);", text, re.M):
        names |= set(re.findall(r"\w+", group))
    for module in re.findall(r"^pub mod (\w+)", text, re.M):
        file = CRATES / crate / "src" / f"{module}.rt"
        names |= set(re.findall(r"^pub (?:fn|struct|enum|trait|const) (\w+)", file.read_text(), re.M))
    return names


def calls(crate):
    """The public functions of a crate, methods as `Type::method`, and its traits."""
    names, found = exported(crate), set()
    for file in sources(crate):
        holder = None
        for line in file.read_text().splitlines():
            head = re.match(r"(?:pub )?(impl|trait)\b(?:<[^{]*?>)? ?(.*)", line)
            if line == "}":
                holder = None
            elif head and head[1] == "impl" and line.startswith("impl"):
                # `impl Trait for Type` has no calls of its own; a generic name goes up to its parameters
                plain = re.sub(r"<.*", "", head[2]).strip(" {")
                holder = None if " for " in head[2] else plain
            elif head and line.startswith("pub trait"):
                holder = None
                if re.match(r"\w+", head[2])[0] in names:
                    found.add(re.match(r"\w+", head[2])[0])
            made = re.match(r"( *)pub (?:const )?fn (\w+)", line)
            if made and not made[1] and made[2] in names:
                found.add(made[2])
            elif made and made[1] and holder in names:
                found.add(f"{holder}::{made[2]}")
    return found


def clauses(crate):
    """The names of the clauses of a crate's contracts, and of the ghost members of its traits."""
    return {name for file in sources(crate) for name in re.findall(r"\b(?:ensures\*?|ghost) (\w+)\b", file.read_text())}


def part(document, title):
    """A part of a document, from its heading to the next of its level."""
    level = title.split()[0]
    return re.split(rf"^{level} ", (DOCS / document).read_text().partition(f"\n{title}\n")[2], flags=re.M)[0]


def sections(document):
    """The text of each crate's section, by the crate's name in its heading."""
    parts = re.split(r"^#+ `(\w+)`.*$", (DOCS / document).read_text(), flags=re.M)
    return dict(zip(parts[1::2], parts[2::2]))


def before_colons(text):
    """What stands before the colon of each item of the lists of a text."""
    return re.findall(r"^(?:-|\d+\.) (.*?): ", text, re.M)


def heads(text):
    """The words in backquotes before the colon of each item of the lists of a text."""
    return {it for item in before_colons(text) for it in re.findall(r"`([^`]+)`", item)}


def in_parentheses(text):
    """The words in backquotes of each parenthesis of a text that has nothing else."""
    groups = re.findall(r"\(((?:`\w+`(?:, )?)+)\)", text)
    return {it for group in groups for it in re.findall(r"\w+", group)}


def walked(text):
    """The files that the walks name, in each item a crate and then files of its src/."""
    found = set()
    for item in before_colons(text):
        crate, *files = re.findall(r"`([\w/.]+)`", item)
        found |= {f"{crate}/src/{it}" for it in files}
    return found


def listed_files(text):
    """The files of the reading list, as `crate Module`: in each item crates, each before its modules."""
    found = set()
    for item in before_colons(text):
        for crate, modules in re.findall(r"`(\w+)` ([\w, ]+)", item):
            found |= {f"{crate} {module.strip()}" for module in modules.split(",")}
    return found


def tell(where, missing, what):
    for name in sorted(missing):
        print(f"{where}: {name} {what}")
    return bool(missing)


def check_proved(crate, text):
    told, known = heads(text), calls(crate)
    where = f"PROVED.md, {crate}"
    bad = tell(where, {it for it in known if it not in told and it.split("::")[0] not in told}, "has no item")
    bad |= tell(where, {it for it in told - known if it.split("::")[0] not in exported(crate)}, "is no public call")
    return bad | tell(where, in_parentheses(text) - clauses(crate), "is no clause")


def check_definitions(listed):
    every = {word for crate in listed for words in spec_modules(crate).values() for word in words}
    bad = tell("DEFINITIONS.md, words", in_parentheses(part("DEFINITIONS.md", "## Words")) - every, "is no public word of specs/")
    promise = set(re.findall(r"`(\w+)`", part("DEFINITIONS.md", "## What the top call promises")))
    text = "\n".join(f.read_text() for crate in listed for folder in ("specs", "src") for f in (CRATES / crate / folder).glob("*.[ar]*t"))
    bad |= tell("DEFINITIONS.md, the top call", promise - set(re.findall(r"\w+", text)), "is no name of specs/ or src/")
    told, known = listed_files(part("DEFINITIONS.md", "## A reading list for the top call")), reached()
    bad |= tell("DEFINITIONS.md, reading list", known - told, "is reached and not in the list")
    return bad | tell("DEFINITIONS.md, reading list", told - known, "is not reached")


def main():
    listed = crates_in_order()
    if sys.argv[1:] == ["--write"]:
        (DOCS / "INDEX.md").write_text(index(listed))
        return 0
    proved, bad = sections("PROVED.md"), False
    for crate in sys.argv[1:] or sorted(listed):
        bad |= check_proved(crate, proved.get(crate, ""))
    if not sys.argv[1:]:
        bad |= tell("PROVED.md", set(proved) - set(listed), "is no crate")
        bad |= tell("LAYERS.md, crates", set(listed) ^ heads(part("LAYERS.md", "## The crates")), "is there or in crates.txt alone")
        files = walked((DOCS / "LAYERS.md").read_text().partition("\n## The crates\n")[0])
        bad |= tell("LAYERS.md, walks", {it for it in files if not (CRATES / it).exists()}, "is no file")
        bad |= check_definitions(listed)
        current = (DOCS / "INDEX.md").read_text() if (DOCS / "INDEX.md").exists() else ""
        bad |= tell("INDEX.md", set() if current == index(listed) else {"--write"}, "makes another text")
    return 1 if bad else 0


sys.exit(main())
