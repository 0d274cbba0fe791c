#!/usr/bin/env python3
"""Compares what the crates promise at two commits: python3 tools/clauses.py OLD [NEW]

Reads src/ and specs/ of each crate but those of tests, and prints each public function of OLD that is gone, that has another signature, that
lost a clause or has a new condition, and each public definition of specs/ that is gone or reads otherwise. A clause that is only laid out
otherwise is the same one, and what only stands in another file is not told. Whoever changes a contract looks through this list: nothing in it may say less than before. Status 0.
"""

import re
import subprocess
import sys
from pathlib import Path

HOME = Path(__file__).resolve().parent.parent
CLAUSE = re.compile(r"\s*(requires|ensures|ghost)\b")
FUNCTION = re.compile(r"^(\s*)(pub (?:const |unsafe )*)?fn (\w+)")
BLOCK = re.compile(r"^(?:pub )?(impl\b.*|trait .*?)\s*\{$")
DEFINITION = re.compile(r"^\s{0,2}(?:abbrev |unfoldable )?pub (?!mod |use )(?:(?:record|data) )?([^\s:({]+)")


def git(*words):
    return subprocess.run(["git", *words], cwd=HOME, stdout=subprocess.PIPE, text=True, check=True).stdout


def files_at(commit):
    """The texts of src/ and specs/ at a commit, by their paths."""
    found = {}
    for path in git("ls-tree", "-r", "--name-only", commit, "crates").splitlines():
        crate, part = path.split("/")[1:3]
        if part in ("src", "specs") and not crate.endswith("_tests") and "/tests" not in path:
            found[path] = git("show", f"{commit}:{path}")
    return found


def flat(text):
    return " ".join(text.split())


def head_of(lines):
    """The lines of a function up to its body, or to its end where it has none."""
    indent = re.match(r"\s*", lines[0])[0]
    for number, line in enumerate(lines):
        if number and line in (f"{indent}{{", ""):
            if line:
                return lines[:number]
        elif not CLAUSE.match(line) and line.startswith((f"{indent})", f"{indent}pub fn", f"{indent}fn")) and line.endswith(("{", ";", "{}")):
            return lines[: number + 1]
        elif line == f"{indent}{{}}":
            return lines[:number]
    return lines


def functions_in(text):
    """The signature and the clauses of each public function, of those of traits and of what implements a trait."""
    found, block, lines = {}, "", text.splitlines()
    for number, line in enumerate(lines):
        if opens := BLOCK.match(line):
            block = flat(opens[1])
        elif line == "}":
            block = ""
        function = FUNCTION.match(line)
        if not function or not (function[2] or block.startswith("trait") or " for " in block):
            continue
        signature, clauses = "", []
        for part in head_of(lines[number:]):
            if part.lstrip().startswith("//"):
                continue
            if CLAUSE.match(part):
                clauses.append(part)
            elif clauses:
                clauses[-1] += f" {part}"
            else:
                signature += f" {part}"
        found[block, function[3]] = flat(signature).rstrip("{ "), [flat(it) for it in clauses]
    return found


def definitions_in(text):
    """The text of each public definition."""
    found, name = {}, None
    for line in text.splitlines():
        if line.lstrip().startswith(("--", "use ")) or not line.strip():
            continue
        opens = DEFINITION.match(line)
        if opens and (not line.startswith("  pub ") or re.match(r"^  pub (record|data) ", line) or re.match(r"^  abbrev", line)):
            name = opens[1]
            found[name] = ""
        elif not line.startswith(" ") and name and not line.startswith(name):
            name = None if line.startswith(("module", "mod", "pub mod")) else name
        if name:
            found[name] += f" {line.strip()}"
    return {it: flat(said) for it, said in found.items()}


def promises(commit):
    """All functions and all definitions of a commit, by crate and name."""
    functions, definitions = {}, {}
    for path, text in files_at(commit).items():
        crate = path.split("/")[1]
        if path.endswith(".rt"):
            functions.update({(crate, *name): it for name, it in functions_in(text).items()})
        elif path.endswith(".antt"):
            module = path.split("/specs/")[1][: -len(".antt")]
            definitions.update({(crate, module, name): it for name, it in definitions_in(text).items()})
    return functions, definitions


def moved(old, new):
    """The names that are gone, but stand elsewhere with the same text."""
    there = {(name[-1], repr(text)) for name, text in new.items()}
    return {name for name, text in old.items() if name not in new and (name[-1], repr(text)) in there}


def compare(old, new):
    functions, definitions = promises(old)
    functions_now, definitions_now = promises(new)
    elsewhere = moved(functions, functions_now) | moved(definitions, definitions_now)
    for name, (signature, clauses) in sorted(it for it in functions.items() if it[0] not in elsewhere):
        label = " ".join(filter(None, name))
        if name not in functions_now:
            print(f"gone: {label}")
            continue
        signature_now, clauses_now = functions_now[name]
        lost = [it for it in clauses if it not in clauses_now]
        added = [it for it in clauses_now if it not in clauses]
        if signature != signature_now:
            print(f"signature: {label}\n  - {signature}\n  + {signature_now}")
        if lost or any(it.startswith("requires") for it in added):
            print(f"clauses: {label}", *[f"  - {it}" for it in lost], *[f"  + {it}" for it in added], sep="\n")
    for name, text in sorted(it for it in definitions.items() if it[0] not in elsewhere):
        label = " ".join(name)
        if name not in definitions_now:
            print(f"gone: {label}")
        elif text != definitions_now[name]:
            print(f"definition: {label}\n  - {text}\n  + {definitions_now[name]}")
    told = f"{len(functions)} and {len(functions_now)} functions, {len(definitions)} and {len(definitions_now)} definitions"
    print(told)


if __name__ == "__main__":
    if len(sys.argv) not in (2, 3):
        sys.exit(__doc__)
    compare(sys.argv[1], sys.argv[2] if len(sys.argv) == 3 else "HEAD")
