"""Prints what the proofs of each function weigh: python3 tools/weights.py [CRATE..]

A check leaves what it proved in crates/NAME/out/. By this one sees what is dear to prove, whatever else the machine does. Most bytes
are the states of a body, which grow faster than the body does, and most where a large value is given up on many paths. Most steps are
those of a search for the answer of a goal; a million take about a second.
It prints the kilobytes of each crate that was checked here, those of the 40 heaviest functions, and the thousands of steps of the 40
goals and lemmas that took the most. With names it takes these crates alone. Run it by hand, after `rt check`.
"""

import collections
import os
import re
import sys

TOP = os.path.dirname(os.path.dirname(os.path.abspath(__file__)))
KEPT = re.compile(r"Rattle-(?P<crate>\w+)-proofs\.(?P<path>.+)\.\w+\.oantt")
RECORD = re.compile(r"Rattle-(?P<crate>\w+)-proofs\.(?P<path>.+)\.decls\.oantt")
# What is kept of a declaration has its name, and behind that the steps that its check took.
NAME = re.compile(rb'"name":"([^"]+)"')
SPENT = re.compile(rb'"spent":\[(\d+)')


def weights(crate):
    """Returns the bytes of the functions of a crate."""
    found = collections.Counter()
    for folder, _, names in os.walk(f"{TOP}/crates/{crate}/out/incremental"):
        if os.path.basename(folder) == "records":
            continue
        for name in names:
            kept = KEPT.fullmatch(name)
            if kept and kept["crate"] == crate:
                found[kept["path"]] += os.path.getsize(f"{folder}/{name}")
    return found


def steps(crate):
    """Returns the steps that the declarations of a crate took."""
    found = collections.Counter()
    for folder, _, names in os.walk(f"{TOP}/crates/{crate}/out/incremental"):
        for kept in map(RECORD.fullmatch, names if os.path.basename(folder) == "records" else ()):
            if not kept or kept["crate"] != crate:
                continue
            with open(f"{folder}/{kept[0]}", "rb") as file:
                text = file.read()
            behind = 0
            for spent in SPENT.finditer(text):
                named = NAME.findall(text, behind, spent.start())
                behind = spent.end()
                if named:
                    found[f"{kept['path']}.{named[-1].decode()}"] += int(spent[1])
    return found


def main(names):
    functions, goals = collections.Counter(), collections.Counter()
    print(f"{'KB':>9}  crate")
    for crate in names or sorted(os.listdir(f"{TOP}/crates")):
        found = weights(crate)
        if found:
            print(f"{sum(found.values()) // 1024:9,}  {crate}")
        functions.update({f"{crate}::{path.replace('.', '::')}": size for path, size in found.items()})
        goals.update({f"{crate}::{path.replace('.', '::')}": count for path, count in steps(crate).items()})
    print(f"\n{'KB':>9}  function")
    for function, size in functions.most_common(40):
        print(f"{size // 1024:9,}  {function}")
    print(f"\n{'1,000s':>9}  goal or lemma")
    for goal, count in goals.most_common(40):
        print(f"{count // 1000:9,}  {goal}")


main(sys.argv[1:])
