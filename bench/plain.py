#!/usr/bin/env python3
"""Builds a plain copy of the solver, compiled by rustc: bench/plain.py [FOLDER [OUT]]

It takes the crates of the solver in the repository at FOLDER, by default this one, without their contracts, as modules of one program, with
programs/plain/ in place of the toolchain's library. OUT is by default bench/out/plain. The program reads a net in the DIMACS format, as
`bench/nets.py` and `bench/unions.py` print it, and is called as OUT NET RUNS. It solves the net so many times, tests that the flows are
lawful and that the prices prove them greatest, and prints the least processor milliseconds and the total.

So the solver of an earlier commit is timed beside the present one in minutes, and LEMON beside both on the same processor. Branches are
kept from crossing 32 bytes: one that does is slow on some Intel processors, so that by chance a whole net takes a fifth longer.
"""

import pathlib
import re
import subprocess
import sys

HERE = pathlib.Path(__file__).resolve().parent
CRATES = "residual_network price_squeezing residual_state loose_places level_engine spanning_tree simplex_engine net_presolve level_solver".split()
# Laws have no code, and the solver of nets is called by its state.
LEFT_OUT = {("residual_network", "laws"), ("level_solver", "solver")}
CLAUSE = re.compile(r"(requires|ensures)\b")
FLAGS = ["-C", "target-cpu=native", "-C", "llvm-args=-x86-branches-within-32B-boundaries"]


def without_contracts(text):
    lines, kept = iter(text.split("\n")), []
    for line in lines:
        word = line.strip()
        if word.startswith(("//", "#![tactic", "#[tactic")) or word == "#[derive(Drop)]":
            continue
        if word.startswith("ghost use"):
            while not line.rstrip().endswith(";"):
                line = next(lines)
        elif line.startswith("impl Drop for "):
            # (plain Rust lets go of a value's parts by itself)
            while line != "}":
                line = next(lines)
        elif CLAUSE.match(word):
            clause = line
            while clause.count("{") > clause.count("}") or "{" not in clause:
                clause += next(lines)
        else:
            kept.append(line)
    return "\n".join(kept)


def module(crate, text):
    """The code of a module, which names others by their places in the program."""
    text = without_contracts(text).replace("use crate::", f"use crate::{crate}::")
    text = re.sub(r"^use flow_solver::", "use crate::residual_state::", text, flags=re.M)
    for name in [*CRATES, "setoff_model"]:
        text = re.sub(rf"^use {name}::", f"use crate::{name}::", text, flags=re.M)
    text = re.sub(r"^use std::alloc::[^;]*;", "", text, flags=re.M)
    return text.replace("vec![in alloc;", "filled![alloc;").replace("pub(crate)", "pub").replace(".collect(alloc)", ".collect_in(alloc)")


def crate_of(folder, crate):
    sources = folder / "crates" / crate / "src"
    root = without_contracts((sources / "lib.rt").read_text())
    lines = [f"pub mod {crate} {{"]
    for name in re.findall(r"^(?:pub )?mod (\w+);", root, flags=re.M):
        if (crate, name) not in LEFT_OUT:
            lines += [f"pub mod {name} {{", "use crate::filled; use crate::library::*;", module(crate, (sources / f"{name}.rt").read_text()), "}"]
    for line in re.findall(r"^pub use [^;]*;", root, flags=re.M):
        name = re.match(r"pub use (\w+)", line).group(1)
        if name == "flow_solver":
            lines.append(line.replace("flow_solver", "crate::residual_state", 1))
        elif (crate, name) not in LEFT_OUT:
            lines.append(line.replace("pub use ", "pub use crate::" if name in CRATES else "pub use self::", 1))
    return "\n".join([*lines, "}"])


def main():
    folder = pathlib.Path(sys.argv[1] if sys.argv[1:] else HERE.parent)
    out = pathlib.Path(sys.argv[2]) if sys.argv[2:] else HERE / "out" / "plain"
    out.parent.mkdir(exist_ok=True)
    source = out.with_suffix(".rs")
    parts = [HERE / "programs" / "plain" / name for name in ("library.rs.in", "main.rs.in")]
    source.write_text("\n".join([parts[0].read_text(), *[crate_of(folder, name) for name in CRATES], parts[1].read_text()]))
    return subprocess.run(["rustc", "-O", *FLAGS, "--edition=2021", source, "-o", out], check=False).returncode


if __name__ == "__main__":
    sys.exit(main())
