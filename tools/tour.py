"""Runs the commands of a document and compares what they write: python3 tools/tour.py [--on] [DOCUMENT [PROGRAM [LOAD]]]

A command stands behind `$ ` in a block of the document, which is README.md where none is named, with its output below it. Each block is
run in a folder of its own, which has no journal at first; with --on all blocks go on in one folder. PROGRAM stands in for ./bureau, and
LOAD for ./bureau load.
Status 1: some output is another one.
"""

import re
import subprocess
import sys
import tempfile
from pathlib import Path

HOME = Path(__file__).resolve().parent.parent


def blocks_of(document, go_on):
    """The blocks that begin with a command, or all of them as one."""
    blocks = re.findall(r"^```\n(\$ .*?)^```$", Path(document).read_text(), re.M | re.S)
    return ["".join(blocks)] if go_on else blocks


def bad_commands(block, program, load):
    """How many commands of a block wrote something else, in a folder of their own."""
    bad = 0
    with tempfile.TemporaryDirectory() as folder:
        (Path(folder) / "examples").symlink_to(HOME / "examples")
        for part in re.split(r"^\$ ", block, flags=re.M)[1:]:
            command, _, wanted = part.partition("\n")
            ran = subprocess.run(command.replace("./bureau load", load).replace("./bureau", program), shell=True, cwd=folder, capture_output=True, text=True)
            is_same = ran.stdout == wanted
            bad += not is_same
            print(f"{'same' if is_same else 'ANOTHER OUTPUT'}: {command}")
            if not is_same:
                print(ran.stdout, end="")
    return bad


def main():
    words = sys.argv[1:]
    go_on = words[:1] == ["--on"]
    document, program, load = (words[go_on:] + [None] * 3)[:3]
    program = str(Path(program).resolve() if program else HOME / "bureau")
    load = str(Path(load).resolve()) if load else f"{HOME}/bureau load"
    bad = sum(bad_commands(block, program, load) for block in blocks_of(document or HOME / "README.md", go_on))
    return 1 if bad else 0


sys.exit(main())
