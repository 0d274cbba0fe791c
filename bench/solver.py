#!/usr/bin/env python3
"""Times the level solver beside LEMON on drawn nets: bench/solver.py [weighted|growth|ratio] [FAMILY[:SEED[:SIZE]]]..

The families are those of bench/nets.py; without one all are taken, at full size. With the word `weighted` the claims have drawn weights
and are not merged, and the weighted set-off is timed. Each net is solved by a program that is made of the
crates as they stand, in a copy of the repository under bench/out, and by LEMON's network simplex and its three cost scalings, which
bench/lemon.cc compiles from the headers of the package liblemon-dev. For each net it prints a line of a table: the processor
milliseconds of either side, with the building of its graph, the least of three; how many times as fast the solver is as the
best of LEMON; the bytes that the solver held at most, for each arc; and the load of the machine. The totals are compared, and the
status is 1 where two differ.

With the word `growth` the solver alone is timed, on each family at a quarter, a half and the whole of its size. With `ratio` the
weighted set-off is timed beside the one without weights, by turns.

The solver's milliseconds are those of the whole program that solves some times, less those of the one that reads alone. With
BENCH_SECONDS a run of LEMON has so many seconds, by default 25; with BENCH_ENOUGH the solver solves for so many, by default 1.5. Run
by hand.
"""

import os
import pathlib
import shutil
import subprocess
import sys
import tempfile

HERE = pathlib.Path(__file__).resolve().parent
OUT = HERE / "out"
COPY = OUT / "repository"
LEMON = OUT / "lemon"
COUNTER = OUT / "allocations.so"
SECONDS = int(os.environ.get("BENCH_SECONDS", "25"))
METHODS = ("simplex", "scaling", "push", "augment")
WORDS = sys.argv[1:]
MODE = WORDS.pop(0) if WORDS[:1] and WORDS[0] in ("weighted", "growth", "ratio") else "plain"
DEPENDENCIES = {
    "timed_solver": "bureau_edge setoff_model statement_text flow_solver level_solver netting_graph",
    "timed_weighted": "bureau_edge setoff_model statement_text weighted_setoff",
}
NAMES = {"weighted": ["timed_weighted"], "ratio": ["timed_solver", "timed_weighted"]}.get(MODE, ["timed_solver"])
FORM = "weighted" if MODE == "weighted" else "dimacs"
RUNS = 3
# A program solves so often that this takes about so many seconds, and so many times at most.
ENOUGH, MOST_SOLVES = float(os.environ.get("BENCH_ENOUGH", "1.5")), 100


def families():
    words = subprocess.run([sys.executable, HERE / "nets.py"], capture_output=True, text=True, check=True).stdout
    return [line.split()[0] for line in words[words.index("drawn-2 ") :].splitlines()]


def below(crates):
    """The lines of crates.txt of these crates and of all that they stand on."""
    lines = {}
    for line in (HERE.parent / "crates.txt").read_text().splitlines():
        if line.split("#")[0].strip():
            lines[line.split(":")[0].split()[0]] = line
    wanted, waiting = {}, list(crates)
    while waiting:
        name = waiting.pop()
        if name in lines and name not in wanted:
            wanted[name] = lines[name]
            waiting.extend(lines[name].split(":")[1].split())
    return wanted


def copy(crate, to):
    """Copies the sources of a crate, and leaves what was made of them."""
    for part in to.iterdir() if to.exists() else ():
        if part.name != "out":
            shutil.rmtree(part) if part.is_dir() else part.unlink()
    shutil.copytree(crate, to, ignore=shutil.ignore_patterns("out"), dirs_exist_ok=True)


def program(name):
    return COPY / "crates" / name / "out" / name


def put_source(name):
    """Puts the sources of a program among the copies."""
    folder = COPY / "crates" / name
    text = (HERE / "programs" / name / "main.rt.in").read_bytes()
    source = folder / "src/main.rt"
    if not source.exists() or source.read_bytes() != text:
        source.parent.mkdir(parents=True, exist_ok=True)
        source.write_bytes(text)
    for part in ("specs", "proofs"):
        (folder / part).mkdir(exist_ok=True)
        (folder / part / "Lib.antt").touch()


def link(name):
    """Proves and links a program."""
    print(f"bench: proving and linking {name}", file=sys.stderr)
    with open(OUT / "build.log", "w") as log:
        subprocess.run(["rt", "run", "--", "0"], cwd=COPY / "crates" / name, stdin=subprocess.DEVNULL, stdout=log, stderr=log)
    if not program(name).exists():
        sys.exit(f"bench: {name} was not built; {OUT / 'build.log'} says why")


def build():
    """Proves and links the programs that solve, and compiles the one over LEMON."""
    OUT.mkdir(exist_ok=True)
    wanted = below({crate for words in DEPENDENCIES.values() for crate in words.split()})
    (COPY / "crates").mkdir(parents=True, exist_ok=True)
    subprocess.run(["git", "init", "--quiet", COPY], check=True)
    shutil.copy(HERE.parent / "HANDLES", COPY)
    for name in wanted:
        copy(HERE.parent / "crates" / name, COPY / "crates" / name)
    (COPY / "crates.txt").write_text("\n".join([*wanted.values(), *(f"{name}: {DEPENDENCIES[name]}" for name in NAMES)]) + "\n")
    for name in NAMES:
        put_source(name)
    for name in NAMES:
        link(name)
    subprocess.run(["cc", "-O2", "-shared", "-fPIC", "-o", COUNTER, HERE / "allocations.c", "-ldl"], check=True)
    if MODE in ("plain", "weighted"):
        subprocess.run(["c++", "-O3", "-march=native", "-o", LEMON, HERE / "lemon.cc", "-llemon"], check=True)


def run(name, statement, times):
    """What a run of the program wrote, and its processor seconds."""
    with open(statement, "rb") as text, tempfile.TemporaryFile() as output:
        process = subprocess.Popen([program(name), str(times)], stdin=text, stdout=output)
        _, status, used = os.wait4(process.pid, 0)
        process.returncode = os.waitstatus_to_exitcode(status)
        output.seek(0)
        return output.read().decode().split(), used.ru_utime + used.ru_stime


def allocations(name, statement, times, after):
    """How many allocations a run made, and how much more it held at most than at that one."""
    with open(statement, "rb") as text:
        words = subprocess.run(
            [program(name), str(times)], stdin=text, env={"LD_PRELOAD": str(COUNTER), "AFTER": str(after)}, capture_output=True, check=True)
    return tuple(map(int, words.stderr.split()))


def timed(names, statement):
    """For each program the words that it wrote, and the least milliseconds of three, which are taken by turns."""
    reading = {name: min(run(name, statement, 0)[1] for _ in range(RUNS)) for name in names}
    once = {name: run(name, statement, 1) for name in names}
    times = {name: max(1, min(MOST_SOLVES, int(ENOUGH / max(once[name][1] - reading[name], 0.001)))) for name in names}
    rounds = [{name: (run(name, statement, times[name])[1] - reading[name]) / times[name] for name in names} for _ in range(RUNS)]
    return [(once[name][0], min(taken[name] for taken in rounds) * 1e3) for name in names]


def solver(statement):
    """The total, the arcs, the milliseconds, and the bytes that were held for each arc at most."""
    name = NAMES[0]
    [(words, milliseconds)] = timed([name], statement)
    total, arcs, _ = map(int, words)
    held = allocations(name, statement, 1, allocations(name, statement, 0, 0)[0])[1]
    return total, arcs, milliseconds, held / max(arcs, 1)


def lemon(problem):
    """For each method its least milliseconds of three and its total; none where a run took too long."""
    words = subprocess.run([LEMON, problem, str(RUNS), str(SECONDS), *METHODS], capture_output=True, text=True, check=True).stdout
    found = {}
    for line in words.splitlines():
        name, milliseconds, total = line.split()
        found[name] = None if total == "-" else (float(milliseconds), int(total))
    return found


def draw(folder, form, family, seed, size):
    with open(folder / form, "w") as text:
        subprocess.run([sys.executable, HERE / "nets.py", family, seed, form, str(size)], stdout=text, check=True)


def growth(word, folder):
    family, seed = (word.split(":") + ["1"])[:2]
    cells = []
    for size in (0.25, 0.5, 1):
        draw(folder, "statement", family, seed, size)
        [(_, milliseconds)] = timed(NAMES, folder / "statement")
        cells.append(f"{milliseconds:,.1f}")
    print(f"| {family} | {' | '.join(cells)} | {os.getloadavg()[0]:.1f} |", flush=True)
    return True


def ratio(word, folder):
    family, seed, size = (word.split(":") + ["1", "1"][word.count(":"):])
    draw(folder, "statement", family, seed, size)
    [(_, plain), (_, weighted)] = timed(NAMES, folder / "statement")
    print(f"| {family} | {plain:,.1f} | {weighted:,.1f} | {weighted / plain:.2f} | {os.getloadavg()[0]:.1f} |", flush=True)
    return True


def row(word, folder):
    family, seed, size = (word.split(":") + ["1", "1"][word.count(":"):])
    for form in ("statement", FORM):
        draw(folder, form, family, seed, size)
    total, arcs, milliseconds, share = solver(folder / "statement")
    others = lemon(folder / FORM)
    best = min((value[0] for value in others.values() if value), default=None)
    simplex = others["simplex"]
    scaling = min((others[name][0] for name in METHODS[1:] if others[name]), default=None)
    load = os.getloadavg()[0]

    def figure(number):
        return f"above {SECONDS},000" if number is None else f"{number:,.1f}"

    speed = f"above {SECONDS * 1e3 / milliseconds:.1f}" if best is None else f"{best / milliseconds:.2f}"
    print(f"| {family} | {seed} | {arcs:,} | {total / 100:.2f} | {milliseconds:,.1f} | {figure(simplex and simplex[0])} | {figure(scaling)} "
          f"| {speed} | {share:.0f} | {load:.1f} |", flush=True)
    return all(value is None or value[1] == total for value in others.values())


COLUMNS = {
    "growth": "net | a quarter, ms | a half, ms | whole, ms | load",
    "ratio": "net | without weights, ms | with weights, ms | times as long | load",
}
ROWS = {"growth": growth, "ratio": ratio}


def main():
    words = WORDS or families()
    build()
    columns = COLUMNS.get(MODE, "net | seed | arcs | total | solver, ms | simplex, ms | scaling, ms | times as fast | bytes an arc | load")
    print(f"| {columns} |")
    print("|---" * (columns.count("|") + 1) + "|")
    with tempfile.TemporaryDirectory() as folder:
        same = [ROWS.get(MODE, row)(word, pathlib.Path(folder)) for word in words]
    sys.exit(0 if all(same) else 1)


if __name__ == "__main__":
    main()
