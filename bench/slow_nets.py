#!/usr/bin/env python3
"""Looks for nets that the level solver is slow on: bench/slow_nets.py SECONDS SEED

A net is a union of one to four parts, each a family of bench/hard_nets.py at a thirtieth of its size, turned round or not, over the firms
of the parts before it or beside them, with some drawn claims between the parts. The search changes one part at a time and keeps what takes
more processor time an arc, and begins anew where forty changes brought nothing. It prints each net that is slower than those before it:
the microseconds an arc, the arcs, the milliseconds, and the parts. It runs the program that `bench/solver.py` built. Run by hand.
"""

import importlib.util
import pathlib
import random
import sys
import tempfile
import time

from hard_nets import HARD, log_uniform

HERE = pathlib.Path(__file__).resolve().parent
SECONDS, SEED = float(sys.argv[1]), int(sys.argv[2])
SIZE, MOST_CLAIMS = 1 / 30, 20_000
sys.argv[1:] = []
SPEC = importlib.util.spec_from_file_location("solver", HERE / "solver.py")
solver = importlib.util.module_from_spec(SPEC)
SPEC.loader.exec_module(solver)


def part(draw):
    return draw.choice(list(HARD)), draw.randrange(1_000), draw.random() < 0.5, draw.random() < 0.5


def first(draw):
    return [part(draw) for _ in range(draw.randint(1, 4))], draw.choice((0, 1, 10, 100)), draw.randrange(1_000)


def changed(draw, net):
    parts, links, seed = list(net[0]), net[1], net[2]
    turn = draw.random()
    if turn < 0.2 and len(parts) < 4:
        parts.append(part(draw))
    elif turn < 0.4 and len(parts) > 1:
        parts.pop(draw.randrange(len(parts)))
    elif turn < 0.8:
        parts[draw.randrange(len(parts))] = part(draw)
    else:
        links, seed = draw.choice((0, 1, 10, 100)), draw.randrange(1_000)
    return parts, links, seed


def union(net):
    parts, links, seed = net
    draw, windows, claims = random.Random(seed), [], []
    for name, own, turned, over in parts:
        more, owed = HARD[name][0](random.Random(own), SIZE)
        start = 0 if over else len(windows)
        windows.extend([(0, 0)] * (start + len(more) - len(windows)))
        for place, (spend, room) in enumerate(more, start):
            windows[place] = (windows[place][0] + spend, windows[place][1] + room)
        claims.extend((start + (c if turned else d), start + (d if turned else c), cents) for d, c, cents in owed)
    for _ in range(links):
        debtor, creditor = draw.sample(range(len(windows)), 2)
        claims.append((debtor, creditor, log_uniform(draw)))
    return windows, claims


def write(path, windows, claims):
    def text(cents):
        return f"{cents // 100}.{cents % 100:02}"

    with open(path, "w") as out:
        print("ROUND 1", "FUNDED" if any(map(any, windows)) else "PLAIN", file=out)
        for firm, (spend, room) in enumerate(windows):
            print(f"PARTY F-{firm} {text(spend)} {text(room)} 0", file=out)
        for number, (debtor, creditor, cents) in enumerate(claims):
            print(f"CLAIM F-{creditor} I-{number} F-{debtor} {text(cents)} 0.00", file=out)
        print("END", file=out)


def cost(path, net):
    """Microseconds an arc, arcs, and milliseconds; the least of two runs."""
    windows, claims = union(net)
    if len(claims) > MOST_CLAIMS:
        return 0.0, len(claims), 0.0
    write(path, windows, claims)
    reading = min(solver.run("timed_solver", path, 0)[1] for _ in range(2))
    words, once = solver.run("timed_solver", path, 1)
    times = max(1, min(20, int(0.3 / max(once - reading, 0.001))))
    spent = min(solver.run("timed_solver", path, times)[1] - reading for _ in range(2)) / times
    return spent * 1e6 / max(int(words[1]), 1), int(words[1]), spent * 1e3


def main():
    draw, slowest, end = random.Random(SEED), 0.0, time.time() + SECONDS
    with tempfile.TemporaryDirectory() as folder:
        path = pathlib.Path(folder) / "statement"
        while time.time() < end:
            net, best, idle = first(draw), 0.0, 0
            while idle < 40 and time.time() < end:
                other = changed(draw, net) if best else net
                found, arcs, milliseconds = cost(path, other)
                idle = 0 if found > best else idle + 1
                if found > best:
                    net, best = other, found
                if found > slowest:
                    slowest = found
                    print(f"{found:.1f} {arcs} {milliseconds:.1f} {other}", flush=True)


main()
