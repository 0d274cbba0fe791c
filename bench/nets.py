#!/usr/bin/env python3
"""Draws a net: bench/nets.py FAMILY SEED FORM [SIZE]

FORM is `statement`, the text that `check` reads, with nothing discharged and all prices 0, or `dimacs`, the net as a
minimum cost flow problem: the ground is its last node, an arc costs -1 a cent, and a window is an arc to the ground and one back.
With `weighted` each claim is an arc of its own, which costs its weight, from 1 to 9, times -1 a cent: the generator of bench/drawn.sh
draws the weights from the seed 1, in the order of the claims.
SIZE is a fraction of the full size, by default 1. `bench/nets.py` alone lists the families, and FAMILY-funded is one with windows.

A log-uniform amount is from 1 to 999,999,999,999 cents, each order of magnitude as likely as another.
"""

import math
import random
import sys

from hard_nets import HARD

FIRMS, CLAIMS = 16_384, 262_144
MOST = 999_999_999_999
WINDOW = 1_000_000_000_000_000


def even(draw):
    return 1 + int(draw.random() * 65_536)


def step(draw):
    """The next number of the generator of bench/drawn.sh."""
    draw.state = (draw.state * 1_664_525 + 1_013_904_223) % 2**32
    return draw.state // 65_536


def log_uniform(draw):
    return min(MOST, int(math.exp(draw.random() * math.log(MOST + 1))))


def between(draw, firms, pick=None):
    """Two firms that differ."""
    pick = pick or (lambda: int(draw.random() * firms))
    debtor = pick()
    creditor = pick()
    while creditor == debtor:
        creditor = pick()
    return debtor, creditor


def scaled(number, size):
    return max(2, int(number * size))


def claim_by_steps(draw, firms):
    debtor = step(draw) % firms
    creditor = step(draw) % (firms - 1)
    return debtor, creditor + (creditor >= debtor), step(draw) + 1


def drawn(firms, claims):
    """Claims as bench/drawn.sh draws them."""

    def family(draw, size):
        many = scaled(firms, size)
        return many, [claim_by_steps(draw, many) for _ in range(scaled(claims, size))]

    return family


def wide(draw, size):
    firms = scaled(FIRMS, size)
    return firms, [(*between(draw, firms), log_uniform(draw)) for _ in range(scaled(CLAIMS, size))]


def dense(draw, size):
    firms = scaled(512, size)
    return firms, [(a, b, log_uniform(draw)) for a in range(firms) for b in range(firms) if a != b]


def power(draw, size):
    firms = scaled(FIRMS, size)
    sums, total = [], 0.0
    for firm in range(firms):
        total += (firm + 1) ** -0.8
        sums.append(total)

    def pick():
        wanted, low, high = draw.random() * total, 0, firms - 1
        while low < high:
            middle = (low + high) // 2
            low, high = (low, middle) if wanted < sums[middle] else (middle + 1, high)
        return low

    return firms, [(*between(draw, firms, pick), log_uniform(draw)) for _ in range(scaled(CLAIMS, size))]


def local(draw, size):
    firms = scaled(8_192, size)
    return firms, [(a, (a + k) % firms, log_uniform(draw)) for a in range(firms) for k in range(1, 33)]


def rising(_, size):
    firms = scaled(FIRMS, size)
    return firms, [(a, a + 1, 1_000_000 + a) for a in range(firms - 1)] + [(firms - 1, 0, 1_000_000 + firms)]


def falling(_, size):
    firms = scaled(FIRMS, size)
    return firms, [(a, a + 1, 2_000_000 - a) for a in range(firms - 1)] + [(firms - 1, 0, 2_000_000 - firms)]


def open_rising(_, size):
    firms = scaled(FIRMS, size)
    return firms, [(a, a + 1, 1_000_000 + a) for a in range(firms - 1)]


def open_falling(_, size):
    firms = scaled(FIRMS, size)
    return firms, [(a, a + 1, 2_000_000 - a) for a in range(firms - 1)]


def block(draw, size):
    inner, outer = scaled(500, size), scaled(12_000, size)
    claims = [(a, b, log_uniform(draw)) for a in range(inner) for b in range(inner) if a != b]
    return inner + outer, claims + [(inner + a, inner + a + 1, 1_000_000 + a) for a in range(outer - 1)]


def ring(draw, size):
    firms = scaled(FIRMS, size)
    return firms, [(a, (a + 1) % firms, log_uniform(draw)) for a in range(firms)]


def two_rings(draw, size):
    firms = scaled(FIRMS, size)
    return firms, [(a, (a + k) % firms, log_uniform(draw)) for a in range(firms) for k in (1, -1)]


def fans(draw, size):
    longest = scaled(179, size)
    firms, claims = 2, []
    for length in range(1, longest + 1):
        last = 0
        for _ in range(length):
            claims.append((last, firms, log_uniform(draw)))
            last, firms = firms, firms + 1
        claims.append((last, 1, log_uniform(draw)))
    return firms, claims + [(1, 0, MOST) for _ in range(longest)]


def open_thin(draw, size):
    layers, width = scaled(1_024, size), 16
    return layers * width, [
        (layer * width + a, (layer + 1) * width + b, log_uniform(draw))
        for layer in range(layers - 1) for a in range(width) for b in range(width)
    ] + [((layers - 1) * width + a, b, log_uniform(draw)) for a in (0, 1) for b in (0, 1)]


def thin(draw, size, jumps=False):
    layers, width = scaled(1_024, size), 16
    firms = layers * width

    def far(layer):
        turn = draw.random()
        return layer + 1 if not jumps or turn < 0.8 else layer + 2 if turn < 0.9 else layer - 1

    return firms, [
        (layer * width + a, far(layer) % layers * width + b, log_uniform(draw))
        for layer in range(layers) for a in range(width) for b in range(width)
    ]


def thin_mixed(draw, size):
    return thin(draw, size, True)


def grid(draw, size):
    side = scaled(128, math.sqrt(size))
    claims = []
    for row in range(side):
        for column in range(side):
            here = row * side + column
            claims.append((here, row * side + (column + 1) % side, log_uniform(draw)))
            claims.append((here, (row + 1) % side * side + column, log_uniform(draw)))
    return side * side, claims


def star(_, size):
    firms = scaled(FIRMS, size)
    return firms, [ends for _ in range(8) for a in range(1, firms) for ends in ((a, 0, 100), (0, a, 100))]


FAMILIES = {
    "drawn-2": (drawn(2, 2), "2 claims between 2 firms, by the generator of bench/drawn.sh, to 655.36"),
    "drawn-60": (drawn(60, 400), "400 claims between 60 firms, by the same"),
    "drawn-400": (drawn(400, 4_000), "4,000 claims between 400 firms, by the same"),
    "drawn-2000": (drawn(2_000, 20_000), "20,000 claims between 2,000 firms, by the same"),
    "drawn": (drawn(FIRMS, CLAIMS), "262,144 claims between 16,384 firms, by the same"),
    "wide": (wide, "as many claims drawn between any two firms, log-uniform"),
    "dense": (dense, "512 firms, each owes each, log-uniform"),
    "power": (power, "firm k is drawn with weight k^-0.8, log-uniform"),
    "local": (local, "each of 8,192 firms owes the next 32, log-uniform"),
    "rising": (open_rising, "a chain, each claim one cent above the last"),
    "falling": (open_falling, "a chain, each claim one cent below the last"),
    "rising-ring": (rising, "the rising chain, closed"),
    "falling-ring": (falling, "the falling chain, closed"),
    "block": (block, "500 firms, each owes each, beside a rising chain of 12,000"),
    "ring": (ring, "each firm owes the next in a ring, log-uniform"),
    "two-rings": (two_rings, "each firm owes both its neighbours in a ring, log-uniform"),
    "fans": (fans, "chains of 1 to 179 firms between two hubs, log-uniform"),
    "open-thin": (open_thin, "1,024 layers of 16 firms, complete between neighbours, and four claims from the last to the first, log-uniform"),
    "thin": (thin, "a ring of 1,024 layers of 16 firms, complete between neighbours, log-uniform"),
    "thin-mixed": (thin_mixed, "the same, with a tenth of the claims one layer back and a tenth two on"),
    "grid": (grid, "a torus of 128 by 128 firms, log-uniform"),
    "star": (star, "one firm owes each other eight claims of 1.00, and is owed as many"),
}


def windows(draw, firms, funded):
    """Spend and room: a fifth of the firms may spend up to 13,107.20 each."""
    if not funded:
        return [(0, 0)] * firms
    spends = [even(draw) * 20 if draw.random() < 0.2 else 0 for _ in range(firms)]
    return [(spend, WINDOW - spend) for spend in spends]


def net(name, seed, size):
    """The windows of the parties, the claims of a family, and whether it has windows, as those whose names end with -funded have."""
    funded = name.endswith("-funded")
    draw = random.Random(seed)
    draw.state = seed
    if name in HARD:
        parties, claims = HARD[name][0](draw, size)
        return parties, claims, any(map(any, parties))
    firms, claims = FAMILIES[name.removesuffix("-funded")][0](draw, size)
    return windows(draw, firms, funded), claims, funded


def sum_of(cents):
    return f"{cents // 100}.{cents % 100:02}"


def statement(parties, claims, funded):
    yield f"ROUND 1 {'FUNDED' if funded else 'PLAIN'}"
    for firm, (spend, room) in enumerate(parties):
        yield f"PARTY F-{firm} {sum_of(spend)} {sum_of(room)} 0"
    for number, (debtor, creditor, cents) in enumerate(claims):
        yield f"CLAIM F-{creditor} I-{number} F-{debtor} {sum_of(cents)} 0.00"
    yield "END"


def dimacs(parties, claims, _):
    arcs = {}
    for debtor, creditor, cents in claims:
        arcs[debtor, creditor] = arcs.get((debtor, creditor), 0) + cents
    return problem(parties, [(*pair, cents, 1) for pair, cents in arcs.items()])


def weighted(parties, claims, _):
    draw = random.Random()
    draw.state = 1
    return problem(parties, [(*claim, step(draw) % 9 + 1) for claim in claims])


def problem(parties, arcs):
    ground = len(parties) + 1
    rooms = [(firm, ground, room) for firm, (_, room) in enumerate(parties, 1) if room]
    spends = [(ground, firm, spend) for firm, (spend, _) in enumerate(parties, 1) if spend]
    yield f"p min {ground} {len(arcs) + len(rooms) + len(spends)}"
    for debtor, creditor, cents, weight in arcs:
        yield f"a {debtor + 1} {creditor + 1} 0 {cents} -{weight}"
    for tail, head, cents in rooms + spends:
        yield f"a {tail} {head} 0 {cents} 0"


def main():
    if len(sys.argv) < 4:
        print(__doc__)
        for name, (_, meaning) in (FAMILIES | HARD).items():
            print(f"{name:16} {meaning}")
        return
    drawn_net = net(sys.argv[1], int(sys.argv[2]), float(sys.argv[4]) if len(sys.argv) > 4 else 1.0)
    form = {"statement": statement, "dimacs": dimacs, "weighted": weighted}[sys.argv[3]]
    sys.stdout.writelines(f"{line}\n" for line in form(*drawn_net))


main()
