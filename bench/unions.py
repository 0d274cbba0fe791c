#!/usr/bin/env python3
"""Draws a net of parts, or looks for nets that the solver is slow on.

    bench/unions.py FIRMS SEED PART..
    bench/unions.py search FIRST LAST SECONDS

The first prints a net in the DIMACS format, as `bench/nets.py` does. The second draws a union of two to four parts for each seed from
FIRST to before LAST, solves it by the program that `bench/plain.py` builds, and prints the milliseconds and the words of each that takes
more than so many seconds.

A part is NAME:KEY=VALUE,.. and lies over all firms, in the order `by`: `id`, `rev`, `rand`, or `strideK`. Amounts are log-uniform up to
`most`, in cents, or with `uni` uniform between that share of `most` and `most`. With `turned=1` creditors and debtors are exchanged.

    ladder   the first firm owes each other one a rung of up to 10^`rung`, and each owes the one before all that it was owed so far
    local    each firm owes the next `far`, in a ring with `ring=1`
    wide     `m` claims between any two firms
    dag      `m` claims from a firm to one behind it
    near     `m` claims to one of the `far` next firms, or before it where a draw is above `share`
    grid     a torus of rows of `w` firms, with claims back along the rows with `up=1`
    thin     layers of `w` firms, complete between neighbours, in a ring with `ring=1`
    tight    a chain of claims of `amount`, closed with `ring=1`
    frames   frames of `w` by `w` firms with large claims inside, and one of up to `hi` from each firm to the next frame
    win      windows of up to `most` at a share of the firms, log-uniform with `log=1`
"""

import math
import pathlib
import random
import subprocess
import sys
import tempfile

MOST, MOST_SUM = 999_999_999_999, 10**15
PLAIN = pathlib.Path(__file__).resolve().parent / "out" / "plain"


class Union:
    """The windows of the firms, and the claims by debtor and creditor."""

    def __init__(self, firms, seed):
        self.draw, self.windows, self.claims = random.Random(seed), [[0, 0] for _ in range(firms)], {}

    def add(self, words):
        name, _, rest = words.partition(":")
        Part(self, dict(word.split("=") for word in rest.split(",") if word)).add(name)

    def dimacs(self):
        ground = len(self.windows) + 1
        lines = [f"a {debtor + 1} {creditor + 1} 0 {cents} -1" for (debtor, creditor), cents in self.claims.items()]
        lines += [f"a {firm} {ground} 0 {room} 0" for firm, (_, room) in enumerate(self.windows, 1) if room]
        lines += [f"a {ground} {firm} 0 {spend} 0" for firm, (spend, _) in enumerate(self.windows, 1) if spend]
        return "\n".join([f"p min {ground} {len(lines)}", *lines, ""])


class Part:
    """A part of a union: its words, and the firms in their order."""

    def __init__(self, union, words):
        self.union, self.words, self.draw = union, words, union.draw
        self.firms = list(range(len(union.windows)))
        order = words.get("by", "id")
        if order == "rev":
            self.firms.reverse()
        elif order == "rand":
            self.draw.shuffle(self.firms)
        elif order.startswith("stride"):
            step = int(order[len("stride") :])
            self.firms = [place * step % len(self.firms) for place in self.firms]

    def add(self, name):
        getattr(self, f"add_{name}")()

    def number(self, key, default):
        return int(float(self.words.get(key, default)))

    def amount(self, most=None):
        most = self.number("most", MOST) if most is None else most
        least = float(self.words.get("uni", 0))
        if least:
            return min(MOST, max(1, int(most * (least + (1 - least) * self.draw.random()))))
        return min(MOST, max(1, int(math.exp(self.draw.random() * math.log(most + 1)))))

    def owe(self, debtor, creditor, cents):
        """The firm at a place owes the one at another."""
        ends = self.firms[debtor % len(self.firms)], self.firms[creditor % len(self.firms)]
        ends = ends[::-1] if self.number("turned", 0) else ends
        if ends[0] != ends[1] and cents > 0:
            self.union.claims[ends] = min(self.union.claims.get(ends, 0) + min(MOST, cents), MOST_SUM)

    def add_ladder(self):
        held, rung = 0, self.number("rung", 0)
        for place in range(len(self.firms) - 1, 0, -1):
            if held:
                self.owe(place + 1, place, held)
            cents = self.amount(10**rung) if rung else 1
            self.owe(0, place, cents)
            held += cents

    def add_local(self):
        for place in range(len(self.firms)):
            for step in range(1, self.number("far", 13) + 1):
                if self.number("ring", 1) or place + step < len(self.firms):
                    self.owe(place, place + step, self.amount())

    def add_wide(self):
        for _ in range(self.number("m", 200_000)):
            ends = self.draw.randrange(len(self.firms)), self.draw.randrange(len(self.firms))
            self.owe(*ends, self.amount())

    def add_dag(self):
        for _ in range(self.number("m", 200_000)):
            ends = self.draw.randrange(len(self.firms)), self.draw.randrange(len(self.firms))
            self.owe(*sorted(ends), self.amount())

    def add_near(self):
        for _ in range(self.number("m", 200_000)):
            place = self.draw.randrange(len(self.firms))
            step = self.draw.randrange(1, self.number("far", 100) + 1)
            back = self.draw.random() >= float(self.words.get("share", 1))
            self.owe(place, place - step if back else place + step, self.amount())

    def add_grid(self):
        width = self.number("w", 128)
        whole = len(self.firms) // width * width
        for place in range(whole):
            right = place - place % width + (place + 1) % width
            self.owe(place, right, self.amount())
            self.owe(place, (place + width) % whole, self.amount())
            if self.number("up", 0):
                self.owe(right, place, self.amount())

    def add_thin(self):
        width = self.number("w", 16)
        layers = len(self.firms) // width
        for layer in range(layers if self.number("ring", 1) else layers - 1):
            for place in range(width):
                for other in range(width):
                    self.owe(layer * width + place, (layer + 1) % layers * width + other, self.amount())

    def add_tight(self):
        last = len(self.firms) - 1
        for place in range(last):
            self.owe(place, place + 1, self.number("amount", 9e11))
        if self.number("ring", 0):
            self.owe(last, 0, self.number("amount", 9e11))

    def add_frames(self):
        width, high = self.number("w", 16), self.number("hi", 1_000)
        size = width * width
        frames = len(self.firms) // size
        for frame in range(frames):
            self.add_frame(frame * size, width, high * size)
            if frame + 1 < frames or self.number("ring", 0):
                others = list(range(size))
                self.draw.shuffle(others)
                for place, other in enumerate(others):
                    self.owe(frame * size + place, (frame + 1) % frames * size + other, self.draw.randint(1, high))
        if not self.number("ring", 0):
            self.owe(frames * size - 1, 0, 10**12)

    def add_frame(self, first, width, cents):
        for place in range(width * width):
            here = first + place
            for other in [here + 1] * (place % width + 1 < width) + [here + width] * (place + width < width * width):
                self.owe(here, other, cents)
                self.owe(other, here, cents)

    def add_win(self):
        for firm in self.firms:
            if self.draw.random() < float(self.words.get("share", 1)):
                for side in (0, 1):
                    is_log = self.number("log", 0)
                    self.union.windows[firm][side] += self.amount() - 1 if is_log else self.draw.randrange(self.number("most", MOST))


def union_of(firms, seed, parts):
    union = Union(firms, seed)
    for part in parts:
        union.add(part)
    return union


def drawn_words(seed):
    """The firms, the seed and the parts of a union that is drawn for a search."""
    draw = random.Random(seed * 7919 + 13)
    firms = draw.choice((15_360, 16_384))
    parts, claims = [], 0
    for _ in range(draw.randint(2, 4)):
        part, more = drawn_part(draw, firms)
        if claims + more <= 258_000:
            parts.append(part)
            claims += more
    if draw.random() < 0.4:
        parts.append(f"win:most={draw.choice(('1e4', '1e7', '1e9'))},log={draw.randint(0, 1)},share={draw.choice((0.1, 0.5, 1.0))}")
    return firms, seed, parts


def drawn_part(draw, firms):
    """The words of a part, and some number that its claims are below."""

    def by():
        return "by=" + draw.choice(("id", "rev", "rand", "stride7"))

    def most():
        return "most=" + draw.choice(("1e2", "1e4", "1e6", "1e7", "1e9", "1e11", "9e11"))

    def amounts():
        return most() + draw.choice(("", "", ",uni=0.5", ",uni=0.01"))

    name = draw.choice(("local", "wide", "thin", "tight", "tight", "ladder", "grid", "frames", "dag", "near"))
    if name == "local":
        far = draw.choice((1, 2, 4, 8, 13))
        return f"local:{by()},far={far},ring={draw.randint(0, 1)},{amounts()}", far * firms
    if name in ("wide", "dag"):
        many = draw.choice((10_000, 42_000, 80_000, 120_000, 200_000) if name == "wide" else (10_000, 80_000))
        return f"{name}:{by()},m={many},{amounts()}", many
    if name == "near":
        many = draw.choice((42_000, 120_000))
        return f"near:{by()},{most()},m={many},far={draw.choice((10, 100, 1_000))},share={draw.choice((0.5, 0.7, 1.0))}", many
    if name == "thin":
        width = draw.choice((4, 8, 13))
        return f"thin:{by()},w={width},ring={draw.randint(0, 1)},{amounts()}", width * firms
    if name == "tight":
        return f"tight:{by()},amount={draw.choice(('1e4', '1e6', '1e7', '9e11'))},ring={draw.choice((0, 0, 1))}", firms
    if name == "ladder":
        return f"ladder:{by()},rung={draw.choice((0, 4, 6, 8, 11))},turned={draw.randint(0, 1)}", 2 * firms
    if name == "grid":
        return f"grid:{by()},w={draw.choice((4, 16, 128))},{amounts()},up={draw.randint(0, 1)}", 3 * firms
    return f"frames:{by()},w={draw.choice((8, 16))},hi={draw.choice(('1e3', '1e6'))},ring={draw.randint(0, 1)}", 5 * firms


def search(first, last, seconds):
    times = []
    for seed in range(first, last):
        firms, _, parts = drawn_words(seed)
        with tempfile.NamedTemporaryFile("w") as net:
            net.write(union_of(firms, seed, parts).dimacs())
            net.flush()
            words = subprocess.run([PLAIN, net.name, "1"], capture_output=True, text=True, check=True).stdout.split()
        times.append(float(words[0]))
        if times[-1] > seconds * 1_000:
            print(f"{times[-1]:.0f} {firms} {seed}", *parts, flush=True)
    times.sort()
    print(f"{len(times)} nets, half of them within {times[len(times) // 2]:.0f} ms, the slowest {times[-1]:.0f}")


if __name__ == "__main__":
    if len(sys.argv) < 4:
        sys.exit(__doc__)
    if sys.argv[1] == "search":
        search(int(sys.argv[2]), int(sys.argv[3]), float(sys.argv[4]))
    else:
        sys.stdout.write(union_of(int(sys.argv[1]), int(sys.argv[2]), sys.argv[3:]).dimacs())
