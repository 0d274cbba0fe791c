"""Families of nets on which price levels are as many as firms, or most of the excess has to go back far.

Each function takes a generator and a fraction of the full size, and gives the windows of the firms and the claims. `bench/nets.py` lists
them under their names. In a ladder firm T owes each of v0..vk a rung, and v(i+1) owes v(i) all that v(i+1) was owed so far: nothing can
be set off, and each price level moves back what one rung holds. A tight chain is a supply chain of large equal claims, each firm with a
little liquidity and a little room, so that each price level uses up one window.
"""

import math

MOST = 999_999_999_999
FAR = 900_000_000_000


def log_uniform(draw, most=MOST):
    return min(most, int(math.exp(draw.random() * math.log(most + 1))))


def scaled(number, size):
    return max(2, int(number * size))


class Net:
    """Firms by their places, the windows of each, and the claims."""

    def __init__(self):
        self.windows, self.claims = [], []

    def firms(self, many, window=lambda: (0, 0)):
        first = len(self.windows)
        self.windows.extend(window() for _ in range(many))
        return list(range(first, first + many))

    def owe(self, debtor, creditor, cents):
        self.claims.append((debtor, creditor, cents))

    def turned(self):
        self.claims = [(creditor, debtor, cents) for debtor, creditor, cents in self.claims]
        self.windows = [(room, spend) for spend, room in self.windows]
        return self

    def all(self):
        return self.windows, self.claims


def ladder(net, steps, rung=lambda: 1):
    """A ladder on these firms, T as the first: what its foot is owed in the end."""
    top, feet = steps[0], steps[1:]
    held = 0
    for place in range(len(feet) - 1, -1, -1):
        if held:
            net.owe(feet[place + 1], feet[place], held)
        cents = rung()
        net.owe(top, feet[place], cents)
        held += cents
    return held


def tight(net, steps, cents=FAR):
    for one, other in zip(steps, steps[1:]):
        net.owe(one, other, cents)


def little(draw):
    return lambda: (int(draw.random() * 50), int(draw.random() * 50))


def little_log(draw):
    return lambda: (log_uniform(draw, 10**6) - 1, log_uniform(draw, 10**6) - 1)


def between(draw, net, firms, many, far=None):
    """Claims drawn between firms, or from each to one of the next few."""
    for _ in range(many):
        debtor = int(draw.random() * len(firms))
        creditor = debtor
        while creditor == debtor:
            creditor = (debtor + 1 + int(draw.random() * far)) % len(firms) if far else int(draw.random() * len(firms))
        net.owe(firms[debtor], firms[creditor], log_uniform(draw))


def block(net, foot, side):
    """A block of two sides at the foot of a ladder, whose claims are half used when nothing else is set off."""
    one, other = net.firms(side), net.firms(side)
    for debtor in one:
        net.owe(foot, debtor, 1)
        for creditor in other:
            net.owe(debtor, creditor, 2)
    for debtor, creditor in zip(other, one):
        net.owe(debtor, creditor, side)


def lad(draw, size):
    net = Net()
    ladder(net, net.firms(scaled(15_352, size)))
    return net.all()


def lad_up(draw, size):
    net = Net()
    ladder(net, net.firms(scaled(15_352, size)))
    return net.turned().all()


def lad_both(draw, size):
    net = Net()
    ladder(net, net.firms(scaled(7_676, size)))
    net.turned()
    ladder(net, net.firms(scaled(7_676, size)))
    return net.all()


def lad_meet(draw, size):
    net = Net()
    firms = net.firms(scaled(15_352, size))
    ladder(net, firms)
    net.turned()
    ladder(net, firms)
    return net.all()


def lad_log(draw, size):
    net = Net()
    ladder(net, net.firms(scaled(15_352, size)), lambda: log_uniform(draw, 10**7))
    return net.all()


def lad_block(draw, size):
    net = Net()
    firms = net.firms(scaled(15_372, size))
    ladder(net, firms)
    block(net, firms[1], scaled(470, math.sqrt(size)))
    return net.all()


def lad_blocks(draw, size):
    net = Net()
    for _ in range(2):
        firms = net.firms(scaled(7_500, size))
        ladder(net, firms)
        block(net, firms[1], scaled(330, math.sqrt(size)))
    return net.all()


def lad_wide(draw, size):
    net = Net()
    ladder(net, net.firms(scaled(8_000, size)))
    between(draw, net, net.firms(scaled(8_000, size)), scaled(240_000, size))
    net.owe(1, len(net.windows) - 1, 1)
    return net.all()


def lad_over(far):
    def family(draw, size):
        net = Net()
        firms = net.firms(scaled(15_352, size))
        ladder(net, firms)
        between(draw, net, firms, scaled(230_000, size), far)
        return net.all()

    return family


def no_window(draw):
    return lambda: (0, 0)


def lad_ring(window):
    def family(draw, size):
        """A ladder with log-uniform rungs over a ring in which each firm owes the next 13."""
        net = Net()
        firms = net.firms(scaled(15_360, size), window(draw))
        ladder(net, firms, lambda: log_uniform(draw, 10**6))
        for place, firm in enumerate(firms):
            for step in range(1, 14):
                net.owe(firm, firms[(place + step) % len(firms)], log_uniform(draw))
        return net.all()

    return family


def lad_drawn(draw, size):
    net = Net()
    steps = net.firms(scaled(8_000, size))
    ladder(net, steps)
    one, other = net.firms(scaled(4_000, size)), net.firms(scaled(4_000, size))
    between(draw, net, one, scaled(110_000, size))
    between(draw, net, other, scaled(110_000, size))
    for firm in one[:100]:
        net.owe(steps[1], firm, 1_000)
    for firm in other[:100]:
        net.owe(firm, steps[0], 1_000)
    return net.all()


def comb(draw, size):
    """A ladder whose rungs are chains of 16 firms."""
    net = Net()
    side = scaled(960, size)
    top, held, last = net.firms(1)[0], 0, None
    for _ in range(side):
        foot = net.firms(1)[0]
        if last is not None:
            net.owe(last, foot, held)
        chain = [top, *net.firms(15), foot]
        tight(net, chain, 1)
        held, last = held + 1, foot
    return net.all()


def nested(draw, size):
    """A ladder whose rungs are ladders of 32 firms."""
    net = Net()
    top, held, last = net.firms(1)[0], 0, None
    for _ in range(scaled(480, size)):
        foot = net.firms(1)[0]
        if last is not None:
            net.owe(last, foot, held)
        steps = net.firms(32)
        own = ladder(net, steps)
        net.owe(top, steps[0], own)
        net.owe(steps[1], foot, own)
        held, last = held + own, foot
    return net.all()


def tight_chain(window):
    def family(draw, size):
        net = Net()
        tight(net, net.firms(scaled(16_384, size), window(draw)))
        return net.all()

    return family


def tight_ring(draw, size):
    net = Net()
    firms = net.firms(scaled(16_384, size), little(draw))
    tight(net, [*firms, firms[0]])
    return net.all()


def tight_wide(draw, size):
    net = Net()
    tight(net, net.firms(scaled(8_000, size), little(draw)))
    between(draw, net, net.firms(scaled(8_000, size)), scaled(240_000, size))
    net.owe(0, len(net.windows) - 1, 1)
    return net.all()


def tight_over_wide(draw, size):
    net = Net()
    firms = net.firms(scaled(16_000, size), little(draw))
    tight(net, firms)
    between(draw, net, firms, scaled(230_000, size))
    return net.all()


def some(draw, share):
    window = little(draw)
    return lambda: window() if draw.random() < share else (0, 0)


def tight_some(draw, size):
    """A tight chain with some claims that jump ahead, and windows at every tenth firm."""
    net = Net()
    firms = net.firms(scaled(16_384, size), some(draw, 0.1))
    tight(net, firms)
    for place in range(0, len(firms) - 40):
        net.owe(firms[place], firms[place + 2 + int(draw.random() * 30)], log_uniform(draw))
    return net.all()


def tight_few(draw, size):
    net = Net()
    tight(net, net.firms(scaled(16_384, size), some(draw, 0.25)))
    return net.all()


def tight_local(window):
    def family(draw, size):
        """Regions of a supply chain: each firm owes the next 16, largely."""
        net = Net()
        firms = net.firms(scaled(8_192, size), window(draw))
        for place, firm in enumerate(firms):
            for other in firms[place + 1 : place + 17]:
                net.owe(firm, other, FAR if window is little else log_uniform(draw))
        return net.all()

    return family


def tight_two(draw, size):
    """Two chains of opposite directions on the same firms."""
    net = Net()
    firms = net.firms(scaled(16_384, size), little(draw))
    tight(net, firms)
    tight(net, firms[::-1], FAR // 2)
    return net.all()


def tight_layers(width, window):
    def family(draw, size):
        net = Net()
        layers = [net.firms(width, window(draw)) for _ in range(scaled(16_384 // width, size))]
        for one, other in zip(layers, layers[1:]):
            for debtor in one:
                for creditor in other:
                    net.owe(debtor, creditor, FAR if window is little else log_uniform(draw))
        return net.all()

    return family


def grid_of(rows, columns, cents):
    def family(draw, size):
        net = Net()
        wide = scaled(columns, size)
        lines = [net.firms(wide, little(draw)) for _ in range(rows)]
        for row in range(rows):
            for column in range(wide):
                if column + 1 < wide:
                    net.owe(lines[row][column], lines[row][column + 1], cents(draw))
                if row + 1 < rows:
                    net.owe(lines[row][column], lines[row + 1][column], cents(draw))
        return net.all()

    return family


def local_of(firms, near, closed):
    def family(draw, size):
        net = Net()
        all_firms = net.firms(scaled(firms, size))
        many = len(all_firms)
        for place in range(many):
            for step in range(1, near + 1):
                if closed or place + step < many:
                    net.owe(place, (place + step) % many, log_uniform(draw))
        if not closed:
            net.owe(many - 1, 0, MOST)
        return net.all()

    return family


def dag_few_back(draw, size):
    """Claims ahead among firms in a row, and a few large ones back."""
    net = Net()
    firms = net.firms(scaled(16_384, size))
    for _ in range(scaled(200_000, size)):
        one, other = sorted(draw.sample(firms, 2))
        net.owe(one, other, log_uniform(draw))
    for _ in range(20):
        one, other = sorted(draw.sample(firms, 2))
        net.owe(other, one, MOST)
    return net.all()


def tree(draw, size):
    """A deep tree: each firm owes one of the 30 before it, with a little liquidity and room."""
    net = Net()
    firms = net.firms(scaled(16_383, size), little(draw))
    for place in range(1, len(firms)):
        net.owe(firms[place], firms[place - 1 - int(draw.random() * min(30, place))], FAR)
    return net.all()


HARD = {
    "lad": (lad, "a ladder of 15,352 firms, each rung a cent"),
    "lad-up": (lad_up, "the ladder with all debts turned round"),
    "lad-both": (lad_both, "two ladders of half the size, one turned round"),
    "lad-meet": (lad_meet, "a ladder and one turned round over the same firms"),
    "lad-log": (lad_log, "a ladder with log-uniform rungs to 100,000.00"),
    "lad-block": (lad_block, "a ladder with a block of two sides of 470 firms at its foot, whose claims are half used"),
    "lad-blocks": (lad_blocks, "two ladders, each with a block of two sides of 330"),
    "lad-wide": (lad_wide, "a ladder beside a net of claims drawn between 8,000 firms, log-uniform, and one claim between them"),
    "lad-over-wide": (lad_over(None), "a ladder over the firms of a net of 230,000 drawn claims, log-uniform"),
    "lad-over-local": (lad_over(16), "the same, where each drawn claim goes to one of the next 16 firms"),
    "lad-ring": (lad_ring(no_window), "a ladder with log-uniform rungs over 15,360 firms in a ring, each of which owes the next 13, log-uniform"),
    "lad-ring-log": (lad_ring(little_log), "the same with log-uniform windows"),
    "lad-drawn": (lad_drawn, "a ladder between two drawn nets of 4,000 firms"),
    "comb": (comb, "a ladder whose rungs are chains of 16 claims"),
    "nested": (nested, "a ladder whose rungs are ladders of 32 firms"),
    "tight": (tight_chain(little), "a chain of equal large claims, each firm with up to 49 cents of liquidity and of room"),
    "tight-log": (tight_chain(little_log), "the same with log-uniform liquidity and room"),
    "tight-ring": (tight_ring, "the tight chain, closed"),
    "tight-wide": (tight_wide, "a tight chain beside a drawn net of 8,000 firms, and one claim between them"),
    "tight-over-wide": (tight_over_wide, "a tight chain over the firms of a drawn net"),
    "tight-some": (tight_some, "a tight chain with claims that jump ahead, and windows at a tenth of the firms"),
    "tight-few": (tight_few, "a tight chain with windows at a quarter of the firms"),
    "tight-local": (tight_local(little), "each of 8,192 firms owes the next 16 alike, with little windows"),
    "tight-local-log": (tight_local(little_log), "the same with log-uniform claims and windows"),
    "tight-two": (tight_two, "a tight chain, and half of each claim back"),
    "tight-thin4": (tight_layers(4, little), "4,096 layers of 4 firms, complete between neighbours, with little windows"),
    "tight-thin16": (tight_layers(16, little), "1,024 layers of 16"),
    "tight-thin16-log": (tight_layers(16, little_log), "the same with log-uniform claims and windows"),
    "tight-grid": (grid_of(128, 128, lambda draw: FAR), "a grid of 128 by 128 firms with equal claims and little windows"),
    "grid-strip": (grid_of(8, 2_048, log_uniform), "a grid of 8 by 2,048 firms, log-uniform, with little windows"),
    "local4": (local_of(16_384, 4, True), "each of 16,384 firms owes the next 4 in a ring, log-uniform"),
    "local16-open": (local_of(16_384, 16, False), "each owes the next 16 in a row, and the last the first all, log-uniform"),
    "dag-few-back": (dag_few_back, "200,000 drawn claims ahead among firms in a row, log-uniform, and 20 large ones back"),
    "tree": (tree, "a tree with little windows, each firm owes one of the 30 before it, all claims equal"),
}
