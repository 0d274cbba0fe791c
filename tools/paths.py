#!/usr/bin/env python3
"""Tells what the crate graph costs: tools/paths.py [CRATE..]

`rt` sums up what a crate is made of by walking every path through crates.txt below it, and reads all files of a crate at each visit, some
6 ms a path. So what a build or a check takes before anything is proved grows with the paths, and not with the crates. Prints the paths and
the longest chain below each crate named, else of the ten with the most, then all paths together, and the ten edges through which most
paths go although another path leads there: each of these is saved where a crate between gives the lower one on. Status 1: the program has
more than 1,500 paths, or all crates together have more than 8,000."""
import os
import sys

HOME = os.path.dirname(os.path.dirname(os.path.realpath(__file__)))
MOST_OF_THE_PROGRAM, MOST_OF_ALL = 1_500, 8_000


def crate_graph():
    """The crates of the repository, each with those that it names in crates.txt, lowest first."""
    named = {}
    with open(f"{HOME}/crates.txt", encoding="utf-8") as lines:
        for line in lines:
            head, colon, below = line.partition("#")[0].partition(":")
            if colon:
                named[head.split()[0]] = below.split()
    graph = {}

    def add(crate):
        if crate in named and crate not in graph:
            for low in named[crate]:
                add(low)
            graph[crate] = [low for low in named[crate] if low in named]

    for crate in named:
        add(crate)
    return graph


def folded(graph, value):
    """Of each crate a value that is made of the values of the crates that it names."""
    found = {}
    for crate, below in graph.items():
        found[crate] = value([found[low] for low in below])
    return found


def paths_from_above(graph):
    """Of each crate the number of paths that lead to it from any crate."""
    found = dict.fromkeys(graph, 1)
    for crate in reversed(graph):
        for low in graph[crate]:
            found[low] += found[crate]
    return found


def main(names):
    graph = crate_graph()
    paths = folded(graph, lambda below: 1 + sum(below))
    chain = folded(graph, lambda below: 1 + max(below, default=0))
    reached = {}
    for crate, below in graph.items():
        reached[crate] = set(below).union(*(reached[low] for low in below))
    above = paths_from_above(graph)
    for crate in names or sorted(graph, key=lambda it: -paths[it])[:10]:
        print(f"{paths[crate]:7,} paths, chain {chain[crate]:2}, {len(graph[crate]):2} edges  {crate}")
    total = sum(paths.values())
    print(f"{total:7,} paths of {len(graph)} crates with {sum(map(len, graph.values()))} edges")
    edges = [(above[crate] * paths[low], crate, low) for crate in graph for low in graph[crate] if any(low in reached[it] for it in graph[crate])]
    for weight, crate, low in sorted(edges, reverse=True)[:10]:
        print(f"{weight:7,} paths through  {crate} -> {low}")
    return 1 if paths["bureau_program"] > MOST_OF_THE_PROGRAM or total > MOST_OF_ALL else 0


if __name__ == "__main__":
    sys.exit(main(sys.argv[1:]))
