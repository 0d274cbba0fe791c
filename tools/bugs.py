#!/usr/bin/env python3
"""Plants the bugs of tools/bugs/CRATE/, one at a time in a copy of the crate, and prints how many the prover refuses.

    tools/bugs.py [--at-once N] [CRATE..]

Without a name it takes each crate that has bugs there. What these stand on is proved first, as tools/prove.py does it.
A bug is an edit as in crates/CRATE/must-fail/, and is tried in the same way, by the kit's own `rt`. Of those that are refused, `by name` counts the ones that
say little, since a proof names what the edit took away. `bad` ones do not compile, or do not apply, and show nothing. What rt says of each stands above the
figures. Run by hand. Status 0: each was refused; 1: one was not, or was not tried; 2: this kit's `rt` has another form."""
import argparse
import os
import shutil
import subprocess
import sys
from concurrent.futures import ThreadPoolExecutor, as_completed

sys.dont_write_bytecode = True
import prove

BUGS = f"{prove.HOME}/tools/bugs"


def bugs_of(name):
    return sorted(f"{BUGS}/{name}/{file}" for file in os.listdir(f"{BUGS}/{name}") if file.endswith(".edit"))


def line(name, *counts):
    return f"{name:20}" + "".join(f" {it:>8}" for it in counts)


def figures(name, tried):
    """How many bugs of a crate were planted and refused, refused by a name alone, and bad."""
    texts = [text for _, text in tried]
    named = sum("only because a proof file names" in it for it in texts)
    return line(name, len(tried), sum(refused for refused, _ in tried), named, sum(": BAD EDIT" in it for it in texts))


def trial_of(rt):
    """How the kit's `rt` tries the edits of a crate: whether each was refused, and what is said of it."""
    if hasattr(rt, "must_fail_all"):
        return rt.must_fail_all
    seeded, linked, must_fail, refusals = rt.seeded, rt.linked, rt.must_fail, (rt.REFUSED, rt.AT_LIMIT)

    def try_all(crate, edits, flags):
        """Tries each over what a check of the crate as it stands proved, and from scratch where that gives no verdict."""
        room, tried = seeded(crate, flags), []
        for number, edit in enumerate(edits):
            over = room and f"{room}/{number}"
            if room:
                linked(f"{room}/seed", over)
            kind, text = must_fail(crate, edit, flags, over)
            if room and kind not in rt.SETTLED:
                kind, text = must_fail(crate, edit, flags)
            tried.append((kind in refusals, text))
        shutil.rmtree(room or "", ignore_errors=True)
        return tried

    return try_all


def main():
    asks = argparse.ArgumentParser(description=__doc__, formatter_class=argparse.RawDescriptionHelpFormatter)
    asks.add_argument("--at-once", type=int, default=len(os.sched_getaffinity(0)))
    asks.add_argument("crates", nargs="*")
    given = asks.parse_args()
    try:
        rtlib = prove.kit()
        try_all = trial_of(sys.modules["kit_rt"])
    except (OSError, AttributeError, subprocess.CalledProcessError) as why:
        print(f"this kit's rt has another form: {why}", file=sys.stderr)
        return 2
    rtlib.guarded()
    os.chdir(prove.HOME)
    names = given.crates or sorted(os.listdir(BUGS))
    every = sorted(rtlib.crates_below(prove.HOME), key=lambda it: len(it.below()))
    prove.mark_tests(every)
    chosen = [it for it in every if it.name in names]
    lacking = set(names) - {it.name for it in chosen}
    if lacking:
        asks.error(f"no crate {min(lacking)}")
    below = {low.name for it in chosen for low in it.below()}
    held = rtlib.lock(every)
    logs = f"{prove.HOME}/crates/bureau_program/out/logs"
    os.makedirs(logs, exist_ok=True)
    if prove.Work(rtlib, [it for it in every if it.name in below], given.at_once, logs).go():
        return 1
    cost = prove.costs(chosen)
    chosen.sort(key=lambda it: -cost[it.name] * (1 + len(bugs_of(it.name)) / 4))
    found = {}
    with ThreadPoolExecutor(given.at_once) as pool:
        runs = {pool.submit(try_all, it, bugs_of(it.name), ["--jobs", "1"]): it.name for it in chosen}
        for run in as_completed(runs):
            found[runs[run]] = run.result()
            print(*[text for _, text in run.result()], sep="\n", flush=True)
    print("\n" + line("crate", "planted", "refused", "by name", "bad"))
    print(*[figures(name, tried) for name, tried in sorted(found.items())], sep="\n")
    del held
    return 0 if all(refused for tried in found.values() for refused, _ in tried) else 1


if __name__ == "__main__":
    sys.exit(main())
