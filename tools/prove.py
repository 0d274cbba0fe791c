#!/usr/bin/env python3
"""Proves crates of this repository and all that they stand on, several at a time.

    tools/prove.py [--at-once N] [--log FOLDER] [--costs] [CRATE..]
    tools/prove.py --check CRATE [WORD..]

Without a name it proves every crate and the tests of every crate of tests. A library is built, too, and a program is linked. The crate with the longest way
still to go behind it comes first; where fewer crates are ready than there are processors, a crate gets several. How many seconds of a
processor a crate takes is read from bench/costs.txt, and guessed from its lines where it is not listed there; --costs writes what the crates took that this
run proved.

With --check it proves what the crate stands on, and then checks the crate as `rt check` does, over what earlier checks of it kept. The further words go to
the toolchain's checker: `--only PATH`, `--allow-holes`, `--start FUNCTION`, `--test`.

As `rt ci` does, it builds each library with its statements alone, without the proofs: the checks of the crates above take half the time then. Such
libraries stand in crates/NAME/out/statements, beside those with proofs that `rt check` builds for itself in crates/NAME/out/rlib. It works over the
modules of the kit's own `rt`, and sums up each crate's sources once. Where the kit builds no such libraries, it builds those of `rt check`.
Status 0: all is proved; 1: something is not; 2: this kit's `rt` has another form, and nothing was done."""
import argparse
import contextlib
import hashlib
import importlib.machinery
import importlib.util
import os
import subprocess
import sys
import threading
import time

HOME = os.path.dirname(os.path.dirname(os.path.realpath(__file__)))
COSTS = f"{HOME}/bench/costs.txt"
# The memory that has to be free before one more check begins: most take 1 to 3 GB.
MEMORY = 4_000_000_000


def kit():
    """The modules of the kit's `rt`, in which a sum over a crate's sources reads each crate below it once."""
    sys.dont_write_bytecode = True
    page = subprocess.run(["rt", "doc"], stdout=subprocess.PIPE, text=True, check=True).stdout.strip()
    loader = importlib.machinery.SourceFileLoader("kit_rt", f"{os.path.dirname(page)}/bin/rt")
    rt = importlib.util.module_from_spec(importlib.util.spec_from_loader("kit_rt", loader))
    sys.modules["kit_rt"] = rt
    loader.exec_module(rt)
    made, plain, call = rt.rtlib.Crate.__init__, rt.rtlib.Crate.stamp, threading.local()

    def make(crate, *given, **named):
        made(crate, *given, **named)
        rt.read_files(crate)

    def stamp(crate):
        known = getattr(call, "known", None)
        if known is None:
            call.known = {}
            try:
                return stamp(crate)
            finally:
                call.known = None
        if crate.folder not in known:
            known[crate.folder] = plain(crate)
        return known[crate.folder]

    below, sets = rt.rtlib.Crate.below, {}

    def below_once(crate):
        if crate.folder not in sets:
            sets[crate.folder] = below(crate)
        return list(sets[crate.folder])

    rt.rtlib.Crate.__init__, rt.rtlib.Crate.stamp, rt.rtlib.Crate.below = make, stamp, below_once
    for needed in ("build_rlib", "call", "check", "run", "words", "has_tests"):
        getattr(rt.rtlib.Crate, needed)
    if "--statements" in rt.rtlib.help_of("build"):
        build_statements(rt.rtlib)
    return rt.rtlib


def build_statements(rtlib):
    """Has libraries built with their statements alone, in a folder of their own. One fits only the very libraries that it was built over, so what is kept
    with it names these by the sums in their formats."""
    made = rtlib.Crate.__init__

    def make(crate, *given, **named):
        made(crate, *given, **named)
        crate.rlib = f"{crate.folder}/out/statements/{crate.name}.rlib"

    def sums(crate):
        found = [crate.stamp(), *[rtlib.sum_of(f"{low.rlib}/format") for low in crate.below()]]
        return hashlib.sha256(repr(found).encode()).hexdigest()

    def is_built(crate):
        return os.path.isdir(crate.rlib) and rtlib.text_of(f"{crate.rlib}.sums") == sums(crate)

    def build_rlib(crate, flags, anew):
        if not anew and crate.is_built():
            return 0
        with contextlib.suppress(FileNotFoundError):
            os.remove(f"{crate.rlib}.sums")
        os.makedirs(os.path.dirname(crate.rlib), exist_ok=True)
        found = sums(crate)
        status = crate.call(rtlib.RATTLE, "build", *crate.words(flags, keeps=False), "--statements", "-o", crate.rlib)
        if status == 0 and found == sums(crate):
            with open(f"{crate.rlib}.sums", "w", encoding="utf-8") as it:
                it.write(found)
        return status

    rtlib.Crate.__init__, rtlib.Crate.is_built, rtlib.Crate.build_rlib = make, is_built, build_rlib


def listed_costs():
    """What bench/costs.txt lists: the processor seconds that a check of a crate takes."""
    if not os.path.isfile(COSTS):
        return {}
    with open(COSTS, encoding="utf-8") as table:
        return {words[0]: float(words[1]) for words in map(str.split, table) if words}


def costs(crates):
    """Processor seconds that a check of each crate takes."""
    found = listed_costs()
    return {it.name: found.get(it.name, 12 + 0.05 * it.count(rb"\n")) for it in crates}


def mark_tests(crates):
    """Marks the crates of tests: those with tests on which no other stands. The tests of a library are left to `rt ci`."""
    below = {low.name for it in crates for low in it.below()}
    for it in crates:
        it.is_of_tests = it.has_tests() and it.name not in below


def prove(crate, jobs):
    """Proves a crate over libraries that are built, with the toolchain's lines on the standard output."""
    words = ["--jobs", str(jobs)]
    if crate.is_program:
        return link(crate, words)
    if crate.is_of_tests:
        return crate.check([*words, "--test"])
    return crate.build_rlib(words, anew=False)


def link(crate, words):
    """Proves and links a program. rt runs what it has built; what the program answers without any words is of no matter here."""
    program = f"{crate.folder}/out/{crate.name}"
    with contextlib.suppress(FileNotFoundError):
        os.remove(program)
    crate.run(words, [], input=b"", stdout=subprocess.PIPE, timeout=60)
    return 0 if os.access(program, os.X_OK) else 1


class Work:
    """What is left to prove, what is at work, and what is done."""

    def __init__(self, rtlib, crates, at_once, logs):
        self.rtlib, self.crates, self.at_once, self.logs = rtlib, crates, at_once, logs
        # (what a check has kept makes the next one shorter, and a library is built without)
        self.spent, self.new = {}, {it.name for it in crates if not it.has_kept() or not (it.is_program or it.is_of_tests)}
        self.cost = costs(crates)
        self.waits = {it.name: {low.name for low in it.below()} for it in crates}
        self.behind = {}
        for it in reversed(crates):
            above = [self.behind[high.name] for high in crates if it.name in self.waits[high.name]]
            self.behind[it.name] = self.cost[it.name] + max(above, default=0)
        self.left = sorted(crates, key=lambda it: -self.behind[it.name])
        self.running, self.done, self.since, self.begun = {}, {}, {}, time.time()
        self.turn = threading.Condition()

    def log_of(self, name):
        return f"{self.logs}/{name}.log"

    def run(self, crate, jobs):
        begun = time.time()
        words = [sys.executable, os.path.realpath(__file__), "--alone", str(jobs), crate.name]
        with open(self.log_of(crate.name), "w", encoding="utf-8") as log:
            process = subprocess.Popen(words, stdin=subprocess.DEVNULL, stdout=log, stderr=subprocess.STDOUT)
            _, process.returncode, used = os.wait4(process.pid, 0)
        spent = used.ru_utime + used.ru_stime
        with self.turn:
            del self.running[crate.name]
            self.done[crate.name], self.spent[crate.name] = process.returncode, spent
            word = "proved" if process.returncode == 0 else f"NOT PROVED, see {os.path.relpath(self.log_of(crate.name), HOME)}"
            print(f"{crate.name}: {word} ({time.time() - begun:.0f} s by the clock, {spent:.0f} of the processors)", flush=True)
            self.turn.notify_all()

    def ready(self):
        failed = {name for name, status in self.done.items() if status}
        for it in [it for it in self.left if self.waits[it.name] & failed]:
            self.left.remove(it)
            self.done[it.name] = 1
            print(f"{it.name}: not tried, since {min(self.waits[it.name] & failed)} is not proved", flush=True)
        return [it for it in self.left if self.waits[it.name] <= self.done.keys()]

    def pass_built(self):
        """Takes those that an earlier run built of these very sources as done."""
        for it in [it for it in self.left if it.makes_rlib() and not it.is_of_tests and it.is_built()]:
            self.left.remove(it)
            self.done[it.name] = 0

    def start(self):
        ready = self.ready()
        for at, crate in enumerate(ready):
            idle = self.at_once - sum(self.running.values())
            if idle <= 0 or (self.running and not self.rtlib.fits(MEMORY)):
                return
            # (a second processor for one check saves a tenth of its time, and a second check beside it all of that one's)
            jobs = max(1, min(4, idle // (len(ready) - at)))
            self.left.remove(crate)
            self.running[crate.name], self.since[crate.name] = jobs, time.time()
            threading.Thread(target=self.run, args=(crate, jobs), daemon=True).start()

    def write_costs(self):
        """Puts what the crates took that were proved from scratch into the table."""
        found = {**listed_costs(), **{name: spent for name, spent in self.spent.items() if name in self.new and self.done[name] == 0}}
        with open(COSTS, "w", encoding="utf-8") as table:
            table.writelines(f"{name} {seconds:.0f}\n" for name, seconds in sorted(found.items()))

    def at_work(self):
        """Each crate at work, with the seconds that have gone of those that its check usually takes."""
        return ", ".join(f"{name} {time.time() - self.since[name]:.0f}/{self.cost[name] / jobs:.0f} s" for name, jobs in self.running.items())

    def tell(self):
        whole = sum(self.cost.values())
        left = sum(self.cost[it.name] for it in self.left) + sum(self.cost[name] for name in self.running) / 2
        spent = time.time() - self.begun
        wait = max(left / whole, max([self.behind[it.name] for it in self.left], default=0) / max(self.behind.values())) if whole else 0
        guess = f", some {wait * spent / (1 - wait) / 60:.0f} minutes left" if spent > 120 and wait < 0.95 else ""
        print(f"{len(self.done)} of {len(self.crates)} crates, {spent / 60:.0f} minutes gone{guess}; at work: {self.at_work()}", flush=True)

    def go(self):
        due = time.time() + 30
        self.pass_built()
        with self.turn:
            while True:
                self.start()
                if not self.running and not self.left:
                    return 1 if any(self.done.values()) else 0
                self.turn.wait(timeout=max(0.1, due - time.time()))
                if time.time() >= due:
                    due = time.time() + 30
                    self.tell()


def main():
    asks = argparse.ArgumentParser(description=__doc__, formatter_class=argparse.RawDescriptionHelpFormatter)
    asks.add_argument("--at-once", type=int, default=len(os.sched_getaffinity(0)))
    asks.add_argument("--log", default=f"{HOME}/crates/bureau_program/out/logs")
    asks.add_argument("--costs", action="store_true")
    asks.add_argument("--check", nargs=argparse.REMAINDER, metavar="CRATE")
    asks.add_argument("--alone", type=int, help=argparse.SUPPRESS)
    asks.add_argument("crates", nargs="*")
    given = asks.parse_args()
    if given.check is not None:
        given.crates = given.check[:1] or asks.error("--check takes the name of a crate")
    try:
        rtlib = kit()
    except (OSError, AttributeError, subprocess.CalledProcessError) as why:
        print(f"this kit's rt has another form: {why}", file=sys.stderr)
        return 2
    rtlib.guarded()
    os.chdir(HOME)
    every = sorted(rtlib.crates_below(HOME), key=lambda it: len(it.below()))
    mark_tests(every)
    unknown = set(given.crates) - {it.name for it in every}
    if unknown:
        asks.error(f"no crate {min(unknown)}")
    named = [it for it in every if not given.crates or it.name in given.crates]
    wanted = {low.name for it in named for low in [*it.below(), it]}
    crates = [it for it in every if it.name in wanted]
    if given.alone:
        return prove(named[0], given.alone)
    held = rtlib.lock(crates)
    os.makedirs(given.log, exist_ok=True)
    checked = crates.pop() if given.check else None
    work = Work(rtlib, crates, given.at_once, given.log)
    status = work.go() if crates else 0
    if given.costs:
        work.write_costs()
    if checked and status == 0:
        # (its last line tells what was proved)
        return checked.check(["--jobs", str(min(4, given.at_once)), *given.check[1:]])
    said = "all is proved" if status == 0 else "NOT ALL IS PROVED"
    print(f"{said}: {(time.time() - work.begun) / 60:.1f} minutes by the clock, {sum(work.spent.values()) / 60:.1f} of the processors", flush=True)
    del held
    return status


if __name__ == "__main__":
    sys.exit(main())
