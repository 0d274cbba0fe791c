#!/usr/bin/env python3
"""Asks reports while an office writes the journal: bench/beside.py [PROGRAM [FOLDER]]

- 200 reports, by four at once, while an office serves 20,000 acts and eight rounds, and goes on with others until the last report has
  ended: each ends with status 0 and tells of a beginning of the journal, with all acts that were answered before it began; what a
  caller is told never falls; and each `audit` says yes. Copies of the journal are as good.
- Two that write: the second ends with status 5, at once, and the first goes on.
- An office that is killed at 50 random moments while reports are asked: these end with status 0, and its journal is sound and has all
  acts that were answered.

The journals stand in a folder of FOLDER, which is that of temporary files, and then in one in memory. PROGRAM stands in for the one that
is built here. Status 1: something else came. Run by hand.
"""
import contextlib
import itertools
import pathlib
import random
import shutil
import subprocess
import sys
import tempfile
import threading
import time

HERE = pathlib.Path(__file__).resolve().parent
ACTS, ROUNDS, REPORTS, KILLS, FIRMS = 20_000, 8, 200, 50, 64
PAUSE = 0.005
FUNDS = "".join(f"{lane} FUND F-{lane} 0.01\n" for lane in range(1, 17)).encode() + b"FENCE\n"
WORDS = [["positions"], ["notices", "2025-12-31"], ["audit"], ["history"]]
faults = []


def expect(holds, *what):
    if not holds:
        faults.append(what)
        print("SOMETHING ELSE:", *what, flush=True)


def batches():
    """Batches of a hundred acts on four lanes, each of which ends with a FENCE, and now and then a round."""
    acts = [f"1 FIRM F-{firm}" for firm in range(FIRMS)] + ["FENCE"]
    for number in range((ACTS - FIRMS) // 2):
        creditor, debtor, lane = number % FIRMS, (number + 1) % FIRMS, number % 4 + 1
        acts.append(f"{lane} FILE F-{creditor} I-{number} F-{debtor} {number % 90 + 1}.00 2025-01-31")
        acts.append(f"{lane} CONFIRM F-{creditor} I-{number} F-{debtor}")
        if number % (ACTS // 2 // ROUNDS) == ACTS // 2 // ROUNDS - 100:
            acts.append("1 CLOSE PLAIN 2025-12-31")
        if number % 50 == 49:
            acts.append("FENCE")
    return [f"{batch}FENCE\n".encode() for batch in "".join(f"{act}\n" for act in acts).split("FENCE\n") if batch]


class Office:
    """An office that serves batches, with a pause before each, and funds behind them while more is asked, with the count of its acts that
    were answered so far."""

    def __init__(self, program, folder, parts, more=False):
        self.answered, self.more = 0, more
        self.process = subprocess.Popen([program, "live"], stdin=subprocess.PIPE, stdout=subprocess.PIPE, cwd=folder)
        self.threads = [threading.Thread(target=self.feed, args=(parts,)), threading.Thread(target=self.listen)]
        for thread in self.threads:
            thread.start()

    def feed(self, parts):
        with contextlib.suppress(BrokenPipeError):
            for part in itertools.chain(parts, itertools.repeat(FUNDS)):
                if part is FUNDS and not self.more:
                    break
                self.process.stdin.write(part)
                self.process.stdin.flush()
                time.sleep(PAUSE)
        with contextlib.suppress(BrokenPipeError):
            self.process.stdin.close()

    def listen(self):
        for line in self.process.stdout:
            reply = line.partition(b" = ")[2]
            self.answered += reply.startswith((b"ok", b"opened", b"published"))

    def is_open(self):
        return self.process.poll() is None

    def wait(self):
        status = self.process.wait()
        for thread in self.threads:
            thread.join()
        return status


def report(program, folder, words):
    ran = subprocess.run([program, *words], cwd=folder, stdin=subprocess.DEVNULL, capture_output=True)
    return ran.returncode, ran.stdout


def acts_of(audit):
    return int(audit.split()[2]) if audit.startswith(b"yes acts ") else -1


def reports(program, folder, office, numbers, told):
    """Asks reports, each behind the one before, and checks what they tell."""
    last = 0
    for number in numbers:
        words, before = WORDS[number % len(WORDS)], office.answered
        beside = office.is_open()
        status, text = report(program, folder, words)
        told.append((beside, words[0], text))
        expect(status == 0, words, "ended with status", status, text[:80])
        if words[0] == "audit":
            expect(acts_of(text) >= max(before, last), "audit told", text, "after", before, "acts were answered and", last, "told")
            last = max(last, acts_of(text))


def beside(program, folder):
    (folder / "copies").mkdir()
    office, told, numbers = Office(program, folder, batches(), more=True), [], itertools.count()
    shared = [list(itertools.islice(numbers, REPORTS // 4)) for _ in range(4)]
    while not office.answered:
        time.sleep(0.001)
    threads = [threading.Thread(target=reports, args=(program, folder, office, part, told)) for part in shared]
    for thread in threads:
        thread.start()
    copies = 0
    while any(thread.is_alive() for thread in threads) and office.is_open():
        before = office.answered
        shutil.copyfile(folder / "bureau.journal", folder / "copies/bureau.journal")
        status, text = report(program, folder / "copies", ["audit"])
        expect(status == 0 and acts_of(text) >= before, "of a copy audit told", text, "after", before, "acts were answered")
        copies += 1
    for thread in threads:
        thread.join()
    office.more = False
    expect(office.wait() == 0, "the office ended with another status")
    _, whole = report(program, folder, ["history"])
    _, audit = report(program, folder, ["audit"])
    for _, word, text in told:
        expect(word != "history" or whole.startswith(text), "a history was no beginning")
    lengths = sorted(len(text) for _, word, text in told if word == "history")
    print(f"{sum(open_ for open_, _, _ in told)} of {len(told)} reports and {copies} copies while the office wrote; {audit.decode().strip()}; "
          f"histories of {lengths[0]} to {lengths[-1]} of {len(whole)} bytes")


def two(program, folder):
    first = subprocess.Popen([program, "live"], stdin=subprocess.PIPE, stdout=subprocess.PIPE, cwd=folder)
    first.stdin.write(b"1 FIRM A\nFENCE\n")
    first.stdin.flush()
    first.stdout.readline()
    for word in ("run", "live"):
        before = time.perf_counter()
        second = subprocess.run([program, word], input=b"1 FIRM B\n", cwd=folder, capture_output=True)
        took = time.perf_counter() - before
        expect(second.returncode == 5 and second.stdout == b"fault device 0 1\n", word, "ended with", second.returncode, second.stdout)
        print(f"a second {word} ended with status {second.returncode} within {took * 1000:.0f} ms")
    rest, _ = first.communicate(b"1 FIRM B\n")
    expect(first.returncode == 0 and rest == b"1 FIRM B = ok\n", "the first one ended with", first.returncode, rest)


def killed(program, folder, parts, draw):
    """The office is killed at a random moment."""
    journal = folder / "bureau.journal"
    journal.unlink(missing_ok=True)
    office, told = Office(program, folder, parts), []
    asking = [threading.Thread(target=reports, args=(program, folder, office, range(start, start + 8), told)) for start in (0, 2)]
    for thread in asking:
        thread.start()
    time.sleep(draw.uniform(0, 0.3))
    office.process.kill()
    office.wait()
    for thread in asking:
        thread.join()
    status, audit = report(program, folder, ["audit"])
    if journal.exists():
        expect(status == 0 and acts_of(audit) >= office.answered, "audit told", audit, "after", office.answered, "acts were answered")
    status, _ = report(program, folder, ["run"])
    expect(status == 0, "a run after that ended with status", status)
    return acts_of(audit)


def main():
    program = pathlib.Path(sys.argv[1] if len(sys.argv) > 1 else HERE.parent / "crates/bureau_program/out/bureau_program").resolve()
    parts, draw = batches(), random.Random(1)
    for where in (sys.argv[2] if len(sys.argv) > 2 else None, "/dev/shm"):
        for part in (beside, two):
            with tempfile.TemporaryDirectory(dir=where) as folder:
                part(program, pathlib.Path(folder))
        with tempfile.TemporaryDirectory(dir=where) as folder:
            kept = sorted(killed(program, pathlib.Path(folder), parts, draw) for _ in range(KILLS))
            print(f"{KILLS} times killed: the journals had {kept[0]} to {kept[-1]} acts")
    print(f"{len(faults)} times something else")
    return 1 if faults else 0


if __name__ == "__main__":
    sys.exit(main())
