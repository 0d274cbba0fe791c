#!/usr/bin/env python3
"""Times `live` beside `run`, and how long an answer takes over a pipe: bench/live.py [LINES [FOLDER [PROGRAM]]]

The same lines without a FENCE, on one lane, two, four and sixteen, are served by both, with the journal in a folder in memory, and a
twentieth of them with it in a folder of FOLDER, where each act is synced: seconds by the clock and of the processors, the least of
three runs in turn, and the peak of memory. Then batches of one line and of sixteen are written one by one into the pipe of an office
that stays open, each with a FENCE, and each answer is read before the next is written. Last an office reads nothing but FENCE, as much
as it takes. Without words it takes 100,000 lines, the folder of temporary files and the program that is built here. Run by hand.
"""
import os
import pathlib
import statistics
import subprocess
import sys
import tempfile
import time

HERE = pathlib.Path(__file__).resolve().parent
PROGRAM = pathlib.Path(sys.argv[3] if len(sys.argv) > 3 else HERE.parent / "crates/bureau_program/out/bureau_program").resolve()
EXCHANGES = 2000
MOST_BYTES = 2**26
BATCHES = [(1, 1), (16, 1), (16, 2), (16, 4), (16, 16)]


def lines_of(count, lanes):
    """Sixteen firms and a fence, then funds of the next firm by the next lane, half of them, and positions."""
    parts = [f"1 FIRM F-{firm}\n" for firm in range(16)] + ["FENCE\n"]
    for k in range(count):
        act = f"FUND F-{k % 16} 1.00" if k % 2 else f"POSITION F-{k % 16}"
        parts.append(f"{k % lanes + 1} {act}\n")
    return "".join(parts).encode()


def served(word, text, folder):
    """Seconds by the clock and of the processors, and the peak in MB, of one service in a folder without a journal."""
    journal = folder / "bureau.journal"
    journal.unlink(missing_ok=True)
    with open(folder / "input", "wb") as file:
        file.write(text)
    before = time.perf_counter()
    with open(folder / "input", "rb") as source, open(os.devnull, "wb") as sink:
        child = subprocess.Popen([PROGRAM, word], stdin=source, stdout=sink, cwd=folder)
        _, status, used = os.wait4(child.pid, 0)
    clock = time.perf_counter() - before
    if os.waitstatus_to_exitcode(status) != 0:
        sys.exit(f"bench: {word} ended with status {os.waitstatus_to_exitcode(status)}")
    return clock, used.ru_utime + used.ru_stime, used.ru_maxrss / 1024


def compare(name, text, folder):
    rounds = [[served(word, text, folder) for word in ("run", "live")] for _ in range(3)]
    least = [[min(one[who][what] for one in rounds) for what in range(3)] for who in range(2)]
    (run, run_cpu, run_peak), (live, live_cpu, live_peak) = least
    print(f"{name:24} {run:8.3f} {live:8.3f} {live / run:6.2f} {run_cpu:8.3f} {live_cpu:8.3f} {live_cpu / run_cpu:6.2f} {run_peak:8.0f} {live_peak:8.0f}")


def answered(office, batch):
    """The milliseconds until each line of a batch has its entry."""
    before = time.perf_counter()
    os.write(office.stdin.fileno(), f"{batch}FENCE\n".encode())
    answer = b""
    while answer.count(b"\n") < batch.count("\n"):
        answer += os.read(office.stdout.fileno(), 4096)
    if b"refused" in answer or b"fault" in answer:
        sys.exit(f"bench: {answer!r}")
    return (time.perf_counter() - before) * 1000


def exchanges(act, lines, lanes, folder):
    """The times of answers to batches over a pipe, in milliseconds, in order."""
    (folder / "bureau.journal").unlink(missing_ok=True)
    office = subprocess.Popen([PROGRAM, "live"], stdin=subprocess.PIPE, stdout=subprocess.PIPE, cwd=folder)
    answered(office, "1 FIRM A\n")
    batch = "".join(f"{k % lanes + 1} {act}\n" for k in range(lines))
    times = sorted(answered(office, batch) for _ in range(EXCHANGES))
    office.stdin.close()
    if office.wait() != 0:
        sys.exit("bench: the office did not close")
    return times


def tell_exchanges(memory, disk):
    print("an answer to a batch over a pipe, ms: half within, 99 of a hundred within")
    for name, act, folder in (("POSITION, in memory", "POSITION A", memory), ("FUND, in memory", "FUND A 1.00", memory), ("FUND, on a file", "FUND A 1.00", disk)):
        for lines, lanes in BATCHES:
            times = exchanges(act, lines, lanes, folder)
            what = f"{name}, {lines} on {lanes}"
            print(f"{what:28} {statistics.median(times):8.3f} {times[len(times) * 99 // 100]:8.3f}")


def main():
    count = int(sys.argv[1]) if len(sys.argv) > 1 else 100_000
    where = sys.argv[2] if len(sys.argv) > 2 else None
    with tempfile.TemporaryDirectory(dir="/dev/shm") as memory, tempfile.TemporaryDirectory(dir=where) as disk:
        memory, disk = pathlib.Path(memory), pathlib.Path(disk)
        print(f"{'':24} {'run':>8} {'live':>8} {'times':>6} {'run cpu':>8} {'live cpu':>8} {'times':>6} {'run MB':>8} {'live MB':>8}")
        for lanes in (1, 2, 4, 16):
            compare(f"{lanes} lanes, in memory", lines_of(count, lanes), memory)
            compare(f"{lanes} lanes, on a file", lines_of(count // 20, lanes), disk)
        tell_exchanges(memory, disk)
        clock, used, _ = served("live", b"FENCE\n" * (MOST_BYTES // 6), memory)
        print(f"{MOST_BYTES // 6} times FENCE: {clock:.1f} seconds, {used:.1f} of the processors")


if __name__ == "__main__":
    main()
