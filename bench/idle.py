#!/usr/bin/env python3
"""Counts the time of the processors that an open office uses while nothing comes: bench/idle.py [SECONDS [PROGRAM]]

An office is opened for each state that a batch can stand in, with its journal in a folder in memory, and is sent some lines. Then the
processor time of so many seconds is counted, ten without words, in all of them side by side. Status 1: one used a hundredth of a
processor or more. PROGRAM stands in for the one that is built here. Run by hand.
"""
import os
import pathlib
import subprocess
import sys
import tempfile
import time

HERE = pathlib.Path(__file__).resolve().parent
TICKS = os.sysconf("SC_CLK_TCK")
CLOSE = "1 CLOSE PLAIN 2025-12-31\n"
STATES = {
    "nothing was sent": "",
    "a batch has ended": "1 FIRM A\n2 FIRM B\nFENCE\n",
    "a line of one lane": "1 FIRM A\n",
    "a line that is not whole": "1 FIRM A\n2 FI",
    "lines of two lanes": "1 FIRM A\n2 FIRM B\n",
    "lines of sixteen lanes": "".join(f"{lane} FIRM F-{lane}\n" for lane in range(1, 17)),
    "a round of one lane": CLOSE,
    "a round beside lines of two lanes": CLOSE + "2 FIRM A\n16 FIRM B\n",
    "a hundred lines behind a round": CLOSE + "".join(f"{k % 16 + 1} FIRM F-{k}\n" for k in range(100)),
}


def used(process):
    """The seconds of the processors that a process has used so far, and how many threads it has."""
    fields = pathlib.Path(f"/proc/{process.pid}/stat").read_text().rpartition(")")[2].split()
    return (int(fields[11]) + int(fields[12])) / TICKS, int(fields[17])


def office(program, folder, text):
    folder.mkdir()
    process = subprocess.Popen([program, "live"], stdin=subprocess.PIPE, stdout=subprocess.DEVNULL, cwd=folder)
    process.stdin.write(text.encode())
    process.stdin.flush()
    return process


def main():
    seconds = float(sys.argv[1]) if len(sys.argv) > 1 else 10
    program = pathlib.Path(sys.argv[2] if len(sys.argv) > 2 else HERE.parent / "crates/bureau_program/out/bureau_program").resolve()
    busy = 0
    with tempfile.TemporaryDirectory(dir="/dev/shm") as memory:
        offices = [office(program, pathlib.Path(memory) / str(number), text) for number, text in enumerate(STATES.values())]
        time.sleep(1)
        before = [used(process) for process in offices]
        time.sleep(seconds)
        after = [used(process) for process in offices]
        for name, (first, _), (last, threads), process in zip(STATES, before, after, offices):
            share = (last - first) / seconds
            busy += share >= 0.01
            print(f"{name:36} {100 * share:7.2f} % of a processor, {threads} threads")
            process.stdin.close()
            process.wait()
    return 1 if busy else 0


if __name__ == "__main__":
    sys.exit(main())
