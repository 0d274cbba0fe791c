#!/usr/bin/env bash
# Times `load` on a register beside SQLite, and kills it at fifty moments: bench/load.sh [FOLDER]
# The register has 16,384 firms and 100,000 claims, filed and confirmed: 216,384 acts. Prints the seconds of `load` with its journal in
# FOLDER, else the folder of temporary files; of SQLite for the same rows in one transaction there; of `load` where each sync takes 1 and
# 5 ms more; and of `run` with its journal in memory. Each is the least of three. Then the same for a full register of 540,672 acts, by
# `load` in FOLDER and `run` in memory, with their peak memory. The kills happen while each sync takes 5 ms more: an `audit` says yes
# each time, and the acts are those at the end of a group, those that were printed included. Run by hand.
set -euo pipefail

folder=$(mktemp -d -p "$(realpath "${1:-${TMPDIR:-/tmp}}")")
trap 'rm -rf "$folder"' EXIT
. "$(dirname "$0")/program.sh"
in_memory=$PWD
load=$here/../crates/load_program/out/load_program
(cd "$folder" && "$here/../bureau" load </dev/null >/dev/null && rm -f bureau.journal)
gcc -shared -fPIC -O2 -o "$folder/slow_sync.so" "$here/slow_sync.c" -ldl

cd "$folder"
python3 - "$program" "$load" "$in_memory" <<'PYTHON'
import os
import random
import sqlite3
import subprocess
import sys
import time

program, load, in_memory = sys.argv[1:]
FIRMS = 16_384


def register(name, claims):
    with open(name, "w") as lines:
        for firm in range(1, FIRMS + 1):
            lines.write(f"1 FIRM F-{firm}\n")
        for claim in range(1, claims + 1):
            debtor = claim % FIRMS
            cents = claim * 48_271 % 999_983 + 1
            rest = f"F-{(debtor + 1) % FIRMS + 1} I-{claim} F-{debtor + 1}"
            lines.write(f"1 FILE {rest} {cents // 100}.{cents % 100:02} 2025-01-31\n1 CONFIRM {rest}\n")
    return FIRMS + 2 * claims


def timed(words, name, where, more=0):
    journal = f"{where}/bureau.journal"
    if os.path.exists(journal):
        os.remove(journal)
    slow = {"LD_PRELOAD": os.path.abspath("slow_sync.so"), "SYNC_MICROSECONDS": str(more)} if more else {}
    with open(name) as lines, open("written", "w") as written:
        began = time.perf_counter()
        subprocess.run(["/usr/bin/time", "-f", "%M", "-o", os.path.abspath("peak"), *words], stdin=lines, stdout=written, check=True, cwd=where, env={**os.environ, **slow})
        spent = time.perf_counter() - began
    with open("peak") as peak:
        return spent, int(peak.read())


def rows(name):
    if os.path.exists("rows.db"):
        os.remove("rows.db")
    began = time.perf_counter()
    base = sqlite3.connect("rows.db", isolation_level=None)
    base.execute("PRAGMA synchronous=FULL")
    base.execute("CREATE TABLE acts (id INTEGER PRIMARY KEY, caller INTEGER, verb TEXT, creditor TEXT, invoice TEXT, debtor TEXT, cents INTEGER, due TEXT)")
    base.execute("BEGIN")
    with open(name) as lines:
        for line in lines:
            caller, verb, *rest = line.split()
            rest += [None] * (5 - len(rest))
            base.execute("INSERT INTO acts (caller, verb, creditor, invoice, debtor, cents, due) VALUES (?, ?, ?, ?, ?, ?, ?)", (caller, verb, *rest))
    base.execute("COMMIT")
    return time.perf_counter() - began


acts = register("register", 100_000)
ours = min(timed([load], "register", ".")[0] for _ in range(3))
theirs = min(rows("register") for _ in range(3))
print(f"{acts} acts: load {ours:.2f} s, sqlite3 {theirs:.2f} s, quotient {ours / theirs:.2f}")
for more in (1000, 5000):
    slow = min(timed([load], "register", ".", more)[0] for _ in range(3))
    print(f"with {more / 1000:.0f} ms more a sync: load {slow:.2f} s, {slow - ours:.2f} more")
plain = min(timed([program, "run"], "register", in_memory)[0] for _ in range(3))
print(f"run with its journal in memory {plain:.2f} s")
full = register("full", 262_144)
loaded = min(timed([load], "full", ".") for _ in range(3))
run = min(timed([program, "run"], "full", in_memory) for _ in range(3))
print(f"{full} acts: load {loaded[0]:.2f} s and {loaded[1]} KB, run in memory {run[0]:.2f} s and {run[1]} KB, quotient {loaded[0] / run[0]:.2f}")

# A kill leaves the acts at the end of a group, and all that was printed.
draws, left = random.Random(1), []
slow = {**os.environ, "LD_PRELOAD": os.path.abspath("slow_sync.so"), "SYNC_MICROSECONDS": "5000"}
for _ in range(50):
    if os.path.exists("bureau.journal"):
        os.remove("bureau.journal")
    with open("register") as lines, open("written", "w") as written:
        going = subprocess.Popen([load], stdin=lines, stdout=written, env=slow)
        time.sleep(draws.uniform(0.05, ours + 0.5))
        going.kill()
        going.wait()
    with open("written") as written:
        printed = sum(line.endswith("= ok\n") for line in written)
    verdict = subprocess.run([program, "audit"], stdout=subprocess.PIPE, text=True).stdout.split()
    assert verdict[0] == "yes", verdict
    kept = int(verdict[2])
    assert kept % 4096 == 0 or kept == acts, kept
    assert printed <= kept, (printed, kept)
    left.append(kept)
print(f"killed {len(left)} times with {min(left)} to {max(left)} acts kept, each time at the end of a group, with all that was printed")
PYTHON
