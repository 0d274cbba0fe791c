#!/usr/bin/env bash
# Turns one bit of a journal at a time and runs the bureau on it: shows/damaged_journal.sh [DRAWS [SEED]]
# The journal is that of 300 requests, with a round. A run without requests either ends with status 8 and changes no byte, or with 0,
# and `audit` then calls the journal sound. Prints how many draws gave what, and each that gave something else; then the status is 1.
# The bits are drawn by x -> (x * 1664525 + 1013904223) mod 2^32 from the seed. Run by hand: 1,000 draws with the seed 1.
set -eu

draws=${1:-1000}
seed=${2:-1}
. "$(dirname "$0")/../bench/program.sh"

{ "$here/inputs.sh" 300; echo "1 CLOSE PLAIN 2025-12-31"; "$here/inputs.sh" 330 | tail -n 30; } | "$program" run >/dev/null
exec python3 - "$program" "$draws" "$seed" <<'PYTHON'
import collections
import pathlib
import subprocess
import sys

program, draws, state = sys.argv[1], int(sys.argv[2]), int(sys.argv[3])
journal = pathlib.Path("bureau.journal")
sound = journal.read_bytes()
seen, bad = collections.Counter(), 0


def draw():
    global state
    state = (state * 1664525 + 1013904223) % 2**32
    return state >> 8


def bureau(word):
    ran = subprocess.run([program, word], stdin=subprocess.DEVNULL, capture_output=True, text=True)
    return ran.returncode, ran.stdout


for _ in range(draws):
    place, bit = draw() % len(sound), draw() % 8
    damaged = bytearray(sound)
    damaged[place] ^= 1 << bit
    journal.write_bytes(damaged)
    status, text = bureau("run")
    if status == 8 and journal.read_bytes() == damaged:
        seen["status 8, no byte changed: " + " ".join(text.split()[:2] + text.split()[3:4])] += 1
    elif status == 0 and bureau("audit")[1].startswith("yes "):
        seen["status 0, and audit says yes" + ("" if text == "" else ", after an abandonment")] += 1
    else:
        bad += 1
        print(f"SOMETHING ELSE: byte {place}, bit {bit}: status {status}: {text!r}")

print(f"a journal of {len(sound)} bytes, {draws} draws")
for what, times in sorted(seen.items()):
    print(f"{times:6} {what}")
sys.exit(1 if bad else 0)
PYTHON
