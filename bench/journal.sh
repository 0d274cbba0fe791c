#!/usr/bin/env bash
# Times a run on a journal in a folder of the disk beside SQLite, and the opening of long journals: bench/journal.sh [ACTS [FOLDER]]
# Prints the acts a second of a run on one lane, each synced before the next, and the inserts a second of SQLite with a transaction
# each, in WAL mode with synchronous=FULL, in the same folder and in turn; and the appends a second of a program that makes the calls
# of an append and nothing else, above which no run comes. Each is the least time of seven. Then, for journals of 10,000 and 100,000
# acts in memory, the milliseconds of an audit, and its peak memory beside the bytes of the journal. Then it kills a run at twenty
# moments, and each time a second run and an audit go on from what was left. Run by hand. Without words it takes 2,000 acts, and the
# folder of temporary files.
set -euo pipefail

acts=${1:-2000}
folder=$(mktemp -d -p "$(realpath "${2:-${TMPDIR:-/tmp}}")")
trap 'rm -rf "$folder"' EXIT
. "$(dirname "$0")/program.sh"
in_memory=$PWD

funds() {
  awk -v acts="$1" 'BEGIN { print "1 FIRM F-1"; for (act = 1; act <= acts; act++) print "1 FUND F-1 1.00" }'
}

cd "$folder"
funds "$acts" >requests
python3 - "$program" "$acts" <<'PYTHON'
import os
import sqlite3
import subprocess
import sys
import time

program, acts = sys.argv[1], int(sys.argv[2])


def run():
    if os.path.exists("bureau.journal"):
        os.remove("bureau.journal")
    with open("requests") as requests, open("written", "w") as written:
        began = time.perf_counter()
        subprocess.run([program, "run"], stdin=requests, stdout=written, check=True)
        return time.perf_counter() - began


def sqlite():
    for name in ("rows.db", "rows.db-wal", "rows.db-shm"):
        if os.path.exists(name):
            os.remove(name)
    rows = sqlite3.connect("rows.db", isolation_level=None)
    rows.execute("PRAGMA journal_mode=WAL")
    rows.execute("PRAGMA synchronous=FULL")
    rows.execute("CREATE TABLE acts (id INTEGER PRIMARY KEY, caller INTEGER, verb TEXT, firm TEXT, cents INTEGER)")
    began = time.perf_counter()
    for _ in range(acts):
        rows.execute("INSERT INTO acts (caller, verb, firm, cents) VALUES (1, 'FUND', 'F-1', 100)")
    return time.perf_counter() - began


# The calls of the appends alone: body, sync, gate, sync, of as many bytes each as the journal of the run has.
def appends():
    record = os.stat("bureau.journal").st_size // acts
    file = os.open("appends", os.O_RDWR | os.O_CREAT | os.O_TRUNC)
    body, gate = bytes(record), b"\1"
    began = time.perf_counter()
    for start in range(0, acts * record, record):
        os.pwrite(file, body, start + 1)
        os.fdatasync(file)
        os.pwrite(file, gate, start)
        os.fdatasync(file)
    taken = time.perf_counter() - began
    os.close(file)
    return taken


ours, theirs, alone = map(min, zip(*((run(), sqlite(), appends()) for _ in range(7))))
print(f"acts a second {acts / ours:.0f}, inserts a second {acts / theirs:.0f}, quotient {theirs / ours:.2f}")
print(f"appends a second by their calls alone {acts / alone:.0f}, beside inserts {theirs / alone:.2f}, a run beside them {alone / ours:.2f}")
PYTHON

cd "$in_memory"
printf '%8s %12s %10s %10s\n' acts journal-KB ms peak-KB
for count in 10000 100000; do
  rm -f bureau.journal
  funds "$count" | "$program" run >/dev/null
  /usr/bin/time -f '%e %M' -o figures "$program" audit >/dev/null
  read -r seconds kilobytes <figures
  awk -v n="$count" -v b="$(stat -c %s bureau.journal)" -v s="$seconds" -v k="$kilobytes" \
    'BEGIN { printf "%8d %12d %10.0f %10d\n", n, b / 1024, s * 1000, k }'
done

cd "$folder"
for moment in $(seq 20); do
  rm -f bureau.journal
  "$program" run <requests >written &
  sleep "0.0$moment"
  kill -9 $! 2>/dev/null || true
  wait $! 2>/dev/null || true
  kept=$("$program" audit)
  [[ $kept == "yes acts "* ]] || { echo "bench: after a kill: $kept" >&2; exit 1; }
  echo "1 POSITION F-1" | "$program" run >after
  grep -qE '^1 POSITION F-1 = (balance|refused 3)' after || { echo "bench: after a kill: $(cat after)" >&2; exit 1; }
  [[ $("$program" audit) == "yes acts "* ]] || exit 1
  echo "$kept"
done | awk '{ print $3 }' | sort -n | awk '{ n[NR] = $1 } END { print "killed " NR " times with " n[1] " to " n[NR] " acts kept; each second run went on" }'
