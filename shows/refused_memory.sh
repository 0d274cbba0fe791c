#!/usr/bin/env bash
# Refuses one growth of memory at a time in a run of the bureau, or in a load: shows/refused_memory.sh [load] [FILE.. | day]
# Each growth of the run, from the first to the last, is refused in a run of its own, by bench/allocations.c. Such a run ends with
# status 9; or with 3, 4 or 5 where the growth was inside the source, the sink or the disk, which count it as a fault; or with the same
# lines, where no thread could be started and the work was done without it. The journal that it leaves is sound. Prints how many growths
# were tried and what came of them, and each that came to something else; then the status is 1. Run by hand, without files on two
# rounds of three firms and on the day of bench/day.sh, and a load on the claims of a small office.
set -eu

. "$(dirname "$0")/../bench/program.sh"
command="$program run" inputs=("$here/../examples/rounds.requests" day)
if [ "${1:-}" = load ]; then
  shift
  command=$here/../crates/load_program/out/load_program inputs=("$here/../examples/first-claims.requests")
fi
[ $# -gt 0 ] || set -- "${inputs[@]}"
cc -O2 -shared -fPIC -o counter.so "$here/allocations.c" -ldl
bad=0
for input; do
  if [ "$input" = day ]; then "$here/day.sh" >requests; else cp "$input" requests; fi
  echo "$input"
  python3 - "$program" "$PWD/counter.so" "$command" <<'PYTHON' || bad=1
import collections
import os
import pathlib
import subprocess
import sys

program, counter, command = sys.argv[1:]
journal = pathlib.Path("bureau.journal")
requests = pathlib.Path("requests").read_bytes()


def run(refused):
    """The status, the output, and how many times memory was asked for."""
    journal.unlink(missing_ok=True)
    env = {**os.environ, "LD_PRELOAD": counter, "REFUSE": str(refused)}
    ran = subprocess.run(command.split(), input=requests, env=env, capture_output=True)
    told = ran.stderr.split()
    return ran.returncode, ran.stdout, int(told[-2]) if len(told) >= 2 else 0


def is_sound():
    ran = subprocess.run([program, "audit"], capture_output=True)
    return ran.stdout.startswith(b"yes ")


status, whole, asked = run(0)
assert status == 0
seen, bad, tried = collections.Counter(), 0, 0
while tried < asked:
    tried += 1
    status, text, now = run(tried)
    asked = max(asked, now)
    sound = is_sound()
    if sound and (status in (3, 4, 5, 9) or (status == 0 and sorted(text.splitlines()) == sorted(whole.splitlines()))):
        seen[status] += 1
    else:
        bad += 1
        print(f"SOMETHING ELSE: growth {tried}: status {status}, journal {'sound' if sound else 'NOT SOUND'}, {len(text)} bytes")
print(f"{tried} growths refused: " + ", ".join(f"status {s} {n} times" for s, n in sorted(seen.items())))
sys.exit(1 if bad else 0)
PYTHON
done
exit "$bad"
