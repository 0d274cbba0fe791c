#!/usr/bin/env bash
# Prints how many nanoseconds it takes to show one entry of a book with 100 and with 16,384 firms, and what 1, 2, 4 and 8 readers read
# a second, in rows, beside a writer that shows an entry at a time, one at once after another, or with the nanoseconds between them that
# an act takes which is synced to a disk: of a board, and of a book behind a lock. The program of bench/programs/timed_readers is proved
# and linked in a copy of the repository under bench/out, and run three times, each with the load of the machine. Run by hand.
set -eu

here=$(cd "$(dirname "$0")" && pwd)
copy=$here/out/readers
program=$copy/crates/readers_timed

mkdir -p "$copy"
git init --quiet "$copy"
find "$copy" -mindepth 1 \( -name out -o -name .git \) -prune -o -type f -exec rm {} +
tar c -C "$here/.." --exclude out --exclude must-fail crates crates.txt HANDLES | tar x -C "$copy"
mkdir -p "$program/src" "$program/specs" "$program/proofs"
echo 'readers_timed: claim_book claim_history logbook read_copies setoff_model' >>"$copy/crates.txt"
cp "$here/programs/timed_readers/main.rt.in" "$program/src/main.rt"
cp -r "$here/programs/timed_readers/proofs/." "$program/proofs"
find "$program/proofs" -name '*.in' -exec sh -c 'mv "$1" "${1%.in}"' sh {} \;
touch "$program/specs/Lib.antt"

echo 'bench: proving and linking the readers' >&2
cd "$program"
rm -f out/readers_timed
rt run >"$here/out/readers.log" 2>&1 || true
if [ ! -x out/readers_timed ]; then
  echo "bench: the readers were not built; $here/out/readers.log says why" >&2
  exit 1
fi
for _ in 1 2 3; do
  out/readers_timed | awk '
    $1 == "show" { printf "show one entry of %d firms: %d ns\n", $2, $3 }
    $1 == "read" { printf "an entry each %d ns, readers %d: of copies %d rows a second, of a locked book %d\n", $2, $3, $4, $5 }'
  echo "load: $(cut -d ' ' -f 1 /proc/loadavg)"
done
