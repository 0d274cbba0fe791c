#!/usr/bin/env bash
# Times 20,000 acts beside an open round of nearly all claims of a full book, and the same acts without one: each is answered by the
# book and put into it. Prints microseconds an act, at the fastest of five times, and the quotient. It proves and runs
# bench/programs/timed_open as a test, in a copy of the repository. Run by hand.
set -eu

home=$(cd "$(dirname "$0")/.." && pwd)
copy=$(mktemp -d)
trap 'rm -rf "$copy"' EXIT
tar c -C "$home" --exclude out crates crates.txt HANDLES | tar x -C "$copy"
mkdir -p "$copy/crates/open_timed/src"
printf '//! Acts beside an open round.\n#![tactic(auto)]\n\n#[cfg(test)]\nmod timed;\n' >"$copy/crates/open_timed/src/lib.rt"
cp "$home/bench/programs/timed_open/timed.rt.in" "$copy/crates/open_timed/src/timed.rt"
echo 'open_timed: claim_book claim_history setoff_model' >>"$copy/crates.txt"
cd "$copy/crates/open_timed"
rt test 2>/dev/null | awk '
  $1 == "timed" { printf "%.3f us an act without a round, %.3f beside it: %.2f times as long\n", $2 / 2e7, $3 / 2e7, $3 / $2 }'
