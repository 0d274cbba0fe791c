#!/usr/bin/env bash
# Prints how many acts a second the seats of one shared desk are answered with 1, 2, 4 and 16 threads, over a disk in memory, and how
# many nanoseconds a seat waits for an answer: the median, and the 99th of a hundred. It runs bench/programs/timed_seats without proof, in a
# copy of the repository. Run by hand.
set -eu

home=$(cd "$(dirname "$0")/.." && pwd)
copy=$(mktemp -d)
trap 'rm -rf "$copy"' EXIT
tar c -C "$home" --exclude out crates crates.txt HANDLES | tar x -C "$copy"
mkdir -p "$copy/crates/seats_timed/src"
cp "$home/bench/programs/timed_seats/main.rt.in" "$copy/crates/seats_timed/src/main.rt"
echo 'seats_timed: bureau_desk claim_history disk_model setoff_model shared_bureau turn_lock' >>"$copy/crates.txt"
printf '%8s %12s %12s %12s\n' threads acts/s median-ns 99th-ns
cd "$copy/crates/seats_timed"
rt try 2>/dev/null | awk 'NF == 4 && /^[0-9 ]+$/ { printf "%8d %12d %12d %12d\n", $1, $2, $3, $4 }'
