#!/usr/bin/env bash
# Times the steps of a round over drawn claims: bench/round.sh [FIRMS CLAIMS SEED]
# Prints the seconds of the requests alone, what a round without claims adds to them, what the round adds to that,
# and what `check` takes for its statement; then each as a share of the sum. Run by hand. Without a size it takes 400 firms,
# 4,000 claims and seed 7. Each time is the least of five runs.
set -eu

[ $# -gt 0 ] || set -- 400 4000 7
. "$(dirname "$0")/program.sh"

folder=$(mktemp -d)
trap 'rm -rf "$folder"' EXIT
"$here/drawn.sh" "$1" "$2" "$3" none >"$folder/requests"
"$here/drawn.sh" "$1" "$2" "$3" 1970-01-01 >"$folder/empty"
"$here/drawn.sh" "$1" "$2" "$3" >"$folder/round"
rm -f bureau.journal
"$program" run <"$folder/round" | grep '^[A-Z]' >"$folder/statement"

# The least seconds of five runs of a command of the program over an input.
least() {
  for _ in 1 2 3 4 5; do
    rm -f bureau.journal
    /usr/bin/time -f '%e' -o "$folder/time" "$program" "$1" <"$folder/$2" >/dev/null
    cat "$folder/time"
  done | sort -n | head -1
}

requests=$(least run requests)
empty=$(least run empty)
round=$(least run round)
check=$(least check statement)
"$program" check <"$folder/statement"
awk -v r="$requests" -v e="$empty" -v a="$round" -v c="$check" 'BEGIN {
  sum = a + c
  printf "%-44s %8s %6s\n", "step", "seconds", "share"
  printf "%-44s %8.2f %5.0f%%\n", "requests without a round", r, 100 * r / sum
  printf "%-44s %8.2f %5.0f%%\n", "a round without claims", e - r, 100 * (e - r) / sum
  printf "%-44s %8.2f %5.0f%%\n", "cut, solving, certificate, book and printing", a - e, 100 * (a - e) / sum
  printf "%-44s %8.2f %5.0f%%\n", "check of the statement", c, 100 * c / sum
}'
