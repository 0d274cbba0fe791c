#!/usr/bin/env bash
# Counts the instructions of each step of a round over drawn claims: bench/steps.sh [FIRMS CLAIMS SEED]
# Prints for each step its instructions, in millions, and its share of the round; then what the round is of the whole run.
# Counts are the same at each run, whatever else the machine does. Run by hand; it needs valgrind. Without a size it takes 400
# firms, 4,000 claims and seed 7.
set -eu

[ $# -gt 0 ] || set -- 400 4000 7
. "$(dirname "$0")/program.sh"

folder=$(mktemp -d)
trap 'rm -rf "$folder"' EXIT
"$here/drawn.sh" "$1" "$2" "$3" >"$folder/requests"
rm -f bureau.journal
valgrind --tool=callgrind --callgrind-out-file="$folder/profile" "$program" run <"$folder/requests" >/dev/null 2>"$folder/log"
callgrind_annotate --threshold=100 --inclusive=yes "$folder/profile" >"$folder/counts"

# The instructions of a function with all that it calls, 0 where it was not called.
within() {
  awk -v name="$1" 'index($0, name) { gsub(/,/, "", $1); print $1; found = 1; exit } END { if (!found) print 0 }' "$folder/counts"
}

awk -v cut="$(within build_cut)" -v certified="$(within certifying::certified)" -v solved="$(within certifying::solve_net)" \
  -v book="$(within apply_publish)" -v printed="$(within statement::print_statement)" -v all="$(within 'PROGRAM TOTALS')" 'BEGIN {
  round = cut + certified + book + printed
  if (!cut || !solved || !book || !printed) { print "bench: a step was not found in the profile" > "/dev/stderr"; exit 1 }
  printf "%-40s %12s %6s\n", "step", "instructions", "share"
  row("the cut", cut, round)
  row("solving", solved, round)
  row("the net, the outcome and its check", certified - solved, round)
  row("the publication in the book", book, round)
  row("printing the statement", printed, round)
  row("the round, of the whole run", round, all)
}
function row(what, count, of) { printf "%-40s %11.2fM %5.1f%%\n", what, count / 1e6, 100 * count / of }'
