#!/usr/bin/env bash
# Keeps an office open and asks it the requests of the input, one by one: each answer is written before the next request is read.
# examples/office.sh [PROGRAM] < REQUESTS; PROGRAM stands in for ./bureau. The status is that of the office.
set -eu
program=${1:-$(dirname "$0")/../bureau}
coproc OFFICE { exec "$program" live; }
office=$OFFICE_PID
exec {answers}<&"${OFFICE[0]}" {requests}>&"${OFFICE[1]}"
eval "exec ${OFFICE[0]}<&- ${OFFICE[1]}>&-"

# The entry of a request; behind one that opens a round those up to the end of its statement.
answer() {
    local line end='*'
    while read -r line <&"$answers"; do
        printf '%s\n' "$line"
        case $line in *' = opened '*) end=END ;; '! line '*) return ;; esac
        # shellcheck disable=SC2254
        case $line in $end) return ;; esac
    done
}

# An office that has closed by a fault takes no more.
trap '' PIPE
while read -r request; do
    printf '%s\nFENCE\n' "$request" >&"$requests" 2>/dev/null || break
    answer
done
exec {requests}>&-
cat <&"$answers"
wait "$office"
