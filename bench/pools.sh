#!/usr/bin/env bash
# Times rounds of sixteen pools that sixteen lanes close at once beside the same rounds one after another, and a pool for each of
# many entries: bench/pools.sh [FIRMS CLAIMS [POOLS]]
# Each pool has so many firms and drawn claims. Prints the seconds by the clock of both, without the filing, and their ratio, then the
# seconds and the peak memory of a run that registers one firm in each of POOLS pools, of one with as many entries in MAIN, and of a full
# history with one line and with POOLS lines behind it that are full, each of which names a pool of its own. Each time of a round is the least of three runs. Run by hand. Without sizes it takes 1,024 firms, 16,384 claims and 1,000,000 pools.
set -eu

[ $# -gt 1 ] || set -- 1024 16384 "${3:-1000000}"
. "$(dirname "$0")/program.sh"

folder=$(mktemp -d)
trap 'rm -rf "$folder"' EXIT

for pool in $(seq 1 16); do
  "$here/drawn.sh" "$1" "$2" "$pool" none | sed "s/^1 /$pool @P-$pool /"
done >"$folder/filing"
closes() {
  for pool in $(seq 1 16); do
    [ "$pool" = 1 ] || printf %s "$1"
    echo "$pool @P-$pool CLOSE PLAIN 2025-12-31"
  done
}
closes '' >"$folder/at-once"
closes 'FENCE
' >"$folder/in-turn"
rm -f bureau.journal
"$program" run <"$folder/filing" >/dev/null
cp bureau.journal "$folder/filed"
: >"$folder/nothing"

# The least seconds of three runs over the journal of the filing.
least() {
  for _ in 1 2 3; do
    cp "$folder/filed" bureau.journal
    /usr/bin/time -f '%e' -o "$folder/time" "$program" run <"$folder/$1" >"$folder/written"
    cat "$folder/time"
  done | sort -n | head -1
}

opening=$(least nothing)
at_once=$(least at-once)
grep -c ' = published ' "$folder/written" | sed 's/$/ rounds published at once/'
grep -h ' = published ' "$folder/written" | sort >"$folder/totals"
in_turn=$(least in-turn)
grep -h ' = published ' "$folder/written" | sort | cmp - "$folder/totals" || echo "bench: the totals are not the same"
awk -v o="$opening" -v a="$at_once" -v t="$in_turn" 'BEGIN {
  printf "%-44s %8.2f\n%-44s %8.2f\n", "seconds of sixteen rounds at once", a - o, "one after another", t - o
  printf "%-44s %8.2f\n", "at once by one after another", (a - o) / (t - o)
}'

# Seconds and kilobytes of a run over its input.
spent() {
  rm -f bureau.journal
  "$@" | /usr/bin/time -f '%e %M' -o "$folder/time" "$program" run >/dev/null || true
  tail -1 "$folder/time"
}
pools() { seq 1 "$1" | sed 's/.*/1 @P-& FIRM A/'; }
main() { seq 1 "$1" | sed 's/.*/1 POSITION F-&/'; }
full() { yes '1 POSITION A' | head -1048576; pools "$1"; }
read -r seconds kilobytes <<<"$(spent pools "$3")"
printf '%-44s %8.2f seconds %10d KB\n' "$3 pools of one entry" "$seconds" "$kilobytes"
read -r seconds kilobytes <<<"$(spent main "$3")"
printf '%-44s %8.2f seconds %10d KB\n' "as many refused entries of MAIN" "$seconds" "$kilobytes"
for lines in 1 "$3"; do
  read -r seconds kilobytes <<<"$(spent full "$lines")"
  printf '%-44s %8.2f seconds %10d KB\n' "$lines full lines over a full history" "$seconds" "$kilobytes"
done
