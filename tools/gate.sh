#!/usr/bin/env bash
# Times a run of the gate from scratch, crate by crate: tools/gate.sh [--kept] [CRATE..]
# Runs `rt ci --anew` with one processor for each check, and looks once a second at what each of its checks has used. It prints a
# table in minutes of CPU time: of each crate the check, that of its tests, and its must-fail edits. `rest` is what the looks do not
# see: the last second of each check, the programs, and rt itself. The words of rt go to bench/out/gate.log. With names it runs
# `rt ci --anew` of these and those below.
# With --kept it runs plain `rt ci`: what an earlier run kept is not run again, and its crates are not in the table.
# Run by hand, on a machine that does nothing else. Its status is that of the gate.
set -u

cd "$(dirname "$0")/.." || exit 1
log=bench/out/gate.log
mkdir -p bench/out
looks=$(mktemp)
trap 'rm -f "$looks" "$looks.times"' EXIT

# Puts a line for a check of this session: crate, kind, process, ticks.
look() {
  local process=$1 stat fields words place name kind=check
  { read -r stat <"$process/stat" && mapfile -d '' words <"$process/cmdline"; } 2>/dev/null || return 0
  [[ ${words[0]:-} == */rattle ]] || return 0
  read -ra fields <<<"${stat##*) }"
  [ "${fields[3]}" = "$run" ] || return 0
  place=$(readlink "$process/cwd" 2>/dev/null) || return 0
  for at in "${!words[@]}"; do
    case ${words[at]} in
      --crate-name) name=${words[at + 1]} ;;
      --test) kind=tests ;;
    esac
  done
  [[ $place == */rt-edit-* ]] && kind=edits
  printf '%s %s %s.%s %s\n' "${name:-other}" "$kind" "${process#/proc/}" "${fields[19]}" $((fields[11] + fields[12]))
}

anew=(--anew)
# (a kit whose rt ci has no such word proves from scratch each time, and takes no names)
rt help 2>&1 | grep -q -e --anew || anew=()
[ "${1:-}" = --kept ] && { anew=(); shift; }

# So many checks side by side, as rt reads it; without it, rt gives a check more than one where others wait for it.
export RT_JOBS=${RT_JOBS:-$(nproc)}
began=$SECONDS
setsid rt ci "${anew[@]}" "$@" >"$log" 2>&1 &
run=$!
while kill -0 "$run" 2>/dev/null; do
  for process in /proc/[0-9]*; do
    look "$process"
  done >>"$looks"
  sleep 1
done
wait "$run"
status=$?

# The processor seconds of all that has ended, from a line such as '1m2.345s 0m1.234s'.
times >"$looks.times"
used=$(tail -n 1 "$looks.times" | tr 'ms' '  ' | awk '{ print $1 * 60 + $2 + $3 * 60 + $4 }')
awk -v ticks="$(getconf CLK_TCK)" -v used="$used" -v processors="$(nproc)" -v minutes="$(((SECONDS - began) / 60))" '
  { if ($4 > most[$1, $2, $3]) { of[$1, $2] += $4 - most[$1, $2, $3]; all[$1] += $4 - most[$1, $2, $3]; most[$1, $2, $3] = $4 } }
  function figure(n) { return sprintf("%.1f", n / ticks / 60) }
  END {
    print "| crate | check | tests | edits | in all |"
    print "|---|---|---|---|---|"
    for (crate in all) {
      printf "| `%s` | %s | %s | %s | %s |\n", crate, figure(of[crate, "check"]), figure(of[crate, "tests"]), figure(of[crate, "edits"]), figure(all[crate]) | "sort -t\"|\" -k6,6nr"
      seen += all[crate]; checks += of[crate, "check"]; tests += of[crate, "tests"]; edits += of[crate, "edits"]
    }
    close("sort -t\"|\" -k6,6nr")
    printf "| rest | | | | %.1f |\n", used / 60 - seen / ticks / 60
    printf "| in all | %s | %s | %s | %.1f |\n", figure(checks), figure(tests), figure(edits), used / 60
    printf "\n%d processors, %d minutes by the clock\n", processors, minutes
  }' "$looks"
tail -n 1 "$log"
exit "$status"
