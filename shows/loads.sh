#!/usr/bin/env bash
# Shows what a load leaves, by real processes: shows/loads.sh [PROGRAM [LOAD]]
# The same lines by `run` on one lane and by `load` give the same output and the same journal, from none, behind rounds that were left
# open, on a journal with the old header, and where the entries reach their limit. A CLOSE and a word are refused and leave no file;
# beside an open `live` a load ends with status 5 at once; 10,000 lines are three groups, which take six syncs more than none. PROGRAM
# stands in for ./bureau, LOAD for ./bureau load. Status 1: something is otherwise.
set -u

home=$(cd "$(dirname "$0")/.." && pwd)
program=$(realpath "${1:-$home/crates/bureau_program/out/bureau_program}")
load=$(realpath "${2:-$home/crates/load_program/out/load_program}")
folder=$(mktemp -d)
trap 'rm -rf "$folder"' EXIT
cd "$folder"
bad=0

say() {
  if [ "$1" = "$2" ]; then echo "as it must be: $3"; else echo "OTHERWISE: $3: $1 in place of $2"; bad=1; fi
}

# Runs the lines of its first file by both, behind the journal of its second one.
alike() {
  mkdir -p by-run by-load
  rm -f by-run/bureau.journal by-load/bureau.journal
  [ -z "$2" ] || { cp "$2" by-run/bureau.journal; cp "$2" by-load/bureau.journal; }
  (cd by-run && "$program" run) <"$1" >run.text
  local ran=$?
  (cd by-load && "$load") <"$1" >load.text
  say "$? $(sha256sum <load.text) $(sha256sum <by-load/bureau.journal)" "$ran $(sha256sum <run.text) $(sha256sum <by-run/bureau.journal)" "$3"
}

month=$home/examples/month
{ cat "$month/members.requests"; (cd "$folder" && "$program" import 1 <"$month/invoices.csv"); printf '1 @EAST FIRM A\n1 FIRM ADLER-BAU\nFENCE\n1 POSITION ADLER-BAU\n1 ABANDON\n'; } >lines
alike lines '' 'a register from no journal'
printf '1 CLOSE PLAIN 2025-12-31\n1 @EAST CLOSE PLAIN 2025-12-31\n' >closes
printf 'BUREAUJ2\1\0\0\0\12\0\0\0\1\14\0\0\0\117\345\1\0\0\0\20\0\0\0\1\17\4EAST\14\0\0\0\117\345\0' >open.journal
(mkdir -p at-open && cd at-open && cp ../open.journal bureau.journal && "$program" audit) >audit.text
say "$(cat audit.text)" 'yes acts 2 rounds 0' 'a journal with two open rounds'
alike lines open.journal 'a register behind two open rounds'
printf 'BUREAUJ1\1\0\0\0\7\0\0\0\1\1\1A\0' >old.journal
alike lines old.journal 'a register on a journal with the old header'
{ echo '1 FIRM A'; yes '1 FIRM A' | head -1048580; } >beyond
alike beyond '' 'lines beyond the limit of entries'
say "$(grep -c ' = ' load.text) $(grep -c '^!' load.text)" '1048576 5' 'entries, and lines that are full'

mkdir refused && cd refused
"$load" <../closes >text
say "$? $(cat text) $(ls)" '6 fault line 1 verb text' 'a CLOSE is refused'
"$load" run <../lines >text
say "$? $(cat text) $(ls)" '2 fault words text' 'a word is refused'
cd ..

mkdir beside && cd beside
mkfifo pipe
"$program" live <pipe >live.text &
exec 3>pipe
printf '1 FIRM A\nFENCE\n' >&3
until [ -s live.text ]; do sleep 0.05; done
timeout 5 "$load" <../lines >text
say "$? $(cut -d' ' -f1-2 text)" '5 fault device' 'a load beside an open live'
exec 3>&-
wait
cd ..

# How many syncs a load makes of the lines of a file, from no journal.
syncs() {
  rm -f bureau.journal
  strace -f -o calls -e trace=fsync,fdatasync "$load" <"$1" >text
  grep -c '^[0-9]* *f[a-z]*sync(.*= 0' calls
}

mkdir many && cd many
{ echo '1 FIRM A'; yes '1 POSITION A' | head -9999; } >lines
none=$(syncs /dev/null)
all=$(syncs lines)
say "$(wc -l <text) $((all - none))" '10000 6' 'ten thousand lines in three groups'
exit "$bad"
