#!/usr/bin/env bash
# Runs a trial twice and compares what is written: bench/trials.sh [FIRMS CLAIMS SEED], without words 2000 20000 7. Run by hand.
set -eu

[ $# -gt 0 ] || set -- 2000 20000 7
. "$(dirname "$0")/program.sh"
"$program" trial "$@" >first
"$program" trial "$@" >second
cat first
cmp first second && echo "the same line twice"
