# What the scripts that run the program share. They source it: it builds the program and sets `here` and `program`.
# The program keeps its journal in a folder in memory, so that no disk is timed; each run begins without one.
here=$(cd "$(dirname "${BASH_SOURCE[0]}")" && pwd -P)
program=$here/../crates/bureau_program/out/bureau_program
cd "$(mktemp -d -p /dev/shm)"
"$here/../bureau" run </dev/null
[ -x /usr/bin/time ] || { echo "bench: GNU time is needed, /usr/bin/time" >&2; exit 1; }
