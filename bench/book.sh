#!/usr/bin/env bash
# Times requests on firms and claims, and the rows of the same requests put into SQLite: bench/book.sh [LINES..]
# Prints for each size the seconds, the microseconds and the peak memory in bytes a line, and of SQLite the seconds; then the
# quotients: the time of a line at the last size by that at the first, and the seconds of the program by those of SQLite.
# SQLite takes one transaction in memory: a table of entries, and one of claims by creditor and invoice, each with its index.
# Run by hand; it needs the command sqlite3. Without sizes it takes 10,000 and 1,000,000 lines.
set -eu

[ $# -gt 0 ] || set -- 10000 1000000
. "$(dirname "$0")/program.sh"
folder=$(mktemp -d)
trap 'rm -rf "$folder"' EXIT

# Requests of so many lines: one firm and then twelve claims, each filed, confirmed and received on, funds for its debtor and the
# position of its creditor; past 16,384 firms and 262,144 claims the last three go on. With `sql` the rows of the same requests.
write() {
  python3 - "$@" <<'PYTHON'
import sys

MOST_FIRMS = 16_384
MOST_CLAIMS = 200_000


def requests():
    yield ("FIRM", "F-1")
    yield ("FIRM", "F-2")
    firms, claims = 2, 0
    while True:
        if claims % 12 == 0 and firms < MOST_FIRMS:
            firms += 1
            yield ("FIRM", f"F-{firms}")
        claims += 1
        debtor = claims * 7_919 % firms
        creditor = (debtor + 1 + claims * 104_729 % (firms - 1)) % firms
        key = f"F-{creditor + 1} I-{claims}"
        cents = claims * 48_271 % 999_983 + 100
        if claims <= MOST_CLAIMS:
            due = f"2025-{claims % 12 + 1:02}-{claims % 28 + 1:02}"
            yield ("FILE", f"{key} F-{debtor + 1} {cents // 100}.{cents % 100:02} {due}")
            yield ("CONFIRM", f"{key} F-{debtor + 1}")
            yield ("RECEIVE", f"{key} 0.50")
        yield ("FUND", f"F-{debtor + 1} 1.00")
        yield ("POSITION", f"F-{creditor + 1}")


form, count = sys.argv[1], int(sys.argv[2])
if form == "sql":
    print("CREATE TABLE entries (id INTEGER PRIMARY KEY, caller INTEGER, verb TEXT, fields TEXT);")
    print("CREATE TABLE claims (creditor TEXT, invoice TEXT, debtor TEXT, amount TEXT, due TEXT, PRIMARY KEY (creditor, invoice));")
    print("CREATE INDEX verbs ON entries (verb);")
    print("BEGIN;")
for place, (verb, fields) in zip(range(count), requests()):
    if form == "lines":
        print(f"1 {verb} {fields}")
    else:
        print(f"INSERT INTO entries VALUES ({place}, 1, '{verb}', '{fields}');")
        if verb == "FILE":
            print("INSERT INTO claims VALUES ('" + "','".join(fields.split(" ")) + "');")
if form == "sql":
    print("COMMIT;")
PYTHON
}

printf '%10s %10s %10s %12s %10s\n' lines seconds us/line bytes/line sqlite-s
for lines; do
  write lines "$lines" >"$folder/requests"
  write sql "$lines" >"$folder/rows"
  rm -f bureau.journal
  /usr/bin/time -f '%e %M' -o "$folder/program" "$program" run <"$folder/requests" >"$folder/written"
  /usr/bin/time -f '%e' -o "$folder/sqlite" sqlite3 :memory: <"$folder/rows"
  if [ "$(grep -c ' = refused ' "$folder/written")" -gt 0 ] || [ "$(wc -l <"$folder/written")" -lt "$lines" ]; then
    echo "bench: a request was refused or had no reply" >&2
    exit 1
  fi
  echo "$lines $(cat "$folder/program") $(cat "$folder/sqlite")"
done | awk '{
  printf "%10d %10.2f %10.2f %12.1f %10.2f\n", $1, $2, $2 * 1e6 / $1, $3 * 1024 / $1, $4
  line = $2 / $1
  if (NR == 1) first = line
  by = $4 > 0 ? $2 / $4 : 0
} END {
  printf "a line of the last size by one of the first: %.2f\nthe program by SQLite, last size: %.2f\n", line / first, by
}'
