#!/usr/bin/env python3
"""Compares the reports of a journal with one another: shows/reports.py [PROGRAM [JOURNAL]]

Each number of acts N: `since N` is the end of `history` behind N entries, and `seal N` the SHA-256 of the records as they are read from
the file. Each published round: each CLAIM line of its statement stands on two pages of `parts`, those of its creditor and its debtor, and
out less in of all pages is 0. Each firm: each balance of `account` is the one before plus in less out, and the last row has its position.
`pools` tells what `history`, `positions` and `notices` do. A `forecast` has the cut, the windows and the total of the CLOSE that follows.
Without JOURNAL it is that of examples/trade-circle.requests and of two pools. Status 1: something is otherwise.
"""

import csv
import hashlib
import os
import re
import shutil
import subprocess
import sys
import tempfile
from collections import Counter
from decimal import Decimal
from pathlib import Path

HOME = Path(__file__).resolve().parent.parent
PROGRAM = os.path.abspath(sys.argv[1] if len(sys.argv) > 1 else HOME / "crates/bureau_program/out/bureau_program")
HORIZON = "2026-12-31"


def tell(*words, lines=""):
    return subprocess.run([PROGRAM, *words], input=lines, stdout=subprocess.PIPE, text=True, check=False).stdout


def table(*words):
    return list(csv.DictReader(tell(*words).splitlines()))


def expect(holds, what):
    if not holds:
        sys.exit(f"OTHERWISE: {what}")


def records(journal):
    at = 8
    while at < len(journal) and journal[at] == 1:
        end = at + 5 + int.from_bytes(journal[at + 1 : at + 5], "big")
        yield journal[at:end]
        at = end


def entries(text):
    """The entries of a history, each with the statement below it."""
    return re.findall(r"^\d+ .*\n(?:(?:ROUND|PARTY|CLAIM|END).*\n)*", text, re.M)


def acts():
    history, journal = tell("history"), Path("bureau.journal").read_bytes()
    parts, whole = entries(history), list(records(journal))
    expect("".join(parts) == history and len(parts) == len(whole), "history has an entry for each record")
    for first in range(len(whole) + 1):
        expect(tell("since", str(first)) == "".join(parts[first:]), f"since {first}")
        bytes_ = b"".join(whole[:first])
        line = f"acts {first} bytes {len(bytes_)} sha256 {hashlib.sha256(bytes_).hexdigest()}\n"
        expect(tell("seal", str(first)) == line, f"seal {first}")
    expect(tell("seal") == line, "seal")
    for words in (["since", str(len(whole) + 1)], ["seal", str(len(whole) + 1)]):
        expect(tell(*words) == f"no act {len(whole) + 1}\n", " ".join(words))
    return len(whole)


def pages(pool, number):
    named = [] if pool == "MAIN" else [pool]
    statement, text = tell("statement", str(number), *named), tell("parts", str(number), pool)
    lines = statement.splitlines()
    claims = [line for line in lines if line.startswith("CLAIM ")]
    parties = [line for line in lines if line.startswith("PARTY ")]
    found, seen, net = [], Counter(), Decimal(0)
    for page in re.findall(r"^ROUND .*?^END\n", text, re.M | re.S):
        head, party, *own, last, _ = page.splitlines()
        firm = party.split()[1]
        mine = [line for line in claims if firm in (line.split()[1], line.split()[3])]
        expect(head == lines[0] and own == mine, f"the page of {firm}")
        to = sum(Decimal(line.split()[5]) for line in own if line.split()[1] == firm)
        by = sum(Decimal(line.split()[5]) for line in own if line.split()[3] == firm)
        expect(last == f"NET {to:.2f} {by:.2f}", f"what is discharged towards and by {firm}")
        found.append(party)
        seen.update(own)
        net += by - to
    expect(found == parties and net == 0 and all(seen[line] == 2 for line in claims), f"the pages of round {number} of {pool}")


def accounts(pool):
    named = [] if pool == "MAIN" else [pool]
    for firm in table("positions", *named):
        balance, rows = Decimal(0), table("account", firm["firm"], pool)
        for row in rows:
            balance += Decimal(row["in"]) - Decimal(row["out"])
            expect(Decimal(row["balance"]) == balance, f"a balance of {firm['firm']}")
        expect(all(rows[-1][field] == firm[field] for field in ("balance", "receivable", "payable")), f"the last row of {firm['firm']}")


def pools():
    rows = table("pools")
    for row in rows:
        pool = row["pool"]
        named = [] if pool == "MAIN" else [pool]
        own = tell("history", pool)
        expect(int(row["entries"]) == len(entries(own)), f"the entries of {pool}")
        expect(int(row["firms"]) == len(table("positions", *named)), f"the firms of {pool}")
        expect(int(row["claims"]) == len(re.findall(r"^\d+ FILE ", own, re.M)), f"the claims of {pool}")
        expect(int(row["open"]) == len(table("notices", HORIZON, *named)), f"the open claims of {pool}")
        expect(int(row["opened"]) == len(re.findall(r" = opened \d+$", own, re.M)), f"the rounds that were opened in {pool}")
        expect(int(row["published"]) == len(re.findall(r" = published ", own, re.M)), f"those that were published in {pool}")
        for number in re.findall(r"^\d+ PUBLISH (\d+) = published ", own, re.M):
            pages(pool, int(number))
        accounts(pool)
    return [row["pool"] for row in rows]


def cut_of(statement):
    """The statement without prices and discharges, and its total."""
    lines = [line.split() for line in statement.splitlines()]
    total = sum(Decimal(words[5]) for words in lines if words[0] == "CLAIM")
    return [words[:-1] if words[0] in ("PARTY", "CLAIM") else words for words in lines], total


def forecasts(names):
    shutil.copy("bureau.journal", "before")
    for pool in names:
        for kind in ("PLAIN", "FUNDED"):
            shutil.copy("before", "bureau.journal")
            forecast = tell("forecast", kind, HORIZON, pool)
            told = subprocess.run([PROGRAM, "check"], input=forecast, stdout=subprocess.PIPE, text=True).stdout
            number, named = forecast.split()[1], [] if pool == "MAIN" else [pool]
            mark = "" if pool == "MAIN" else f"@{pool} "
            tell("run", lines=f"1 {mark}CLOSE {kind} {HORIZON}\n")
            expect(told.startswith("yes ") and cut_of(forecast) == cut_of(tell("statement", number, *named)), f"a {kind} forecast of {pool}")
    shutil.copy("before", "bureau.journal")


def main():
    with tempfile.TemporaryDirectory() as folder:
        journal = Path(sys.argv[2]).resolve() if len(sys.argv) > 2 else None
        os.chdir(folder)
        if journal:
            shutil.copy(journal, "bureau.journal")
        else:
            for name in ("trade-circle", "month/members", "month/east", "month/part"):
                tell("run", lines=(HOME / f"examples/{name}.requests").read_text())
        count = acts()
        names = pools()
        forecasts(names)
        print(f"as it must be: {count} acts in {len(names)} pools")


main()
