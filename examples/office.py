#!/usr/bin/env python3
"""A client of an open office: examples/office.py [PROGRAM] < REQUESTS

Sends the requests of its input batch by batch, each up to a line FENCE, and writes the answer to each before it sends the next one.
Other programs can import Office. PROGRAM stands in for ./bureau. The status is that of the office."""
import contextlib
import subprocess
import sys
from pathlib import Path


class Office:
    """An office that is open on the journal of a folder."""

    def __init__(self, program, folder="."):
        pipes = {"stdin": subprocess.PIPE, "stdout": subprocess.PIPE}
        self.process = subprocess.Popen([program, "live"], cwd=folder, encoding="ascii", **pipes)

    def ask(self, requests):
        """Sends requests as one batch and gives the lines of its answer, up to a fault line where the office closed."""
        with contextlib.suppress(BrokenPipeError):
            self.process.stdin.write("".join(f"{it}\n" for it in [*requests, "FENCE"]))
            self.process.stdin.flush()
        answer, left, in_statement = [], len(requests), False
        while (left or in_statement) and (line := self.process.stdout.readline()):
            answer.append(line.rstrip("\n"))
            if in_statement:
                in_statement = answer[-1] != "END"
            elif not line.startswith(("0 ", "fault ")):
                reply = line.partition(" = ")[2]
                in_statement = reply.startswith("published ")
                # The publication of the round, or an `!` line, is still to come.
                left -= not reply.startswith(("opened ", "continued "))
        return answer

    def close(self):
        """Closes the pipe to the office; gives what it still wrote and its status."""
        with contextlib.suppress(BrokenPipeError):
            self.process.stdin.close()
        return self.process.stdout.read(), self.process.wait()


def main():
    beside = Path(__file__).resolve().parent.parent / "bureau"
    office, batch = Office(*sys.argv[1:2] or [beside]), []
    for line in [*sys.stdin.read().splitlines(), "FENCE"]:
        if line != "FENCE":
            batch.append(line)
            continue
        for answer in office.ask(batch):
            print(answer, flush=True)
        batch = []
    rest, status = office.close()
    print(rest, end="")
    return status


if __name__ == "__main__":
    sys.exit(main())
