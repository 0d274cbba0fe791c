#!/usr/bin/env python3
"""Shows that `run` and `live` serve alike where no thread can be made: shows/no_threads.py [PROGRAM]

Both serve two inputs as a user who may have one process and no thread, which is tried in that process before the program is begun. One
has lines of sixteen lanes, a FENCE after each hundred, and a round among them, the other those of one lane alone; the last line of each
has no line feed. Each service has to end within a minute, with status 0 and the text of the other. It sets the user, so root starts
it; without a word it takes the program of the gate. Run by hand.
"""
import os
import pathlib
import resource
import shutil
import subprocess
import sys
import tempfile
import threading

HERE = pathlib.Path(__file__).resolve().parent
PROGRAM = HERE.parent / "crates/bureau_program/out/bureau_program"
USER = 54321


def lines_of(lanes):
    """Two firms and a claim, which the last lane closes among funds of all, and a line that has no line feed."""
    lines = ["1 FIRM A", "1 FIRM B", "1 LIMIT A 0.00 999.00", "FENCE"]
    lines += ["1 FILE A I-1 B 7.00 2025-12-31", "1 CONFIRM A I-1 B", "1 FILE B I-2 A 5.00 2025-12-31", "1 CONFIRM B I-2 A", "FENCE"]
    for k in range(600):
        lines.append(f"{k % lanes + 1} FUND {'AB'[k % 2]} 0.01")
        if k == 250:
            lines.append(f"{lanes} CLOSE PLAIN 2025-12-31")
        if k % 100 == 99:
            lines.append("FENCE")
    return "\n".join(lines + ["1 POSITION A"]).encode()


def become_alone():
    """The user of this process, which may have no other and no thread."""
    resource.setrlimit(resource.RLIMIT_NPROC, (1, 1))
    os.setgroups([])
    os.setgid(USER)
    os.setuid(USER)
    try:
        threading.Thread(target=int).start()
    except RuntimeError:
        return
    os._exit(99)


def served(program, word, text, folder):
    """The status and the text of a service in a folder of the user's own, without a journal."""
    with tempfile.TemporaryDirectory(dir=folder) as own:
        os.chown(own, USER, USER)
        done = subprocess.run([program, word], input=text, stdout=subprocess.PIPE, cwd=own, preexec_fn=become_alone, timeout=60)
    if done.returncode == 99:
        sys.exit("bench: a thread could be made")
    return done.returncode, done.stdout


def main():
    with tempfile.TemporaryDirectory(dir="/dev/shm") as folder:
        os.chmod(folder, 0o755)
        program = pathlib.Path(folder) / "bureau"
        shutil.copy(sys.argv[1] if len(sys.argv) > 1 else PROGRAM, program)
        program.chmod(0o755)
        for lanes in (16, 1):
            text = lines_of(lanes)
            run, live = (served(program, word, text, folder) for word in ("run", "live"))
            if run != live or run[0] != 0 or b"PUBLISH 1 = " not in run[1]:
                sys.exit(f"bench: {lanes} lanes: status {run[0]} and {len(run[1])} bytes of run, {live[0]} and {len(live[1])} of live")
            print(f"{lanes} lanes: status 0 and the same {len(run[1])} bytes of both")


if __name__ == "__main__":
    main()
