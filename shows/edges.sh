#!/usr/bin/env bash
# Runs the bureau at the edges of a system: with closed streams, each alone and all; into a device without room and into a closed pipe;
# in a folder that may not be written, or searched and not read; on a full disk; under a limit on the size of files; on a journal that
# is no file; and where a sync of the folder fails. Prints the status of each case and whether the journal that it leaves is sound, and
# what came to something else; then the status is 1. Run by hand, as root: it mounts small disks in memory, and makes a device.
set -eu

shows=$(cd "$(dirname "$0")" && pwd)
. "$shows/../bench/program.sh"
folder=$PWD
trap 'for at in "$folder"/*/disk; do ! mountpoint -q "$at" || umount "$at"; done; rm -rf "$folder"' EXIT
chmod 755 "$folder"
install -m 755 "$program" bureau
cc -O2 -shared -fPIC -o folder_sync.so "$shows/folder_sync.c" -ldl
"$here/inputs.sh" 300 >requests
python3 - "$folder" <<'PYTHON'
import os
import pathlib
import resource
import shutil
import signal
import socket
import stat
import subprocess
import sys
import threading

home = pathlib.Path(sys.argv[1])
program = str(home / "bureau")
requests = (home / "requests").read_bytes()
NOBODY = 65534
bad = 0


class Case:
    """A folder of its own for one case."""

    def __init__(self, name, acts=None):
        self.name = name
        self.at = home / name.replace(" ", "_").replace("/", "_")
        self.at.mkdir()
        self.journal = self.at / "bureau.journal"
        if acts is not None:
            self.run(acts)

    def run(self, text=requests, words=("run",), closed=(), before=None, env=None, **streams):
        """The status, and the output where it is not given elsewhere; negative where a signal ended it."""
        def prepare():
            for number in closed:
                os.close(number)
            if before:
                before()

        streams.setdefault("stdout", subprocess.PIPE)
        ran = subprocess.run([program, *words], input=text, cwd=self.at, stderr=subprocess.PIPE, timeout=20,
                             preexec_fn=prepare, env={**os.environ, **(env or {})}, **streams)
        return ran.returncode, ran.stdout

    def sound(self):
        """Whether the journal is sound, by an audit, and what the audit tells."""
        status, told = self.run(b"", ("audit",))
        return status == 0 and told.startswith(b"yes "), told.decode().strip()

    def tell(self, status, due, audited=True, also=True):
        global bad
        sound, told = self.sound() if audited else (True, "")
        right = status in due and sound and also
        bad += not right
        print(f"{'' if right else 'SOMETHING ELSE: '}{self.name}: status {status}{'; ' if told else ''}{told}")


def streams():
    for words in (("run",), ("audit",)):
        for closed, due in [((0,), (3,)), ((1,), (4,)), ((2,), (0,)), ((0, 1, 2), (4,))]:
            case = Case(f"{words[0]} with closed streams {' '.join(map(str, closed))}", requests[:200].rsplit(b"\n", 1)[0] + b"\n")
            if words[0] == "audit" and 0 in closed and 1 not in closed:
                due = (0,)
            status, _ = case.run(b"1 FIRM AAA\n", words, closed)
            case.tell(status, due)
    case = Case("no words with all streams closed")
    status, _ = case.run(b"", ("no", "words"), (0, 1, 2))
    case.tell(status, (2, 4), audited=False)
    case = Case("output to dev full")
    with open("/dev/full", "wb") as full:
        status, _ = case.run(stdout=full)
    case.tell(status, (4,))
    case = Case("output into a closed pipe")
    reader, writer = os.pipe()
    os.close(reader)
    status, _ = case.run(stdout=writer)
    os.close(writer)
    case.tell(status, (4,))


def disks():
    for size, mode in [("64k", "full"), ("1m", "ro")]:
        case = Case("a full disk" if mode == "full" else "a disk that may not be written")
        disk = case.at / "disk"
        disk.mkdir()
        subprocess.run(["mount", "-t", "tmpfs", "-o", f"size={size}", "none", disk], check=True)
        case.at = disk
        if mode == "full":
            case.run(b"1 FIRM AAA\n")
            with open(disk / "filler", "wb") as filler:
                try:
                    filler.write(b"x" * 10 ** 6)
                except OSError:
                    pass
            status, told = case.run(requests * 3)
            case.tell(status, (5,), also=b" = refused 18 device " in told)
        else:
            subprocess.run(["mount", "-o", "remount,ro", disk], check=True)
            status, told = case.run()
            case.tell(status, (5,), also=told == b"fault device 0 1\n")
            case.name += ", a journal in it"
            subprocess.run(["mount", "-o", "remount,rw", disk], check=True)
            case.run()
            subprocess.run(["mount", "-o", "remount,ro", disk], check=True)
            status, told = case.run()
            case.tell(status, (5,), also=told == b"fault device 0 1\n")
        subprocess.run(["umount", disk], check=True)


def limits():
    for ignored in (False, True):
        def limit():
            resource.setrlimit(resource.RLIMIT_FSIZE, (2048, 2048))
            signal.signal(signal.SIGXFSZ, signal.SIG_IGN if ignored else signal.SIG_DFL)

        case = Case(f"a limit of 2 KiB a file, {'with' if ignored else 'without'} the signal ignored")
        status, _ = case.run(before=limit)
        case.tell(status, (5,) if ignored else (-signal.SIGXFSZ,))
        status, _ = case.run()
        case.tell(status, (0,))


def no_files():
    def socket_at(path):
        made = socket.socket(socket.AF_UNIX)
        cwd = os.getcwd()
        os.chdir(path.parent)
        made.bind(path.name)
        os.chdir(cwd)

    kinds = {
        "a folder": lambda path: path.mkdir(),
        "a pipe": os.mkfifo,
        "a socket": socket_at,
        "a device": lambda path: os.mknod(path, stat.S_IFCHR | 0o666, os.makedev(1, 3)),
        "a link to a device": lambda path: path.symlink_to("/dev/zero"),
        "a link to nothing": lambda path: path.symlink_to("nothing"),
    }
    for kind, make in kinds.items():
        for word in ("run", "audit", "positions"):
            case = Case(f"{word} on a journal that is {kind}")
            make(case.journal)
            status, told = case.run(words=(word,))
            case.tell(status, (5,) if kind != "a link to nothing" or word == "run" else (0,), audited=False)


def folders():
    for error, due in [("EINVAL", 0), ("EOPNOTSUPP", 0), ("ENOSYS", 0), ("EIO", 5)]:
        case = Case(f"a sync of the folder that fails with {error}")
        env = {"LD_PRELOAD": str(home / "folder_sync.so"), "FOLDER_SYNC": str(getattr(__import__("errno"), error))}
        status, _ = case.run(env=env)
        case.tell(status, (due,))
    case = Case("a folder that may be searched and not read")
    case.run()
    os.chown(case.journal, NOBODY, NOBODY)
    case.at.chmod(0o711)
    status, told = case.run(before=lambda: os.setuid(NOBODY))
    case.tell(status, (5,), also=told == b"fault device 0 1\n")


streams()
disks()
limits()
no_files()
folders()
sys.exit(1 if bad else 0)
PYTHON
