#!/usr/bin/env python3
"""trace.py PROGRAM: what a store does to real files, in which order, and what a failing sync leaves.

PROGRAM is the built bench_disk_trace, as `KEEP=PROGRAM bench/run disk_trace FOLDER` leaves it. Needs strace. Four parts:
1. A run is traced. Of each stage the file's fsync comes before the directory's; of each commit the record is
   written and synced before the gate is written, and that is synced before the next call.
2. Each fsync in turn is made to fail (EIO). The call answers `failed`, each later call of the disk fails, and the
   store opens again to the safe point before the failed commit or to that of it, and goes on.
3. A store's directory with a FIFO, a symbolic link and a folder of a store's names: none is listed or removed.
4. 5,000 files are made, gripped and read where at most 256 may be open.
"""
import os
import re
import shutil
import subprocess
import sys
import tempfile

TRACED = "openat,open,creat,write,pwrite64,fsync,fdatasync,ftruncate,unlink,unlinkat,rename,close"


def run(program, folder, *strace):
    words = ["strace", "-f", "-y", "-e", f"trace={TRACED}", *strace, "-o", f"{folder}.trace", program, folder]
    if not strace:
        words = [program, folder]
    return subprocess.run(words, capture_output=True, text=True, timeout=60).stdout.splitlines()


def events(folder):
    """Yields (call, file's name) of the traced calls on the store's files and its folder."""
    for line in open(f"{folder}.trace", encoding="utf-8", errors="replace"):
        found = re.match(r"\d+\s+(\w+)\((.*)", line)
        if not found or "ENOENT" in line or "unfinished" in line:
            continue
        call, rest = found.groups()
        path = re.search(r"<(" + re.escape(folder) + r"[^>]*)>", rest)
        if path and call in ("write", "pwrite64", "fsync", "fdatasync", "ftruncate"):
            yield call, os.path.relpath(path[1], folder)


def misplaced(order):
    """Returns how many calls stand elsewhere than the order asks: a write, its file's fsync, and for a new file that of the folder; and
    from the first staged file on, a file and then twice the manifest, the record and its gate."""
    wrong, known, writes, at = 0, set(), [], 0
    while at < len(order):
        name = order[at][1]
        want = [("pwrite64", name), ("fsync", name)] + ([] if name in known else [("fsync", ".")])
        # a file that is made anew is new
        again = want + ([("fsync", ".")] if name in known else [])
        got = order[at : at + len(again)]
        size = len(again) if got == again else len(want)
        wrong += order[at : at + size] != (again if got == again else want)
        known.add(name)
        writes.append(name)
        at += size
    root, manifest = writes[0], writes[1]
    rounds = writes[4:]
    wrong += [name == manifest for name in rounds] != [False, True, True] * (len(rounds) // 3) or root in rounds
    return wrong


def main():
    program = os.path.abspath(sys.argv[1])
    room = os.path.realpath(tempfile.mkdtemp(prefix="disk_trace-"))
    try:
        print("== order of one run over an empty folder")
        folder = f"{room}/a"
        os.mkdir(folder)
        said = run(program, folder, "-e", "status=successful")
        print(" | ".join(said))
        order = list(events(folder))
        print("\n".join(f"{call} {name}" for call, name in order))
        print("wrong:", misplaced(order))
        print("== each fsync made to fail")
        wrong = fail(program, room)
        print("wrong:", wrong)
        print("== names that are no files")
        others(program, room)
        print("== 5,000 files with at most 256 open")
        many(program, room)
    finally:
        shutil.rmtree(room)


def fail(program, room):
    wrong = 0
    for number in range(1, 40):
        folder = f"{room}/f{number}"
        os.mkdir(folder)
        said = run(program, folder, "-e", f"inject=fsync:error=EIO:when={number}")
        if not any(line.startswith("again") for line in said):
            print(f"fsync {number}: the run has no such call")
            break
        first = [it for it in said if not it.startswith("again")]
        again = [it for it in said if it.startswith("again")]
        after = run(program, folder)
        good = len(again) == 8 and all(it.endswith("failed") for it in again)
        points = [0] + [int(it.split()[1]) for it in first if it.startswith("commit")]
        opened = after[0].split()
        # what failed last may be there or not
        good = good and opened[0] == "open" and opened[1].isdigit() and int(opened[1]) in points[-2:] and not any("failed" in it for it in after)
        wrong += not good
        print(f"fsync {number}: {first[-1]}; {len(again)} later calls failed; opened again at {' '.join(opened[1:])}, {len(after) - 1} calls ok{'' if good else '  WRONG'}")
    return wrong


def others(program, room):
    folder = f"{room}/o"
    os.mkdir(folder)
    run(program, folder)
    os.mkfifo(f"{folder}/f0000000091")
    os.symlink("/etc/hostname", f"{folder}/f0000000092")
    os.mkdir(f"{folder}/f0000000093")
    print(" | ".join(run(program, folder)))
    print("names:", " ".join(sorted(os.listdir(folder))))


def many(program, room):
    folder = f"{room}/m"
    os.mkdir(folder)
    said = subprocess.run(["sh", "-c", f"ulimit -n 256; exec {program} {folder} many"], capture_output=True, text=True, timeout=600).stdout
    print(said, end="")


if __name__ == "__main__":
    main()
