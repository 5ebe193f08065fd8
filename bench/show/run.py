#!/usr/bin/env python3
"""Times `show` of the built program against the twin in plain Rust: run.py PROGRAM [N ..].

PROGRAM is crates/flash_replay/out/flash_replay, as `rt run` builds it. Both run in turn on the same
log, best of five; the peak memory is the program's.
"""
import pathlib
import resource
import subprocess
import sys
import tempfile
import time

here = pathlib.Path(__file__).resolve().parent
program = pathlib.Path(sys.argv[1]).resolve()
sizes = [int(n) for n in sys.argv[2:]] or [1_000, 10_000, 100_000]
LAST = str(2**64 - 1)


def peak_of(command):
    """The peak memory of a command in bytes, from a child of its own."""
    code = "import resource, subprocess, sys; subprocess.run(sys.argv[1:], stdout=subprocess.DEVNULL);" \
           "print(resource.getrusage(resource.RUSAGE_CHILDREN).ru_maxrss * 1024)"
    return int(subprocess.run([sys.executable, "-c", code, *command], capture_output=True, text=True).stdout)


with tempfile.TemporaryDirectory() as scratch:
    twin = pathlib.Path(scratch, "twin")
    subprocess.run(["rustc", "--edition", "2021", "-O", "-o", twin, here / "twin.rs"], check=True)
    for n in sizes:
        path = pathlib.Path(scratch, f"{n}.log")
        with path.open("wb") as out:
            subprocess.run([sys.executable, here / "make_log.py", str(n)], stdout=out, check=True)
        ours = [str(program), str(path), "", "", "show", LAST]
        theirs = [str(twin), str(path), LAST]
        texts = [subprocess.run(c, capture_output=True).stdout for c in (ours, theirs)]
        if texts[0] != texts[1]:
            sys.exit(f"the texts differ at {n}")
        best = {"program": 1e9, "twin": 1e9}
        for _ in range(5):
            for name, command in (("program", ours), ("twin", theirs)):
                start = time.perf_counter()
                subprocess.run(command, stdout=subprocess.DEVNULL, check=True)
                best[name] = min(best[name], time.perf_counter() - start)
        size = path.stat().st_size
        print(f"{n} writes, {size} bytes: {best['program']:.3f} s, twin {best['twin']:.3f} s, "
              f"ratio {best['program'] / best['twin']:.2f}, {n / best['program']:.0f} entries a second, "
              f"peak memory {peak_of(ours) / size:.1f} times the log")
