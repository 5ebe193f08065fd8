#!/usr/bin/env python3
"""Writes a log for bench/run region_table: make_log.py KIND N > LOG.

KIND is transactions (2N + 10 entries over eight regions, as for `show`), splits (N splits, each of the
region that the one before bore) or values (N values of the default family, handles falling, 1,000 an
entry).
"""
import pathlib
import sys

here = pathlib.Path(__file__).resolve().parent
sys.path[:0] = [str(here.parents[1] / "samples"), str(here.parent / "show")]
import make_log as samples  # noqa: E402

TABLE = 1


def splits(n):
    yield samples.header(TABLE, [(1, "int")])
    yield samples.frame(1, 5, 1, samples.open_body(1, 1, samples.LEAST, None))
    for j in range(1, n + 1):
        yield samples.frame(j, 6, 3, samples.split_body(j, j + 1))


def values(n):
    yield samples.header(TABLE, [(1, "int")])
    yield samples.frame(1, 5, 1, samples.open_body(1, 1, samples.LEAST, None))
    index = 5
    for first in range(n, 0, -1000):
        index += 1
        ops = [samples.value_op(TABLE, handle, 7, b"value") for handle in range(first, max(first - 1000, 0), -1)]
        yield samples.frame(1, index, 2, samples.ops_body(ops))


def transactions(n):
    import importlib.util
    spec = importlib.util.spec_from_file_location("show_log", here.parent / "show" / "make_log.py")
    module = importlib.util.module_from_spec(spec)
    spec.loader.exec_module(module)
    return module.generated(n)


if __name__ == "__main__":
    kind, n = sys.argv[1], int(sys.argv[2])
    for piece in {"splits": splits, "values": values, "transactions": transactions}[kind](n):
        sys.stdout.buffer.write(piece)
