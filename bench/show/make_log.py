#!/usr/bin/env python3
"""Writes a log of 2N + 10 entries over eight regions: make_log.py N > LOG.

Region 1 is opened with all handles and split seven times; N transactions follow, each an entry of
locks (and at times of a value too long for its record) and one of commits, on handles below 8,000;
every eighth or so deletes. At the end region 8 is merged into region 7.
"""
import pathlib
import sys

sys.path.insert(0, str(pathlib.Path(__file__).resolve().parents[2] / "samples"))
import make_log as log

TABLE = 1


def row_of(handle, i):
    fill = bytes([i % 256]) * (i % 16)
    return log.row([(1, log.least_width(handle, True)), (2, log.least_width(i, False)), (3, fill)])


def transaction(i, x):
    """The handle, and the ops of the two entries."""
    handle, start = (x >> 33) % 8000, 10 * i + 10
    value = None if (x >> 20) % 8 == 0 else row_of(handle, i)
    far = value is not None and i % 4 == 0
    kind = b"D" if value is None else b"P"
    short = None if value is None or far else value
    first = [log.value_op(TABLE, handle, start, value)] if far else []
    first.append(log.lock_op(TABLE, handle, kind, start, 3000))
    second = [log.write_op(TABLE, handle, start + 5, kind, start, short), log.unlock_op(TABLE, handle)]
    return handle, first, second


def generated(n):
    yield log.header(TABLE, [(1, "int"), (2, "uint"), (3, "bytes")])
    yield log.frame(1, 5, 1, log.open_body(1, 1, log.LEAST, None))
    index = {1: 5}

    def entry(region, kind, body):
        index[region] += 1
        return log.frame(region, index[region], kind, body)

    for j in range(1, 8):
        yield entry(j, 3, log.split_body(1000 * j, j + 1))
        index[j + 1] = 5
    x = 1
    for i in range(n):
        x = (x * 6364136223846793005 + 1442695040888963407) % 2**64
        handle, first, second = transaction(i, x)
        for ops in (first, second):
            yield entry(handle // 1000 + 1, 2, log.ops_body(ops))
    yield entry(8, 4, log.region_body(7))
    yield entry(7, 5, log.region_body(8))


if __name__ == "__main__":
    for piece in generated(int(sys.argv[1])):
        sys.stdout.buffer.write(piece)
