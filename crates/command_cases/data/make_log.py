#!/usr/bin/env python3
"""Makes a log from a description that can be read.

    python3 make_log.py < description > log

A description has one line for each thing, in order; blank lines and lines that begin with # are
passed over. Names of columns' values are ids.

    table 1
    column 1 int                    int, uint or bytes

Entries, each with its region and index:

    open 1 5 1 1 min end            conf version, version, low, high
    install 9 20 3 4 min end        the same; the puts that follow are its ops
    write 1 6                       the ops that follow are its own
    split 1 7 100 2                 at this handle, with this child
    prepare 1 8 2                   to be merged into this target
    commit 2 6 1                    takes in this source
    remove 1 9
    empty 1 10

Ops:

    put 5 10 7 1=5 2=x6162          handle, commit timestamp, start timestamp, columns
    value 5 7 1=5 2=x6162           a put in default: handle, start timestamp, columns
    put-value 5 10 7                a put record whose value stands in default
    delete 5 10 7                   a delete record
    lock-record 5 10 7              a lock record of the write family, which changes nothing
    rollback 5 7                    a rollback record, which changes nothing
    lock 5 7 P                      handle, start timestamp, kind (P, D, L or S)
    unlock 5
    drop-value 5 7                  a delete in default
    raw-put 3 5 10 500776           family, handle, timestamp, the record in hexadecimal
    cut-put 6 10 9                  handle, timestamp; the key lacks its last bytes, this many
    cut-drop 5 10 9                 the same of a delete in default
    raw-lock 5 58                   handle, the record in hexadecimal
    elsewhere 2 500 10              a put record of another table: table, handle, timestamp

`min` is the least handle, and `end` stands for no high end. A column is an id and `null`, a number,
or `x` and hexadecimal bytes. docs/FORMATS.md describes the bytes.
"""
import struct
import sys

SIGN = 1 << 63
KINDS = {"int": 1, "uint": 2, "bytes": 3}
LEAST = -(1 << 63)


def memcomparable(text):
    """The text in groups of 8 bytes, each with its marker."""
    groups = [text[k:k + 8] for k in range(0, len(text) + 1, 8)]
    return b"".join(g + bytes(8 - len(g)) + bytes([0xFF - (8 - len(g))]) for g in groups)


def record_key(table, handle):
    text = b"t" + struct.pack(">Q", table + SIGN) + b"_r" + struct.pack(">Q", handle + SIGN)
    return memcomparable(text)


def timed_key(table, handle, ts):
    return record_key(table, handle) + struct.pack(">Q", (1 << 64) - 1 - ts)


def leb128(number):
    out = bytearray()
    while number >= 128:
        out.append(number % 128 + 128)
        number //= 128
    out.append(number)
    return bytes(out)


def least_width(number, signed):
    for width in (1, 2, 4, 8):
        try:
            return number.to_bytes(width, "little", signed=signed)
        except OverflowError:
            pass
    raise ValueError(f"{number} has more than 8 bytes")


def row(columns):
    """A row in format 2. The columns are pairs of id and bytes, or None."""
    values = [(i, v) for i, v in columns if v is not None]
    nulls = [i for i, v in columns if v is None]
    data = b"".join(v for _, v in values)
    big = any(i > 255 for i, _ in columns) or len(data) > 65535
    ids, offset = ("<I", "<I") if big else ("<B", "<H")
    out = bytearray([128, 1 if big else 0]) + struct.pack("<HH", len(values), len(nulls))
    for i in [i for i, _ in values] + nulls:
        out += struct.pack(ids, i)
    end = 0
    for _, v in values:
        end += len(v)
        out += struct.pack(offset, end)
    return bytes(out) + data


def op(family, key, value=None):
    """A put of a value, or a delete, in the family 1 (default), 2 (lock) or 3 (write)."""
    out = bytes([2 if value is None else 1, family]) + struct.pack(">H", len(key)) + key
    return out if value is None else out + struct.pack(">I", len(value)) + value


def write_op(table, handle, ts, kind, start, short=None):
    record = kind + leb128(start)
    if short is not None:
        record += b"v" + bytes([len(short)]) + short
    return op(3, timed_key(table, handle, ts), record)


def put_op(table, handle, ts, start, value):
    return write_op(table, handle, ts, b"P", start, value)


def value_op(table, handle, start, value):
    return op(1, timed_key(table, handle, start), value)


def lock_op(table, handle, kind, start, ttl=0):
    key = record_key(table, handle)
    record = kind + leb128(2 * len(key)) + key + leb128(start) + leb128(ttl)
    return op(2, key, record)


def unlock_op(table, handle):
    return op(2, record_key(table, handle))


def header(table, columns):
    out = b"FLASHLOG" + struct.pack(">HqH", 1, table, len(columns))
    return out + b"".join(struct.pack(">IB", i, KINDS[kind]) for i, kind in columns)


def frame(region, index, kind, body):
    payload = struct.pack(">IQB", region, index, kind) + body
    return struct.pack(">I", len(payload)) + payload


def open_body(conf_ver, version, low, high):
    end = b"\x00" if high is None else b"\x01" + struct.pack(">q", high)
    return struct.pack(">QQq", conf_ver, version, low) + end


def ops_body(ops):
    return struct.pack(">I", len(ops)) + b"".join(ops)


def split_body(at, child):
    return struct.pack(">qI", at, child)


def region_body(region):
    return struct.pack(">I", region)


def cell(text, kind):
    if text == "null":
        return None
    if kind == "bytes":
        return bytes.fromhex(text[1:])
    return least_width(int(text), kind == "int")


def row_of(columns, words):
    kinds = dict(columns)
    fields = sorted((int(i), v) for i, v in (w.split("=") for w in words))
    return row([(i, cell(v, kinds.get(i, "bytes"))) for i, v in fields])


OPS = ("put", "value", "put-value", "delete", "lock-record", "rollback", "lock", "unlock", "drop-value",
       "raw-put", "cut-put", "cut-drop", "raw-lock", "elsewhere")


def raw_op_of(table, what, args):
    """An op that may be none."""
    return {
        "raw-put": lambda: op(int(args[0]), timed_key(table, int(args[1]), int(args[2])), bytes.fromhex(args[3])),
        "cut-put": lambda: op(3, timed_key(table, int(args[0]), int(args[1]))[:-int(args[2])], b""),
        "cut-drop": lambda: op(1, timed_key(table, int(args[0]), int(args[1]))[:-int(args[2])]),
        "raw-lock": lambda: op(2, record_key(table, int(args[0])), bytes.fromhex(args[1])),
        "elsewhere": lambda: op(3, timed_key(int(args[0]), int(args[1]), int(args[2])), b""),
    }[what]()


def op_of(table, columns, what, args):
    """The op of a line, which is one of OPS."""
    if what in OPS[-5:]:
        return raw_op_of(table, what, args)
    numbers = [int(a) for a in args if "=" not in a and a not in "PDLS"]
    words = [a for a in args if "=" in a]
    return {
        "put": lambda: put_op(table, *numbers, row_of(columns, words)),
        "value": lambda: value_op(table, *numbers, row_of(columns, words)),
        "put-value": lambda: write_op(table, numbers[0], numbers[1], b"P", numbers[2]),
        "delete": lambda: write_op(table, numbers[0], numbers[1], b"D", numbers[2]),
        "lock-record": lambda: write_op(table, numbers[0], numbers[1], b"L", numbers[2]),
        "rollback": lambda: write_op(table, numbers[0], numbers[1], b"R", numbers[1]),
        "lock": lambda: lock_op(table, numbers[0], args[2].encode(), numbers[1]),
        "unlock": lambda: unlock_op(table, *numbers),
        "drop-value": lambda: op(1, timed_key(table, *numbers)),
    }[what]()


def entry_of(what, args):
    """Kind and body of an entry's line, but for its ops."""
    if what in ("open", "install"):
        low = LEAST if args[2] == "min" else int(args[2])
        high = None if args[3] == "end" else int(args[3])
        return (1 if what == "open" else 7), open_body(int(args[0]), int(args[1]), low, high)
    return {
        "write": lambda: (2, b""),
        "split": lambda: (3, split_body(int(args[0]), int(args[1]))),
        "prepare": lambda: (4, region_body(int(args[0]))),
        "commit": lambda: (5, region_body(int(args[0]))),
        "remove": lambda: (6, b""),
        "empty": lambda: (8, b""),
    }[what]()


def make(lines):
    table, columns, entries = 0, [], []
    for line in lines:
        what, *args = line.split() or ["#"]
        if what.startswith("#"):
            continue
        if what == "table":
            table = int(args[0])
        elif what == "column":
            columns.append((int(args[0]), args[1]))
        elif what in OPS:
            entries[-1][4].append(op_of(table, columns, what, args))
        else:
            kind, body = entry_of(what, args[2:])
            entries.append((int(args[0]), int(args[1]), kind, body, []))
    out = header(table, columns)
    for region, index, kind, body, ops in entries:
        out += frame(region, index, kind, body + (ops_body(ops) if kind in (2, 7) else b""))
    return out


if __name__ == "__main__":
    sys.stdout.buffer.write(make(sys.stdin.read().splitlines()))
