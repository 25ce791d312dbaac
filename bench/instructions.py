#!/usr/bin/env python3
"""Counts the instructions that the proved program takes for a request, by valgrind's callgrind: the difference of two
runs of which one has twice as many requests, divided by how many more it has. So start and end of the program, and the
documents that are there first, don't count.

    bench/instructions.py [PROGRAM]     default: crates/hawoyefa/out/hawoyefa
"""
import pathlib
import re
import struct
import subprocess
import sys
import tempfile

TOP = pathlib.Path(__file__).resolve().parent.parent
PROGRAM = pathlib.Path(sys.argv[1] if len(sys.argv) > 1 else TOP / "crates/hawoyefa/out/hawoyefa").resolve()
KEYS = 1_000
REQUESTS = 20_000
VALUE = bytes(range(100))
GET, SET, NOOP, SETQ = 0x00, 0x01, 0x0A, 0x11


def frame(opcode: int, opaque: int, extras: bytes, key: bytes, value: bytes) -> bytes:
    """A request frame with magic 80 for vbucket 0."""
    body = len(extras) + len(key) + len(value)
    return struct.pack(">BBHBBHIIQ", 0x80, opcode, len(key), len(extras), 0, 0, body, opaque, 0) + extras + key + value


def key(i: int) -> bytes:
    return b"key-%06d" % (i * 7919 % KEYS)


def loaded() -> bytes:
    """A quiet Set of each key."""
    return b"".join(frame(SETQ, 0, bytes(8), b"key-%06d" % i, VALUE) for i in range(KEYS))


KINDS = {
    "Set and Get of 100 bytes": lambda i: frame(SET, i, bytes(8), key(i), VALUE) + frame(GET, i, b"", key(i), b""),
    "Get of 100 bytes": lambda i: frame(GET, i, b"", key(i), b""),
    "quiet Set of 100 bytes": lambda i: frame(SETQ, i, bytes(8), key(i), VALUE),
    "Noop": lambda i: frame(NOOP, i, b"", b"", b""),
}


def instructions(whole: bytes) -> int:
    """The instructions of one run over these bytes."""
    with tempfile.NamedTemporaryFile() as file:
        file.write(whole)
        file.flush()
        words = ["valgrind", "--tool=callgrind", "--callgrind-out-file=/dev/null", str(PROGRAM), "pipe"]
        with open(file.name, "rb") as source:
            ended = subprocess.run(words, stdin=source, stdout=subprocess.DEVNULL, stderr=subprocess.PIPE, text=True)
    told = re.search(r"Collected : (\d+)", ended.stderr)
    if ended.returncode != 0 or told is None:
        sys.exit(f"the program ended with status {ended.returncode}: {ended.stderr[-400:]}")
    return int(told.group(1))


def main() -> None:
    front = loaded()
    for name, kind in KINDS.items():
        once = front + b"".join(kind(i) for i in range(REQUESTS))
        twice = once + b"".join(kind(i) for i in range(REQUESTS))
        print(f"{name:<26} {(instructions(twice) - instructions(once)) / REQUESTS:8.0f} instructions", flush=True)


if __name__ == "__main__":
    main()
