#!/usr/bin/env python3
"""Times the proved program. Seconds are those of the processor, user and system together, so that other work on the
machine counts little; peak memory is that of the whole process.

    bench/pipe.py [PROGRAM]     default: crates/hawoyefa/out/hawoyefa

Four measurements:
- Set and Get over 10,000 keys with values of 100 bytes, 100,000 of them and then 1,000,000: how time and memory grow;
- all operations, 1,000,000 of them on keys at random, over 10,000 and then 1,000,000 live keys, which are stored first:
  timed from the first operation to the reply to the last, without the load before and the end of the program;
- 1,000,000 Gets at random among 1,000,000 documents in one collection and in 1,200, timed likewise;
- one Set of 20 MiB, and then a Get, written to the program a byte at a time and in one piece.
"""
import io
import os
import pathlib
import random
import struct
import subprocess
import sys
import tempfile
import threading

KEYS = 10_000
VALUE = bytes(range(100))
TOP = pathlib.Path(__file__).resolve().parent.parent
PROGRAM = pathlib.Path(sys.argv[1] if len(sys.argv) > 1 else TOP / "crates/hawoyefa/out/hawoyefa").resolve()

GET, SET, ADD, REPLACE, DELETE, INCREMENT, DECREMENT = range(0x00, 0x07)
GETQ, NOOP, GETK, APPEND, PREPEND, SETQ, TOUCH, GAT = 0x09, 0x0A, 0x0C, 0x0E, 0x0F, 0x11, 0x1C, 0x1D


def frame(opcode: int, opaque: int, extras: bytes, key: bytes, value: bytes) -> bytes:
    """A request frame with magic 80 for vbucket 0."""
    body = len(extras) + len(key) + len(value)
    return struct.pack(">BBHBBHIIQ", 0x80, opcode, len(key), len(extras), 0, 0, body, opaque, 0) + extras + key + value


def set_and_get(out, requests: int) -> None:
    """Alternately a Set and a Get, of keys that go round."""
    for i in range(requests):
        key = b"key-%06d" % (i // 2 * 7919 % KEYS)
        if i % 2 == 0:
            out.write(frame(SET, i & 0xFFFFFFFF, bytes(8), key, VALUE))
        else:
            out.write(frame(GET, i & 0xFFFFFFFF, b"", key, b""))


def stored(out, keys: int) -> None:
    """A quiet Set of each key; every tenth is a number."""
    for i in range(keys):
        value = b"1000" if i % 10 == 0 else VALUE
        out.write(frame(SETQ, 0, bytes(8), b"key-%07d" % i, value))


def operation(i: int, at: int) -> bytes:
    """The i-th request of a mix of all operations, on this key or one beside it."""
    text, number = b"key-%07d" % at, b"key-%07d" % (at // 10 * 10)
    odd, last = b"key-%07d" % (at | 1), b"key-%07d" % (at | 3)
    counter = struct.pack(">QQI", 3, 1000, 0)
    opcode, extras, key, value = (
        (GET, b"", text, b""),
        (SET, bytes(8), odd, VALUE),
        (INCREMENT, counter, number, b""),
        (GETK, b"", text, b""),
        (DECREMENT, counter, number, b""),
        (ADD, bytes(8), text, VALUE),
        (REPLACE, bytes(8), odd, VALUE),
        (TOUCH, bytes(4), text, b""),
        (GAT, bytes(4), text, b""),
        (APPEND, b"", odd, b"+"),
        (PREPEND, b"", odd, b"-"),
        (DELETE, b"", last, b""),
        (GETQ, b"", text, b""),
    )[i % 13]
    return frame(opcode, i, extras, key, value)


def mixed(out, requests: int, keys: int) -> None:
    """A mix of all operations, on keys at random, the same ones in each run."""
    places = random.Random(1)
    for i in range(requests):
        out.write(operation(i, places.randrange(keys)))


HELLO, SET_MANIFEST = 0x1F, 0xB9


def leb128(number: int) -> bytes:
    """The shortest unsigned LEB128 spelling."""
    out = bytearray()
    while number >= 0x80:
        out.append(number & 0x7F | 0x80)
        number >>= 7
    return bytes(out + bytes([number]))


def manifest(collections: int) -> bytes:
    """A manifest with this many collections: that of the start and ids from 8 on."""
    ids = [0, *range(8, collections + 7)]
    named = ",".join('{"name":"%s","uid":"%x"}' % ("_default" if i == 0 else "c%d" % i, i) for i in ids)
    return ('{"uid":"1","scopes":[{"name":"_default","uid":"0","collections":[%s]}]}' % named).encode()


def stored_in(out, collections: int, documents: int) -> None:
    """Documents spread over collections, which a manifest makes first."""
    ids = [leb128(i) for i in [0, *range(8, collections + 7)]]
    out.write(frame(HELLO, 0, b"", b"", b"\x00\x12"))
    out.write(frame(SET_MANIFEST, 0, b"", b"", manifest(collections)))
    for i in range(documents):
        out.write(frame(SETQ, 0, bytes(8), ids[i % collections] + b"key-%07d" % i, VALUE))


def got_from(out, collections: int, documents: int, gets: int) -> None:
    """Gets of such documents at random, the same ones in each run."""
    ids = [leb128(i) for i in [0, *range(8, collections + 7)]]
    places = random.Random(1)
    for i in range(gets):
        at = places.randrange(documents)
        out.write(frame(GET, i & 0xFFFFFFFF, b"", ids[at % collections] + b"key-%07d" % at, b""))


def run(path: str) -> tuple[float, int]:
    """Processor seconds and peak memory in bytes of one run; its replies go nowhere."""
    with open(path, "rb") as source, open(os.devnull, "wb") as sink:
        child = subprocess.Popen([str(PROGRAM), "pipe"], stdin=source, stdout=sink)
        _, status, usage = os.wait4(child.pid, 0)
    if status != 0:
        sys.exit(f"the program ended with status {status}")
    return usage.ru_utime + usage.ru_stime, usage.ru_maxrss * 1024


def timed(write) -> tuple[float, int, int]:
    """The best of three runs over an input, and the input's size."""
    with tempfile.NamedTemporaryFile() as file:
        with open(file.name, "wb") as out:
            write(out)
        size = os.path.getsize(file.name)
        seconds, peak = min(run(file.name) for _ in range(3))
    return seconds, peak, size


def fed(child: subprocess.Popen, whole: bytes) -> threading.Thread:
    """Writes bytes to a program beside what else goes on."""

    def write() -> None:
        for at in range(0, len(whole), 65536):
            os.write(child.stdin.fileno(), whole[at : at + 65536])

    writer = threading.Thread(target=write)
    writer.start()
    return writer


def taken(child: subprocess.Popen) -> float:
    """The processor seconds that a program has taken so far."""
    return int(pathlib.Path(f"/proc/{child.pid}/schedstat").read_text().split()[0]) / 1e9


def paced(load, operations) -> float:
    """Processor seconds that a connection takes for operations behind a load: from the reply to a Noop behind the load to
    the reply to one behind the operations. The best of three."""
    asked, reply = frame(NOOP, 7, b"", b"", b""), struct.pack(">BBHBBHIIQ", 0x81, NOOP, 0, 0, 0, 0, 0, 7, 0)
    parts = []
    for write in (load, operations):
        part = io.BytesIO()
        write(part)
        parts.append(part.getvalue() + asked)
    best = float("inf")
    for _ in range(3):
        child = subprocess.Popen([str(PROGRAM), "pipe"], stdin=subprocess.PIPE, stdout=subprocess.PIPE, bufsize=0)
        seconds = []
        for part in parts:
            writer, tail = fed(child, part), b""
            while not tail.endswith(reply):
                piece = child.stdout.read(1 << 20)
                if not piece:
                    sys.exit("the program ended before it had answered")
                tail = (tail + piece)[-len(reply) :]
            writer.join()
            seconds.append(taken(child))
        child.stdin.close()
        child.wait()
        best = min(best, seconds[1] - seconds[0])
    return best


def piecewise(piece: int) -> float:
    """Processor seconds of a Set of 20 MiB and a Get, in pieces of this many bytes."""
    value = bytes(20 * 1024 * 1024)
    whole = frame(SET, 1, bytes(8), b"a", value) + frame(GET, 2, b"", b"a", b"")
    child = subprocess.Popen([str(PROGRAM), "pipe"], stdin=subprocess.PIPE, stdout=subprocess.PIPE, bufsize=0)
    reader = threading.Thread(target=child.stdout.read)
    reader.start()
    for at in range(0, len(whole), piece):
        os.write(child.stdin.fileno(), whole[at : at + piece])
    child.stdin.close()
    reader.join()
    _, status, usage = os.wait4(child.pid, 0)
    if status != 0:
        sys.exit(f"the program ended with status {status}")
    return usage.ru_utime + usage.ru_stime


def main() -> None:
    live = KEYS * (len(VALUE) + 10)
    results = {}
    for requests in (100_000, 1_000_000):
        seconds, peak, size = timed(lambda out: set_and_get(out, requests))
        results[requests] = seconds
        print(
            f"{requests:>9} requests  {seconds:7.3f} s  {requests / seconds:>10.0f} requests/s  "
            f"peak {peak / 1e6:7.1f} MB  input {size / 1e6:.1f} MB  live documents {live / 1e6:.1f} MB"
        )
    print(f"ten times the requests take {results[1_000_000] / results[100_000]:.1f} times as long")

    mix = {}
    for keys in (10_000, 1_000_000):
        mix[keys] = paced(lambda out: stored(out, keys), lambda out: mixed(out, 1_000_000, keys))
        print(
            f"{keys:>9} live keys  {mix[keys]:7.3f} s for 1,000,000 of all operations  "
            f"{1_000_000 / mix[keys]:>10.0f} requests/s"
        )
    print(f"a hundred times the keys take {mix[1_000_000] / mix[10_000]:.1f} times as long")

    gets = {}
    for collections in (1, 1_200):
        gets[collections] = paced(
            lambda out: stored_in(out, collections, 1_000_000),
            lambda out: got_from(out, collections, 1_000_000, 1_000_000),
        )
        print(
            f"{collections:>9} collections  {gets[collections]:7.3f} s for 1,000,000 Gets among 1,000,000 documents  "
            f"{1_000_000 / gets[collections]:>10.0f} requests/s"
        )
    print(f"1,200 collections take {gets[1_200] / gets[1]:.2f} times as long as one")

    for piece in (1, 65536):
        print(f"a frame of 20 MiB in writes of {piece} bytes: {piecewise(piece):.3f} s")


if __name__ == "__main__":
    main()
