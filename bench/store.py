#!/usr/bin/env python3
"""Measures the proved program on a file. Seconds are those of the processor, user and system together, so that other work on
the machine counts little; memory is that of the whole process.

    bench/store.py [PROGRAM]     default: crates/hawoyefa/out/hawoyefa

A vbucket counts 288 bytes of each document beside its key and value, and holds 256 MiB; so there are 600,000 documents here, with
keys of 11 bytes and values of 100. Measured are:

- the load of all of them by `pipe` and by `pipe FILE`, which puts them on disk in groups of 16,384 and the rest in the end;
- the opening of that file: its seconds beside those of an empty one, the peak of memory, and what is held once it is open, for
  each document;
- 100,000 Gets at random of documents that are on disk, from the reply to a Noop before them to the reply to one behind them.
"""
import os
import pathlib
import random
import struct
import subprocess
import sys
import tempfile
import threading

DOCUMENTS, GETS = 600_000, 100_000
VALUE = bytes(range(100))
TOP = pathlib.Path(__file__).resolve().parent.parent
PROGRAM = pathlib.Path(sys.argv[1] if len(sys.argv) > 1 else TOP / "crates/hawoyefa/out/hawoyefa").resolve()

GET, NOOP, SETQ = 0x00, 0x0A, 0x11
ASKED = struct.pack(">BBHBBHIIQ", 0x80, NOOP, 0, 0, 0, 0, 0, 7, 0)
REPLY = struct.pack(">BBHBBHIIQ", 0x81, NOOP, 0, 0, 0, 0, 0, 7, 0)


def frame(opcode: int, extras: bytes, key: bytes, value: bytes) -> bytes:
    """A request frame with magic 80 for vbucket 0."""
    body = len(extras) + len(key) + len(value)
    return struct.pack(">BBHBBHIIQ", 0x80, opcode, len(key), len(extras), 0, 0, body, 0, 0) + extras + key + value


def run(words: list[str], path: str) -> tuple[float, int]:
    """Processor seconds and peak memory in bytes of one run over an input; its replies go nowhere."""
    with open(path, "rb") as source, open(os.devnull, "wb") as sink:
        child = subprocess.Popen([str(PROGRAM), *words], stdin=source, stdout=sink)
        _, status, usage = os.wait4(child.pid, 0)
    if status != 0:
        sys.exit(f"the program ended with status {status}")
    return usage.ru_utime + usage.ru_stime, usage.ru_maxrss * 1024


def taken(child: subprocess.Popen) -> float:
    """The processor seconds that a program has taken so far."""
    return int(pathlib.Path(f"/proc/{child.pid}/schedstat").read_text().split()[0]) / 1e9


def held(child: subprocess.Popen) -> int:
    """How many bytes of memory a program holds now."""
    line = next(l for l in pathlib.Path(f"/proc/{child.pid}/status").read_text().splitlines() if l.startswith("VmRSS:"))
    return int(line.split()[1]) * 1024


def answered(child: subprocess.Popen, part: bytes) -> None:
    """Feeds requests and a Noop, and takes all replies up to its own."""
    writer = threading.Thread(target=lambda: child.stdin.write(part + ASKED))
    writer.start()
    tail = b""
    while not tail.endswith(REPLY):
        piece = child.stdout.read(1 << 20)
        if not piece:
            sys.exit("the program ended before it had answered")
        tail = (tail + piece)[-len(REPLY) :]
    writer.join()


def opened(store: str, part: bytes) -> tuple[float, int, float]:
    """The seconds of an opening, the memory held behind it, and the seconds of what comes then."""
    child = subprocess.Popen([str(PROGRAM), "pipe", store], stdin=subprocess.PIPE, stdout=subprocess.PIPE, bufsize=0)
    answered(child, b"")
    seconds, memory = taken(child), held(child)
    answered(child, part)
    more = taken(child) - seconds
    child.stdin.close()
    child.wait()
    return seconds, memory, more


def main() -> None:
    places = random.Random(1)
    gets = b"".join(frame(GET, b"", b"key-%07d" % places.randrange(DOCUMENTS), b"") for _ in range(GETS))
    with tempfile.TemporaryDirectory() as work:
        load, nothing, store, empty = (os.path.join(work, name) for name in ("load", "nothing", "store", "empty"))
        with open(load, "wb") as out:
            for i in range(DOCUMENTS):
                out.write(frame(SETQ, bytes(8), b"key-%07d" % i, VALUE))
        open(nothing, "wb").close()
        seconds, _ = run(["pipe"], load)
        print(f"pipe       {seconds:7.2f} s for {DOCUMENTS} documents  {DOCUMENTS / seconds:>9.0f} a second")
        seconds, _ = run(["pipe", store], load)
        size = os.path.getsize(store)
        print(
            f"pipe FILE  {seconds:7.2f} s for as many  {DOCUMENTS / seconds:>9.0f} a second  "
            f"a file of {size / 1e6:.1f} MB, {size / DOCUMENTS:.0f} bytes a document"
        )
        _, peak = run(["pipe", store], nothing)
        run(["pipe", empty], nothing)
        none, least, _ = opened(empty, b"")
        seconds, memory, more = opened(store, gets)
        print(
            f"opening    {seconds:7.2f} s, {none:.2f} s of an empty file  peak {peak / 1e6:.1f} MB  "
            f"held {memory / 1e6:.1f} MB, {(memory - least) / DOCUMENTS:.0f} bytes a document"
        )
        print(f"Gets       {more:7.2f} s for {GETS} of documents on disk  {GETS / more:>9.0f} a second")


if __name__ == "__main__":
    main()
