#!/usr/bin/env python3
"""Times look-ups and edits of JSON documents by the proved program, beside what python3's json.loads takes for the same text
in the same run. Seconds are those of the processor, user and system together; peak memory is that of the whole process.

    bench/subdoc.py [PROGRAM]     default: crates/hawoyefa/out/hawoyefa

- Get, DictUpsert and ArrayPushLast at the end of a document of 1 MiB of small objects: the difference of two runs of which
  one has more of them, divided by how many more it has.
- Sixteen Gets in one request at the end of that document, sixteen DictUpserts, and sixteen Gets in an attribute of nearly
  1 MiB, timed likewise.
- One Set of a text of 20 MiB, which is judged once, and one Get of its last element, which is judged once more: a text of
  `[],` over and over, one of `1,` over and over, and one long string; less what a Set and a Get of as many bytes that are
  no JSON take.
- The peak memory of one edit of a document of 20 MiB.
"""
import json
import pathlib
import struct
import subprocess
import sys
import tempfile

TOP = pathlib.Path(__file__).resolve().parent.parent
PROGRAM = pathlib.Path(sys.argv[1] if len(sys.argv) > 1 else TOP / "crates/hawoyefa/out/hawoyefa").resolve()
SET, GET, LOOK, UPSERT, PUSH_LAST = 0x01, 0x00, 0xC5, 0xC8, 0xCB
MULTI_LOOK, MULTI_EDIT, XATTR = 0xD0, 0xD1, 0x04
MIB = 1 << 20


def frame(opcode: int, extras: bytes, key: bytes, value: bytes) -> bytes:
    """A request frame with magic 80 for vbucket 0."""
    body = len(extras) + len(key) + len(value)
    return struct.pack(">BBHBBHIIQ", 0x80, opcode, len(key), len(extras), 0, 0, body, 0, 0) + extras + key + value


def part(opcode: int, path: bytes, value: bytes = b"") -> bytes:
    """A request on a part of the document `d`."""
    return frame(opcode, struct.pack(">HB", len(path), 0), b"d", path + value)


def looks(paths: list[bytes], flags: int = 0) -> bytes:
    """A request of Gets at these paths of the document `d`."""
    specs = (struct.pack(">BBH", LOOK, flags, len(path)) + path for path in paths)
    return frame(MULTI_LOOK, b"", b"d", b"".join(specs))


def upserts(paths: list[bytes], value: bytes, flags: int = 0) -> bytes:
    """A request of DictUpserts at these paths of the document `d`."""
    specs = (struct.pack(">BBHI", UPSERT, flags, len(path), len(value)) + path + value for path in paths)
    return frame(MULTI_EDIT, b"", b"d", b"".join(specs))


def stored(text: bytes) -> bytes:
    """A Set of the document `d`."""
    return frame(SET, bytes(8), b"d", text)


def timed(whole: bytes) -> tuple[float, int]:
    """The processor seconds of one run over these bytes, and its peak memory in MiB."""
    with tempfile.NamedTemporaryFile() as file:
        file.write(whole)
        file.flush()
        measure = (
            "import resource, subprocess, sys\n"
            "ended = subprocess.run([sys.argv[1], 'pipe'], stdin=open(sys.argv[2], 'rb'), stdout=subprocess.DEVNULL)\n"
            "used = resource.getrusage(resource.RUSAGE_CHILDREN)\n"
            "print(ended.returncode, used.ru_utime + used.ru_stime, used.ru_maxrss)\n"
        )
        words = [sys.executable, "-c", measure, str(PROGRAM), file.name]
        status, seconds, peak = subprocess.run(words, capture_output=True, text=True, check=True).stdout.split()
    if status != "0":
        sys.exit(f"the program ended with status {status}")
    return float(seconds), int(peak) // 1024


def loads(text: bytes) -> float:
    """The processor seconds of json.loads over this text, in a process of its own."""
    with tempfile.NamedTemporaryFile() as file:
        file.write(text)
        file.flush()
        measure = (
            "import json, sys, time\n"
            "text = open(sys.argv[1], 'rb').read()\n"
            "begun = time.process_time()\n"
            "value = json.loads(text)\n"
            "print(time.process_time() - begun)\n"
        )
        words = [sys.executable, "-c", measure, file.name]
        return float(subprocess.run(words, capture_output=True, text=True, check=True).stdout)


def small_objects() -> bytes:
    """A document of 1 MiB: a list of small objects, and behind it a member of two."""
    items, size = [], 0
    while size < MIB:
        item = {"id": len(items), "name": "item %d" % len(items), "tags": ["a", "b"], "price": 12.5}
        items.append(item)
        size += len(json.dumps(item)) + 2
    return json.dumps({"items": items, "last": {"a": 1, "b": [2]}}).encode()


def at_the_end() -> None:
    text = small_objects()
    print(f"a document of {len(text)} bytes of small objects; json.loads {loads(text) * 1000:.1f} ms")
    for name, one in (
        ("Get last.a", part(LOOK, b"last.a")),
        ("DictUpsert last.a", part(UPSERT, b"last.a", b"3")),
        ("ArrayPushLast last.b", part(PUSH_LAST, b"last.b", b"3")),
    ):
        few, _ = timed(stored(text) + one * 4)
        many, _ = timed(stored(text) + one * 36)
        print(f"  {name:<22} {(many - few) / 32 * 1000:6.1f} ms", flush=True)


def sixteen() -> None:
    text = small_objects()
    members = [b"last.m%d" % number for number in range(16)]
    begun = stored(text) + upserts(members, b"1")
    attribute = small_objects()[: -len(b', "last": {"a": 1, "b": [2]}}')] + b', "l": 1}'
    attribute = attribute[: attribute.index(b"{", 900_000) - 2] + b'], "l": 1}'
    kept = stored(b"{}") + upserts([b"a"], attribute, XATTR)
    for name, start, one in (
        ("16 Gets", begun, looks(members)),
        ("16 DictUpserts", begun, upserts(members, b"2")),
        ("16 Gets of an attribute", kept, looks([b"a.l"] * 16, XATTR)),
        ("1 Get of an attribute", kept, looks([b"a.l"], XATTR)),
    ):
        few, _ = timed(start + one * 2)
        many, _ = timed(start + one * 18)
        print(f"  {name:<24} {(many - few) / 16 * 1000:6.1f} ms a request", flush=True)
    print(f"  the attribute has {len(attribute)} bytes; json.loads {loads(attribute) * 1000:.1f} ms")


def filled(piece: bytes, last: bytes) -> bytes:
    """A list of 20 MiB of such elements."""
    return b"[" + piece * ((20 * MIB - len(last) - 2) // len(piece)) + last + b"]"


def large() -> None:
    plain, _ = timed(stored(b"x" * (20 * MIB)) + frame(GET, b"", b"d", b""))
    for name, text in (
        ("[], over and over", filled(b"[],", b"[]")),
        ("1, over and over", filled(b"1,", b"1")),
        ("one long text", b'["' + b"x" * (20 * MIB - 4) + b'"]'),
    ):
        judged, _ = timed(stored(text) + frame(GET, b"", b"d", b""))
        looked, peak = timed(stored(text) + part(LOOK, b"[-1]"))
        print(f"20 MiB of {name}: json.loads {loads(text):.2f} s")
        print(f"  judged {max(judged - plain, 0):.2f} s; a look at its last element {max(looked - judged, 0):.2f} s, peak {peak} MiB", flush=True)


def main() -> None:
    at_the_end()
    sixteen()
    large()
    text = b"[" + b"1," * (10 * MIB - 8) + b"1]"
    _, peak = timed(stored(text) + part(PUSH_LAST, b"", b"2"))
    print(f"one ArrayPushLast in {len(text) / MIB:.0f} MiB of 1, over and over: peak {peak} MiB")


if __name__ == "__main__":
    main()
