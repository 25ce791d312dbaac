#!/usr/bin/env python3
"""Times input that is made to cost more than its bytes: each at three sizes, of which each is twice the one before. What
grows no faster than the input takes at most about twice as long at each step; a line says how many times as long.

    bench/hostile.py [PROGRAM]     default: crates/hawoyefa/out/hawoyefa

Seconds are those of the processor, from the reply to a Noop behind what is there first to the reply to one behind the
input: the best of three runs.
"""
import pipe
from pipe import HELLO, SET_MANIFEST, SETQ, frame, leb128

MANY = 1_200


def manifest(uid: int, collections: list[tuple[str, int]]) -> bytes:
    """A manifest of this uid with these collections in scope 0."""
    named = ",".join('{"name":"%s","uid":"%x"}' % (name, number) for name, number in collections)
    return ('{"uid":"%x","scopes":[{"name":"_default","uid":"0","collections":[%s]}]}' % (uid, named)).encode()


def set_manifest(text: bytes) -> bytes:
    return frame(SET_MANIFEST, 0, b"", b"", text)


def numbered(first: int, count: int) -> list[tuple[str, int]]:
    return [("c%x" % i, i) for i in range(first, first + count)]


def nothing(out) -> None:
    """What is there first: nothing."""


def refused_text(collections: int):
    """Ten thousand refused texts of some 50 bytes over a manifest with so many collections."""

    def first(out) -> None:
        out.write(set_manifest(manifest(5, numbered(8, collections))))

    def asked(out) -> None:
        small = set_manifest(manifest(1, []))
        for _ in range(10_000):
            out.write(small)

    return first, asked


def chosen_ids(count: int):
    """A text with so many collections, whose ids have one low half; it is refused for their number."""

    def asked(out) -> None:
        text = manifest(1, [("c", 0x10000 * (i + 1) & 0xFFFFFFFF) for i in range(count)])
        for _ in range(10):
            out.write(set_manifest(text))

    return nothing, asked


def long_names(count: int):
    """A manifest with so many names of 251 bytes, all but the last four equal."""

    def asked(out) -> None:
        for uid in range(1, 11):
            out.write(set_manifest(manifest(uid, [("n" * 247 + "%04x" % i, i + 8) for i in range(count)])))

    return nothing, asked


def dropped_ids(rounds: int):
    """Ten manifests of 1,200 collections behind so many rounds that each dropped 1,200 others."""

    def first(out) -> None:
        for i in range(rounds):
            out.write(set_manifest(manifest(i + 1, numbered(8 + MANY * i, MANY))))

    def asked(out) -> None:
        for i in range(10):
            out.write(set_manifest(manifest(rounds + 1 + i, numbered(8 + MANY * rounds, MANY)[: MANY - i])))

    return first, asked


def dropped_documents(documents: int):
    """A manifest that drops a collection with so many documents."""

    def first(out) -> None:
        out.write(frame(HELLO, 0, b"", b"", b"\x00\x12"))
        out.write(set_manifest(manifest(1, numbered(8, 2))))
        for i in range(documents):
            out.write(frame(SETQ, 0, bytes(8), leb128(8) + b"key-%07d" % i, b"v"))

    def asked(out) -> None:
        out.write(set_manifest(manifest(2, numbered(9, 1))))

    return first, asked


def nested_text(size: int):
    """Texts of opening brackets alone, of so many bytes, as manifests."""

    def asked(out) -> None:
        for _ in range(10):
            out.write(set_manifest(b"[" * size))

    return nothing, asked


def features(count: int):
    """A Hello that asks for one feature so many times."""

    def asked(out) -> None:
        out.write(frame(HELLO, 0, b"", b"", b"\x00\x06" * count))

    return nothing, asked


def framing_extras(requests: int):
    """So many Gets with 255 framing extras that have no meaning."""

    def asked(out) -> None:
        section = b"\x20" * 255
        get = b"\x08\x00\xff\x01\x00\x00\x00\x00" + (256).to_bytes(4, "big") + bytes(12) + section + b"a"
        for _ in range(requests):
            out.write(get)

    return nothing, asked


ROWS = [
    ("10,000 refused texts, over collections", refused_text, (300, 600, 1_200)),
    ("10 texts of chosen ids", chosen_ids, (8_000, 16_000, 32_000)),
    ("10 manifests of long names", long_names, (300, 600, 1_200)),
    ("10 manifests behind dropped rounds", dropped_ids, (13, 26, 52)),
    ("a drop of documents", dropped_documents, (100_000, 200_000, 400_000)),
    ("10 texts of open brackets, bytes", nested_text, (250_000, 500_000, 1_000_000)),
    ("a Hello for features", features, (1_000_000, 2_000_000, 4_000_000)),
    ("Gets with 255 framing extras", framing_extras, (10_000, 20_000, 40_000)),
]


def main() -> None:
    for name, make, sizes in ROWS:
        seconds = [pipe.paced(*make(size)) for size in sizes]
        told = "  ".join(f"{size:>9}: {taken:7.4f} s" for size, taken in zip(sizes, seconds))
        growth = ", ".join(f"{after / before:.1f}" for before, after in zip(seconds, seconds[1:]))
        print(f"{name:<42} {told}   times as long: {growth}", flush=True)


if __name__ == "__main__":
    main()
