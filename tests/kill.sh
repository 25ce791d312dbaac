#!/bin/sh
# Kills the program in the midst of runs of `pipe FILE`, and looks at what each leaves in the file.
#
#     tests/kill.sh PROGRAM [REPLIES|flush..]
#
# A first run ends by itself and so puts a document on disk. Then for each further word, or where there is none for those below,
# a run sets one document after another, and is killed: once so many are answered, or at `flush` as soon as the file grows, which
# it does at the flush before each Set behind 16,384 others. Behind each the file has to open, the first document has to be as it
# was set, and of the killed run's documents those that are there have to be its first ones, each as it was set.
#
# The status is 0 where all of that is so; else it is 1, a line says what isn't, and the file is kept. It is 2 for other words.
set -u

usage() {
    echo "usage: $0 PROGRAM [REPLIES|flush..]" >&2
    exit 2
}

[ $# -ge 1 ] || usage
program=$1
shift
[ $# -ge 1 ] || set -- 1 1000 flush flush flush flush 20000 50000 flush flush
for wanted in "$@"; do
    case $wanted in
    flush) ;;
    '' | *[!0-9]*) usage ;;
    esac
done

work=$(mktemp -d) || exit 2
store=$work/store
running=

fail() {
    [ -z "$running" ] || kill -KILL "$running" 2> /dev/null
    echo "kill.sh: $1; see $work" >&2
    exit 1
}

# frames first|sets|gets|check ROUND COUNT: the Set of the first document; Sets of the documents of a round, for as long as they
# are taken; quiet Gets of so many of them; and the check of what these were answered, which prints how many are there.
frames() {
    python3 -c '
import itertools, struct, sys

GET, SET, QUIT, GETQ = 0x00, 0x01, 0x07, 0x09
KEPT, LAST = b"kept", b"as it was set"

def frame(opcode, opaque, extras, key, value):
    body = len(extras) + len(key) + len(value)
    head = struct.pack(">BBHBBHIIQ", 0x80, opcode, len(key), len(extras), 0, 0, body, opaque, 0)
    return head + extras + key + value

def document(round, number):
    return b"%d of %d" % (number, round), (b"%d " % number * 500)[:1000]

def replies(data):
    at = 0
    while at < len(data):
        _, opcode, _, extras, _, status, body, opaque, _ = struct.unpack_from(">BBHBBHIIQ", data, at)
        yield opcode, status, opaque, data[at + 24 + extras : at + 24 + body]
        at += 24 + body

def put(*parts):
    sys.stdout.buffer.write(b"".join(parts))

def sets(round, _):
    for number in itertools.count():
        put(frame(SET, number, bytes(8), *document(round, number)))

def gets(round, count):
    put(*(frame(GETQ, number, b"", document(round, number)[0], b"") for number in range(count)))
    put(frame(GET, 0, b"", KEPT, b""), frame(QUIT, 0, b"", b"", b""))

def check(round, _):
    *found, kept, quit = replies(sys.stdin.buffer.read())
    if kept != (GET, 0, 0, LAST) or quit != (QUIT, 0, 0, b""):
        sys.exit("the first document is not as it was set")
    if found != [(GETQ, 0, number, document(round, number)[1]) for number in range(len(found))]:
        sys.exit("what is there is not the front of what was set")
    print(len(found))

def first(*_):
    put(frame(SET, 0, bytes(8), KEPT, LAST))

try:
    {"first": first, "sets": sets, "gets": gets, "check": check}[sys.argv[1]](int(sys.argv[2]), int(sys.argv[3]))
except BrokenPipeError:
    sys.stdout = None
' "$@"
}

frames first 0 0 | "$program" pipe "$store" > "$work/out" || fail "the first run ended with the status $?"
mkfifo "$work/in" || exit 2

round=0
for wanted in "$@"; do
    round=$((round + 1))
    : > "$work/out"
    # An opening adds some hundred bytes to the file, a flush of so many documents millions. A reply to a Set has 24 bytes.
    case $wanted in
    flush) watched=$store least=$(($(wc -c < "$store") + 65536)) ;;
    *) watched=$work/out least=$((24 * wanted)) ;;
    esac
    "$program" pipe "$store" < "$work/in" > "$work/out" 2> "$work/told" &
    running=$!
    frames sets "$round" 0 > "$work/in" &
    feeder=$!
    while [ "$(wc -c < "$watched")" -lt "$least" ]; do
        kill -0 "$running" 2> /dev/null || fail "run $round ended by itself"
    done
    kill -KILL "$running"
    wait "$running" 2> /dev/null
    status=$?
    running=
    wait "$feeder"
    [ "$status" -eq 137 ] || fail "run $round ended with the status $status, and not as one that was killed"
    answered=$(($(wc -c < "$work/out") / 24))

    # More were sent than answered, but no more than fit into a pipe and what the program holds.
    frames gets "$round" $((answered + 5000)) > "$work/gets"
    "$program" pipe "$store" < "$work/gets" > "$work/got" || fail "the file didn't open behind run $round: status $?"
    there=$(frames check "$round" 0 < "$work/got") || fail "behind run $round"
    echo "killed behind $answered replies: $there documents are there"
done
rm -r "$work"
