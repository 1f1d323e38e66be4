#!/usr/bin/env python3
"""Measures the six calls and a replay: the same by drive or replay and by the second program, beside each other.

Each case of a call is a script of one call with its table and state. Both programs make that call N times from the same state, once
for a small and once for a larger N; the difference, divided, is one call's cost, so that starting up and reading the script
do not count. A replay costs what it takes beyond that of a capture with no entries.
Instructions are counted by valgrind's callgrind, so that each run gives the same.
Prints a table and writes docs/bench.svg. Where asn1c is installed, its bare decode of P2 is counted beside our whole receive.
"""

import argparse
import pathlib
import re
import shutil
import struct
import subprocess
import sys
import tempfile

HERE = pathlib.Path(__file__).resolve().parent
TOP = HERE.parent.parent
DRIVE = str(TOP / "crates/drive/out/drive")
REPLAY = str(TOP / "crates/replay/out/replay")
SECOND = str(TOP / "tests/second/target/release/second")
TABLE, STATE, RECEIVE, INVOKE, RESULT, ERROR, REJECT, FORGET = range(8)


def frame(kind, payload=b"", lent=0, number=0, code=0, detail=0):
    return struct.pack(">BBHiiiH", kind, detail, lent, number, code, 0, len(payload)) + payload


def table(operations, errors=(), pairs=(), children=()):
    parts = [b"".join(struct.pack(form, *entry) for entry in entries)
             for form, entries in ((">iBBBB", operations), (">iBB", errors), (">HH", pairs), (">HH", children))]
    header, offset = b"", 16
    for part, count in zip(parts, map(len, (operations, errors, pairs, children))):
        header += struct.pack(">HH", count, offset)
        offset += len(part)
    return header + b"".join(parts)


def named_table(names, *entries):
    """The same of edition 2; an operation's code is a name's index where its flags have 4, an error's where they have 2."""
    first = table(*entries)
    moved = b"".join(struct.pack(">HH", count, offset + 8) for count, offset in struct.iter_unpack(">HH", first[:16]))
    last = b"".join(struct.pack(">B16s", len(name), name) for name in names)
    return struct.pack(">HH", 65535, 2) + moved + struct.pack(">HH", len(names), len(first) + 8) + first[16:] + last


def state(own=(), peer=()):
    return b"".join(struct.pack(">H", len(side)) + b"".join(struct.pack(">ii", *record) for record in side) + bytes(8 * (32 - len(side)))
                    for side in (own, peer))


def named_state(own=(), peer=()):
    """The same with names for codes, 1,348 octets."""
    return b"".join(struct.pack(">H", len(side)) + b"".join(struct.pack(">iB16s", number, len(name), name) for number, name in side)
                    + bytes(21 * (32 - len(side))) for side in (own, peer))


def resting_state(ids, own=()):
    """Local own records and resting ids, 1,606 octets."""
    records = b"".join(struct.pack(">iBi12x", number, 0, code) for number, code in own) + bytes(21 * (32 - len(own)))
    return struct.pack(">H", len(own)) + records + bytes(2 + 21 * 32) + struct.pack(">H64i", len(ids), *ids, *[0] * (64 - len(ids)))


def kept_state(answers, peer=()):
    """Local peer records and kept answers, 5,752 octets."""
    records = b"".join(struct.pack(">iBi12x", number, 0, code) for number, code in peer) + bytes(21 * (32 - len(peer)))
    store = b"".join(struct.pack(">iH512s", number, len(octets), octets) for number, octets in answers) + bytes(518 * (8 - len(answers)))
    return bytes(2 + 21 * 32) + struct.pack(">H", len(peer)) + records + bytes(2 + 4 * 64) + struct.pack(">H", len(answers)) + store


def element(identifier, contents):
    size = len(contents)
    if size < 0x80:
        return bytes([identifier, size]) + contents
    octets = size.to_bytes(2 if size > 255 else 1, "big")
    return bytes([identifier, 0x80 + len(octets)]) + octets + contents


def closed(identifier, contents):
    """The same with an indefinite length."""
    return bytes([identifier, 0x80]) + contents + bytes(2)


def nested(octets, deep, around=element):
    """An Invoke of so many octets; its argument is so many elements, one inside the other, the innermost full of integers."""
    def invoke(integers, rest):
        value = b"\x02\x01\x05" * integers + (element(4, bytes(rest - 2)) if rest >= 2 else b"")
        for _ in range(deep):
            value = around(0x30, value)
        return around(0xA1, b"\x02\x01\x05\x02\x01\x07" + value)
    for integers in range(octets // 3, -1, -1):
        for rest in (0, 2, 3, 4, 5):
            apdu = invoke(integers, rest)
            if len(apdu) == octets:
                return apdu
    raise ValueError("no such APDU")


T = bytes.fromhex("00010010000100180001001E000000220000000702020200000000010000" "00000000")
WIDE = table([(7, 2, 0x30, 0x30, 3)])
FULL = table([(i - 96, 2, 2, 2, 3) for i in range(64)], [(i - 32, 2, 1) for i in range(64)],
             [(i // 4, i % 4 * 16) for i in range(256)], [(i // 4, i % 4 * 16) for i in range(256)])
KIOSK = table([(7, 2, 2, 2, 2)], [(1, 0, 0)], [(0, 0)])
P2 = bytes.fromhex("A20B020105300602010702 0100".replace(" ", ""))
P3 = bytes.fromhex("A306020105020101")
P4 = bytes.fromhex("A203020105")
ONE = state(own=[(5, 7)])
ASKED = state(peer=[(5, 7)])
PROBED = table([(-3, 2, 2, 10, 0), (-2, 2, 0x30, 10, 0), (7, 2, 2, 4, 0)])
NAME = bytes.fromhex("2B0601")
NAMED = named_table([NAME], [(0, 2, 2, 2, 4)], [(1, 0, 0)], [(0, 0)])
NAMES = [bytes([0x2B, i]) + bytes(range(1, 15)) for i in range(128)]
FULL_NAMED = named_table(NAMES, [(i, 2, 2, 2, 7) for i in range(64)], [(i + 64, 2, 3) for i in range(64)],
                         [(i // 4, i % 4 * 16) for i in range(256)], [(i // 4, i % 4 * 16) for i in range(256)])


def cases():
    def case(name, octets, image, call):
        return name, frame(TABLE, octets) + frame(STATE, image) + call
    yield case("P1: invoke", T, state(own=[(4, 7)]), frame(INVOKE, b"\x02\x01\x03", 64, 5, 7))
    yield case("P2: receive a result", T, ONE, frame(RECEIVE, P2, 11))
    yield case("P3: receive an error", T, ONE, frame(RECEIVE, P3, 11))
    yield case("P4: receive, refused with 18", T, ONE, frame(RECEIVE, P4, 11))
    yield case("result", T, ASKED, frame(RESULT, b"\x02\x01\x0c", 64, 5))
    yield case("error", T, ASKED, frame(ERROR, b"", 64, 5, 1))
    for deep in (1, 8, 14):  # 14 make 16 levels, with the APDU around them and the integers inside
        for octets in (64, 512, 4096):
            yield case(f"receive {octets} octets, argument nested {deep}", WIDE, state(), frame(RECEIVE, nested(octets, deep), 11))
        yield case(f"receive 4096 octets, nested {deep}, indefinite lengths", WIDE, state(), frame(RECEIVE, nested(4096, deep, closed), 11))
    rested = resting_state(range(100, 164), own=[(5, 7)])
    yield case("64 resting ids: invoke", T, rested, frame(INVOKE, b"\x02\x01\x03", 64, 6, 7))
    yield case("64 resting ids: receive a result", T, rested, frame(RECEIVE, P2, 11))
    yield case("64 resting ids: forget", T, rested, frame(FORGET, number=5))
    def answered(number, octets=1):
        """The answer of invocation number with a value of so many octets: with 496 the answer is as long as one kept can be."""
        return element(0xA2, element(2, bytes([number])) + element(0x30, b"\x02\x01\x07" + element(4, bytes(octets))))
    held = [(number, answered(number)) for number in range(1, 9)]
    largest = [(number, answered(number, 494)) for number in range(1, 9)]
    assert len(largest[0][1]) == 512
    probe = bytes.fromhex("A10D 02010C 0201FE 3005A003 020108".replace(" ", ""))
    yield case("probe of a running invocation", PROBED, kept_state([], peer=[(8, 7)]), frame(RECEIVE, probe, 528))
    yield case("probe that finds its answer, 8 short ones kept", PROBED, kept_state(held), frame(RECEIVE, probe, 528))
    yield case("probe that finds its answer, 8 of 512 octets kept", PROBED, kept_state(largest), frame(RECEIVE, probe, 528))
    yield case("acknowledge of the oldest, 8 of 512 octets kept", PROBED, kept_state(largest),
               frame(RECEIVE, bytes.fromhex("A109 02010C 0201FD 020101".replace(" ", "")), 528))
    yield case("result of 512 octets, 8 of 512 octets kept", PROBED, kept_state(largest, peer=[(9, 7)]),
               frame(RESULT, element(4, bytes(494)), 4096, 9))
    records = [(i, i - 96) for i in range(32)]
    answer = bytes.fromhex("A20B02011F30060201BF02010C")
    yield case("32 + 32 records, full table: receive a result", FULL, state(own=records, peer=records), frame(RECEIVE, answer, 11))
    yield case("by name: invoke", NAMED, named_state(own=[(4, NAME)]), frame(INVOKE, b"\x03" + NAME + b"\x02\x01\x03", 64, 5, detail=2))
    yield case("by name: receive a result", NAMED, named_state(own=[(5, NAME)]),
               frame(RECEIVE, element(0xA2, b"\x02\x01\x05" + element(0x30, element(6, NAME) + b"\x02\x01\x00")), 11))
    named = [(i, NAMES[i]) for i in range(32)]
    yield case("by name, 32 + 32 records, full table: receive a result", FULL_NAMED, named_state(own=named, peer=named),
               frame(RECEIVE, element(0xA2, b"\x02\x01\x1F" + element(0x30, element(6, NAMES[31]) + b"\x02\x01\x0C")), 11))


def capture(entries):
    index, data, start = b"", b"", 8 + 8 * len(entries)
    for kind, octets in entries:
        index += struct.pack(">BBHI", kind, 0, len(octets), start + len(data))
        data += octets
    return struct.pack(">II", len(entries), start) + index + data


def day(count):
    """So many entries, ten after ten: a reading, an error, an answer that comes after the forget and gets a Reject, no value."""
    def number(value):
        return element(2, value.to_bytes(value.bit_length() // 8 + 1, "big"))
    entries = []
    for first in range(1, 2 * count, 20):
        ids = [number(first + place) for place in range(4)]
        asked = [(1, element(0xA1, each + number(7) + number(3))) for each in ids]
        result = [(0, element(0xA2, each + element(0x30, number(7) + number(12)))) for each in ids]
        entries += [asked[0], result[0], asked[1], (0, element(0xA3, ids[1] + number(1))),
                    asked[2], (2, struct.pack(">Bi", 0, first + 2)), result[2], (1, element(0xA4, ids[2] + b"\x82\x01\x00")),
                    asked[3], (0, element(0xA2, ids[3]))]
    return capture(entries[:count])


def instructions(command, script=b""):
    with tempfile.TemporaryDirectory() as folder:
        counted = ["valgrind", "--tool=callgrind", f"--callgrind-out-file={folder}/out", *command]
        done = subprocess.run(counted, input=script, capture_output=True, check=True)
        return int(re.search(rb"Collected : (\d+)", done.stderr).group(1)), done.stdout


def call_cost(program, script):
    """Instructions of one call, and the line that it answered."""
    (few, line), (many, again) = instructions([*program, "100"], script), instructions([*program, "1100"], script)
    assert line == again, "another answer the second time"
    return (many - few) / 1000, line


def replay_cost(program, octets):
    """Instructions of a replay beyond one of no entries, and the line that it answered."""
    with tempfile.TemporaryDirectory() as folder:
        names = [str(pathlib.Path(folder) / name) for name in ("table", "none", "day")]
        for name, contents in zip(names, (KIOSK, capture([]), octets)):
            pathlib.Path(name).write_bytes(contents)
        (none, _), (all_of_it, line) = instructions([*program, names[0], names[1]]), instructions([*program, names[0], names[2]])
        assert line.endswith(b" agree\n"), f"the day does not agree: {line}"
        return all_of_it - none, line


def row(name, cost, ours, theirs, given):
    (our_cost, line), (their_cost, their_line) = cost(ours, given), cost(theirs, given)
    assert line == their_line, f"{name}: the two answer differently:\n{line}{their_line}"
    return name, our_cost, their_cost, our_cost / their_cost


def rows_of(word, drive, replay):
    """The rows whose name contains a word."""
    for name, script in cases():
        if word in name:
            yield row(name, call_cost, [drive], [SECOND, "repeat"], script)
    for count in (250, 500, 1000):
        name = f"replay {count:,} entries"
        if word in name:
            yield row(name, replay_cost, [replay], [SECOND, "replay"], day(count))


def asn1c():
    """Instructions of one bare decode of P2 by asn1c's decoder, or nothing where asn1c is not installed."""
    if not shutil.which("asn1c"):
        return None
    with tempfile.TemporaryDirectory() as folder:
        subprocess.run(["asn1c", "-fcompound-names", str(HERE / "rose.asn1")], cwd=folder, capture_output=True, check=True)
        (pathlib.Path(folder) / "converter-sample.c").unlink()
        sources = sorted(str(path) for path in pathlib.Path(folder).glob("*.c"))
        program = [f"{folder}/decode"]
        subprocess.run(["gcc", "-O2", "-w", f"-I{folder}", "-o", *program, *sources, str(HERE / "decode.c")], check=True)
        return (instructions([*program, "1100"])[0] - instructions([*program, "100"])[0]) / 1000


def picture(rows):
    """A bar for each case: our instructions over the second program's, with a line at 1."""
    high, left, scale = 24, 320, 110
    most = max(3, *(r[3] for r in rows))
    width, height = int(left + most * scale + 70), high * len(rows) + 50
    out = [f'<svg xmlns="http://www.w3.org/2000/svg" viewBox="0 0 {width} {height}" role="img" '
           'aria-label="Instructions of a call, over those of the second program">',
           "<style>text{font:12px sans-serif;fill:#1b1f24}.bar{fill:#4a7fb5}.one{stroke:#1b1f24;stroke-dasharray:4 3}"
           "@media(prefers-color-scheme:dark){text{fill:#e6edf3}.bar{fill:#79b8ff}.one{stroke:#e6edf3}}</style>",
           f'<text x="{left}" y="16">instructions of a call, over those of the second program</text>']
    for place, (name, _, _, ratio) in enumerate(rows):
        y = 30 + place * high
        out.append(f'<text x="{left - 8}" y="{y + 12}" text-anchor="end">{name}</text>'
                   f'<rect class="bar" x="{left}" y="{y}" width="{ratio * scale:.0f}" height="16"/>'
                   f'<text x="{left + max(ratio, 1) * scale + 6:.0f}" y="{y + 12}">{ratio:.2f}</text>')
    out.append(f'<line class="one" x1="{left + scale}" x2="{left + scale}" y1="24" y2="{height - 14}"/></svg>')
    (TOP / "docs/bench.svg").write_text("\n".join(out) + "\n")


def arguments():
    parser = argparse.ArgumentParser(description=__doc__, formatter_class=argparse.RawDescriptionHelpFormatter)
    parser.add_argument("word", nargs="?", default="", help="only cases whose name contains it; no picture is written then")
    parser.add_argument("--drive", default=DRIVE, metavar="PATH", help="the drive to measure in place of crates/drive/out/drive")
    parser.add_argument("--replay", default=REPLAY, metavar="PATH", help="the replay to measure in place of crates/replay/out/replay")
    return parser.parse_args()


def main():
    given = arguments()
    for program in (given.drive, given.replay, SECOND):
        if not pathlib.Path(program).exists():
            sys.exit(f"bench: {program} is missing; make bench builds it")
    if not shutil.which("valgrind"):
        sys.exit("bench: valgrind is missing; it counts the instructions")
    print("| call | instructions | second's | ratio |\n|---|---|---|---|", flush=True)
    rows = []
    for measured in rows_of(given.word, given.drive, given.replay):
        rows.append(measured)
        print("| {} | {:,.0f} | {:,.0f} | {:.2f} |".format(*measured), flush=True)
    bare = asn1c()
    for name, ours, *_ in rows:
        if bare and name.startswith("P2"):
            print(f"\nasn1c's bare decode of P2: {bare:,.0f} instructions; our whole receive of P2 is {ours / bare:.2f} of it")
    if not given.word:
        picture(rows)


main()
