#!/usr/bin/env python3
"""make.py [--check]: the vectors of tests/load, worked out with the model of the documents and not with the node. NAME.in is a bench stream
that is run first, NAME.dcf the file that is then loaded, and NAME.out what must come of it: refusal, entry and abort code, and the
dictionary's bytes after it. It writes them; with --check it changes nothing, and says which file is not what it makes."""
import pathlib
import sys
from typing import NamedTuple

FOLDER = pathlib.Path(__file__).resolve().parent
sys.dont_write_bytecode = True
sys.path.insert(0, str(FOLDER))

from model import Entry, Node, Unknown, Verdict, file_of, little
from table import ROWS

FRAME, EVENT, POWER_UP = 1, 2, 3
STARTED, FEEDBACK, TICK, VOLTAGE = 1, 5, 7, 9
START = 0x01


class Vector(NamedTuple):
    stream: list  # of records
    file: bytes
    answer: Verdict  # written down by hand: the model must come to the same


# ---- records


def record(kind, payload):
    return little(len(payload), 2) + little(kind, 2) + payload


def power_up(number=5):
    return record(POWER_UP, bytes([number]))


def event(number, arguments=b""):
    return record(EVENT, bytes([number]) + arguments)


def nmt(command, number=5):
    return record(FRAME, little(0, 2) + bytes([command, number]))


def request(data, number=5):
    return record(FRAME, little(0x600 + number, 2) + data)


def written(index, subindex, value):
    """An expedited download to node 5, with its size told."""
    size = ROWS[index, subindex].size
    return request(bytes([0x23 + 4 * (4 - size)]) + little(index, 2) + bytes([subindex]) + little(value, size).ljust(4, b"\0"))


UP = [power_up(), event(STARTED), event(VOLTAGE, b"\1")]  # Switch on disabled


# ---- entries


def entry(index, subindex, value):
    """An entry of the object's own size."""
    return Entry(index, subindex, little(value, ROWS[index, subindex].size))


def entries(text):
    """Entries of a list 'INDEX:SUBINDEX VALUE, ..', values decimal or with 0x."""
    parts = [part.split() for part in text.split(",")]
    return [entry(*(int(number, 16) for number in place.split(":")), int(value, 0)) for place, value in parts]


PLAIN = """1017:0 500, 6067:0 50, 6068:0 20, 606D:0 100, 606F:0 10, 607D:1 -200000, 607D:2 150000, 6081:0 80000, 6083:0 400000, 6084:0 300000,
607A:0 -1, 60FF:0 -2500"""
# TPDO 3: position, velocity; RPDO 4: mode, target velocity, on SYNC; TPDO 2 on another identifier; TPDO 1 with nothing mapped
REMAP = """1802:1 0xC0000385, 1A02:0 0, 1A02:1 0x60640020, 1A02:2 0x606C0020, 1A02:0 2, 1802:2 1, 1802:1 0x40000385,
1403:1 0x80000505, 1603:0 0, 1603:1 0x60600008, 1603:2 0x60FF0020, 1603:0 2, 1403:2 0, 1403:1 0x505,
1801:1 0xC0000000, 1801:1 0x4000057F, 1800:1 0xC0000185, 1A00:0 0, 1800:1 0x40000185"""
# every range at one of its ends, on node 127
ENDS = """1017:0 65535, 1400:2 240, 1401:2 254, 1800:2 0, 6060:0 3, 6067:0 0x7FFFFFFF, 6068:0 65535, 606D:0 65535, 606F:0 65535,
607A:0 -2147483648, 607D:1 2147483647, 607D:2 2147483647, 607D:1 -2147483648, 6081:0 4294967295, 6083:0 4294967295, 6084:0 1,
60FF:0 2147483647"""
MAPPED_TO_72 = "1803:1 0xC0000485, 1A03:0 0, 1A03:1 0x60640020, 1A03:2 0x606C0020, 1A03:3 0x60610008, 1A03:0 3"


# ---- the vectors


def accepted():
    """Files that are loaded."""
    limits = [*UP, written(0x607D, 1, -10), written(0x607D, 2, 10)]
    waiting = [*UP, written(0x1017, 0, 100), *[event(TICK)] * 60]
    downloading = [request(bytes([0x21, 0x7A, 0x60, 0, 4, 0, 0, 0])), request(bytes([0x0A, 0x11, 0x22, 0, 0, 0, 0, 0]))]
    measured = event(FEEDBACK, little(-7000, 4) + little(12, 4))
    return {
        "plain": Vector([*UP, measured], file_of(entries(PLAIN)), Verdict(0)),
        "remap": Vector(UP, file_of(entries(REMAP)), Verdict(0)),
        "ends-127": Vector([power_up(127)], file_of(entries(ENDS)), Verdict(0)),
        "limits": Vector(limits, file_of(entries("607D:2 30, 607D:1 20, 607D:1 -30, 607D:2 -20, 607D:1 -20")), Verdict(0)),
        "mode-heartbeat": Vector(waiting, file_of(entries("6060:0 1, 1017:0 50, 6060:0 3")), Verdict(0)),
        "empty": Vector([*UP, written(0x6060, 0, 1)], file_of([]), Verdict(0)),
        "download-runs": Vector([*UP, *downloading], file_of(entries("607A:0 77, 6060:0 1")), Verdict(0)),
    }


def refused():
    """Files that are refused before any entry is tried. Each also has what a higher refusal is for."""
    missing = Entry(0x6042, 0, b"\0\0")
    enabling = [written(0x6040, 0, word) for word in (0x06, 0x07, 0x0F)]
    # in 32 bits the first entry would end at the file's start, and the second, whose head begins with the count, where the file does
    wraps = (little(2, 4) + little(0x0001, 2) + b"\0" + little(-4 - 7, 4)).ljust(7 + 0x0001 * 256, b"\0")
    return {
        "not-sound": Vector([], b"", Verdict(4)),
        "operational": Vector([*UP, nmt(START)], b"\1\0\0", Verdict(9)),
        "enabled": Vector([*UP, *enabling], file_of(entries(PLAIN)), Verdict(9)),
        "three-bytes": Vector(UP, b"\xff\xff\xff", Verdict(10)),
        "count-513": Vector(UP, file_of([missing] * 513)[:-1], Verdict(11)),
        "cut": Vector(UP, file_of([missing, Entry(0x6040, 0, b"\x0f\0"), *entries(PLAIN)])[:-1], Verdict(12)),
        "left-over": Vector(UP, file_of(entries(PLAIN)) + b"\0", Verdict(12)),
        "size-wraps": Vector(UP, wraps, Verdict(12)),
        "control-word": Vector(UP, file_of([missing, *entries("6081:0 5"), Entry(0x6040, 3, b"")]), Verdict(13)),
    }


def aborted():
    """Files of which an entry is refused: the first of them, one in the middle, the last."""
    long_one = entries("6081:0 5, 606F:0 9") * 255 + entries("6084:0 7, 6083:0 0")
    name = Entry(0x1008, 0, b"Feeder")
    taken = entries("1400:1 0x80000205, 1401:1 0x80000000, 1401:1 0x205, 1400:1 0x205")
    return {
        "no-object": Vector(UP, file_of([Entry(0x6042, 0, b"\0\0"), *entries(PLAIN)]), Verdict(14, 1, 0x06020000)),
        "no-subindex": Vector(UP, file_of([*entries(PLAIN), Entry(0x607D, 3, b"")]), Verdict(14, 13, 0x06090011)),
        "device-name": Vector(UP, file_of([*entries("6060:0 1"), name, *entries("6081:0 5")]), Verdict(14, 2, 0x06010002)),
        "size-0": Vector(UP, file_of([*entries("1017:0 5"), Entry(0x6081, 0, b"")]), Verdict(14, 2, 0x06070013)),
        "size-3": Vector(UP, file_of([Entry(0x6060, 0, b"\1\0\0"), Entry(0x607A, 0, b"\1\0\0")]), Verdict(14, 1, 0x06070012)),
        "size-5": Vector(UP, file_of([*entries(PLAIN), Entry(0x607A, 0, b"\1\0\0\0\0"), *entries(PLAIN)]), Verdict(14, 13, 0x06070012)),
        "mapped-valid": Vector(UP, file_of(entries("1400:1 0x80000205, 1600:0 0, 1601:0 0, 1401:1 0x80000305")), Verdict(14, 3, 0x08000022)),
        "mapped-to-72": Vector(UP, file_of(entries(MAPPED_TO_72)), Verdict(14, 6, 0x06040042)),
        "mapped-wrongly": Vector(UP, file_of(entries("1403:1 0x80000505, 1603:0 0, 1603:1 0x60410010")), Verdict(14, 3, 0x06040041)),
        "too-high": Vector(UP, file_of(entries("6067:0 0x80000000")), Verdict(14, 1, 0x06090031)),
        "too-low-512": Vector(UP, file_of(long_one), Verdict(14, 512, 0x06090032)),
        "mode-7": Vector([power_up()], file_of(entries("6060:0 1, 6060:0 7, 6060:0 3")), Verdict(14, 2, 0x06090030)),
        # the second sees the first: RPDO 1 gave its identifier up, RPDO 2 takes it, and RPDO 1 cannot have it back
        "sees-earlier": Vector(UP, file_of(taken), Verdict(14, 4, 0x06090030)),
        "limits-swapped": Vector(UP, file_of(entries("607D:1 100, 607D:2 100, 607D:2 99, 6081:0 5")), Verdict(14, 3, 0x06040043)),
    }


# ---- the files


def files_of(vector):
    """The three files, by suffix."""
    node = Node().run(b"".join(vector.stream))
    answer = node.load(vector.file)
    if answer != vector.answer:
        raise Unknown(f"the model answers {answer}, where {vector.answer} was written down")
    lines = f"{answer.refusal} {answer.entry} {answer.code:08X}\n{node.bytes().hex().upper()}\n"
    return {".in": b"".join(vector.stream), ".dcf": vector.file, ".out": lines.encode("ascii")}


def made():
    """Every file of the vectors, by name."""
    files = {}
    for name, vector in {**accepted(), **refused(), **aborted()}.items():
        files |= {name + suffix: content for suffix, content in files_of(vector).items()}
    return files


def wrong_files():
    """What is not as it is made."""
    right = made()
    found = {path.name: path.read_bytes() for path in FOLDER.iterdir() if path.suffix in (".in", ".dcf", ".out")}
    wrong = [name for name in sorted({**right, **found}) if right.get(name) != found.get(name)]
    return [f"tests/load/{name} is not what tests/load/make.py makes" for name in wrong]


def main(arguments):
    if arguments not in ([], ["--check"]):
        sys.exit("usage: tests/load/make.py [--check]")
    if not arguments:
        for name, content in made().items():
            (FOLDER / name).write_bytes(content)
    wrong = wrong_files()
    for sentence in wrong:
        print(sentence)
    return 1 if wrong else 0


if __name__ == "__main__":
    sys.exit(main(sys.argv[1:]))
