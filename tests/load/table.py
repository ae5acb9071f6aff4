"""The dictionary, written down from document 01 (and 6068h from ticket 2): its rows in order, and where each stands in the bytes."""
import re
from typing import NamedTuple

RECEIVE, TRANSMIT = "R", "T"
CONSTANT, NODE_WRITTEN, WRITABLE = "c", "o", "w"
PDOS = 4  # each way
COMMUNICATION, MAPPING = {RECEIVE: 0x1400, TRANSMIT: 0x1800}, {RECEIVE: 0x1600, TRANSMIT: 0x1A00}
MOST_MAPPED = 8
NAME = 0x1008  # the device name, which is no row

# index and subindex, type, access, then as document 01 says it: mappable (R or T), a default in hex, least..greatest in hex; N is the node-ID
BEFORE_PDOS = """
1000:0 u32 c 00020192    1001:0 u8 o T    1005:0 u32 c 80    1014:0 u32 c 80+N    1017:0 u16 w    1018:0 u8 c 1    1018:1 u32 c 0
"""
BEHIND_PDOS = """
603F:0 u16 o T    6040:0 u16 w R    6041:0 u16 o T    6060:0 i8 w R    6061:0 i8 o T    6064:0 i32 o T
6067:0 u32 w 0..7FFFFFFF    6068:0 u16 w    606C:0 i32 o T    606D:0 u16 w    606F:0 u16 w    607A:0 i32 w R
607D:0 u8 c 2    607D:1 i32 w 80000000    607D:2 i32 w 7FFFFFFF
6081:0 u32 w R    6083:0 u32 w R 1 1..FFFFFFFF    6084:0 u32 w R 1 1..FFFFFFFF    60FF:0 i32 w R    6502:0 u32 c 5
"""
# "PDO identifiers default to 200h-500h and, with bit 30, 180h-480h, in steps of 100h, plus N"
FIRST_IDENTIFIER = {RECEIVE: 0x200, TRANSMIT: 0x40000180}
# "Default maps"
MAPS = {
    RECEIVE: [[0x60400010], [0x60400010, 0x60600008], [0x60400010, 0x607A0020], [0x60400010, 0x60FF0020]],
    TRANSMIT: [[0x60410010], [0x60410010, 0x60610008], [0x60410010, 0x60640020], [0x60410010, 0x606C0020]],
}


class Row(NamedTuple):
    index: int
    subindex: int
    size: int
    access: str
    mappable: str  # RECEIVE, TRANSMIT or nothing
    default: int
    counts_from_node: bool  # the node-ID is added to the default
    least: int
    greatest: int  # of the bits, read as unsigned


class Pdo(NamedTuple):
    direction: str
    number: int  # from 0

    @property
    def communication(self):
        return COMMUNICATION[self.direction] + self.number

    @property
    def mapping(self):
        return MAPPING[self.direction] + self.number


EVERY_PDO = [Pdo(direction, number) for direction in (RECEIVE, TRANSMIT) for number in range(PDOS)]


def row(index, subindex, size, access, mappable="", default=0, counts=False, least=0, greatest=None):
    return Row(index, subindex, size, access, mappable, default, counts, least, 256**size - 1 if greatest is None else greatest)


def written_row(text):
    """A row of the lists above."""
    place, kind, access, *more = text.split()
    index, subindex = place.split(":")
    mappable, default, counts, least, greatest = "", 0, False, 0, None
    for word in more:
        if word in (RECEIVE, TRANSMIT):
            mappable = word
        elif ".." in word:
            least, greatest = (int(end, 16) for end in word.split(".."))
        else:
            default, counts = int(word.removesuffix("+N"), 16), word.endswith("+N")
    return row(int(index, 16), int(subindex), int(kind[1:]) // 8, access, mappable, default, counts, least, greatest)


def written_rows(text):
    return [written_row(part) for part in re.split(r"\s{2,}|\n", text.strip())]


def communication_rows(pdo):
    first = FIRST_IDENTIFIER[pdo.direction] + 0x100 * pdo.number
    return [row(pdo.communication, 0, 1, CONSTANT, default=2), row(pdo.communication, 1, 4, WRITABLE, default=first, counts=True),
            row(pdo.communication, 2, 1, WRITABLE, default=255)]


def mapping_rows(pdo):
    words = MAPS[pdo.direction][pdo.number]
    entries = words + [0] * (MOST_MAPPED - len(words))
    count = row(pdo.mapping, 0, 1, WRITABLE, default=len(words), greatest=MOST_MAPPED)
    return [count] + [row(pdo.mapping, k, 4, WRITABLE, default=word) for k, word in enumerate(entries, 1)]


def every_row():
    rows = written_rows(BEFORE_PDOS) + written_rows(BEHIND_PDOS)
    rows += [one for pdo in EVERY_PDO for one in communication_rows(pdo) + mapping_rows(pdo)]
    return {(one.index, one.subindex): one for one in sorted(rows)}


ROWS = every_row()
LENGTH = sum(one.size for one in ROWS.values())
assert len(ROWS) == 123 and LENGTH == 391  # ticket 2
