"""A model of the node as far as the streams and files of tests/load need it, written down from documents 01 and 02 and not from the node:
the dictionary, what an SDO download does to it, the NMT and drive states with the status word, and the load of a file.

A drive is enabled without a mode only: the model knows nothing of set-points. What else it does not know, it refuses to answer."""
from typing import NamedTuple

from table import EVERY_PDO, LENGTH, NAME, ROWS, TRANSMIT, WRITABLE

NO_OBJECT, NO_SUBINDEX, NO_WRITING, TOO_LONG, TOO_SHORT = 0x06020000, 0x06090011, 0x06010002, 0x06070012, 0x06070013
WRONG_TIME, TOO_LOW, TOO_HIGH, BAD_VALUE, SWAPPED = 0x08000022, 0x06090032, 0x06090031, 0x06090030, 0x06040043
NOT_MAPPABLE, TOO_MANY_BITS = 0x06040041, 0x06040042
CODES = (NO_OBJECT, NO_SUBINDEX, NO_WRITING, TOO_LONG, TOO_SHORT, WRONG_TIME, TOO_LOW, TOO_HIGH, BAD_VALUE, SWAPPED, NOT_MAPPABLE, TOO_MANY_BITS)

PRE_OPERATIONAL, OPERATIONAL, STOPPED = "Pre-operational", "Operational", "Stopped"
NOT_READY, DISABLED, READY, SWITCHED_ON, ENABLED, QUICK_STOP, REACTION, FAULT = range(8)
STATUS_WORDS = (0x00, 0x40, 0x21, 0x23, 0x27, 0x07, 0x0F, 0x08)
VOLTAGE_BIT, REMOTE_BIT = 0x0010, 0x0200

CONTROL_WORD, STATUS_WORD, MODE, MODE_DISPLAY, MINIMUM, MAXIMUM = (0x6040, 0), (0x6041, 0), (0x6060, 0), (0x6061, 0), (0x607D, 1), (0x607D, 2)
NOT_VALID, IS_TRANSMIT, RESERVED, IDENTIFIER_BITS = 1 << 31, 1 << 30, (1 << 30) - (1 << 11), 0x7FF
MOST_ENTRIES = 512


class Unknown(Exception):
    """What the model has no rule for."""


class Verdict(NamedTuple):
    """What a load answers."""
    refusal: int
    entry: int = 0
    code: int = 0


class Entry(NamedTuple):
    index: int
    subindex: int
    data: bytes

    def encoded(self):
        return little(self.index, 2) + little(self.subindex, 1) + little(len(self.data), 4) + self.data


def little(value, size):
    """A number, negative ones too, as bytes with the low one first."""
    return (value % 256**size).to_bytes(size, "little")


def signed(value, size=4):
    return value - 256**size if value >= 256**size // 2 else value


def file_of(entries):
    return little(len(entries), 4) + b"".join(entry.encoded() for entry in entries)


def entries_of(file):
    """The entries of a file; None where it is cut short or has bytes left over."""
    entries, place = [], 4
    for _ in range(int.from_bytes(file[:4], "little")):
        head = file[place : place + 7]
        size = int.from_bytes(head[3:], "little")
        data = file[place + 7 : place + 7 + size]
        if len(head) < 7 or len(data) < size:
            return None
        entries.append(Entry(int.from_bytes(head[:2], "little"), head[2], data))
        place += 7 + size
    return entries if place == len(file) else None


class Node:
    """All zero before power-up, and then not sound."""

    def __init__(self):
        self.number = 0
        self.values = {place: 0 for place in ROWS}
        self.nmt, self.drive, self.voltage = PRE_OPERATIONAL, NOT_READY, 0

    def bytes(self):
        data = b"".join(little(self.values[place], one.size) for place, one in ROWS.items())
        assert len(data) == LENGTH
        return data

    # ---- the calls

    def power_up(self, number):
        self.number = number
        self.values = {place: one.default + (number if one.counts_from_node else 0) for place, one in ROWS.items()}
        self.nmt, self.drive, self.voltage = PRE_OPERATIONAL, NOT_READY, 0
        self.follow()

    def run(self, stream):
        """The records of a bench stream, which are all good ones."""
        place = 0
        while place < len(stream):
            length, kind = (int.from_bytes(stream[at : at + 2], "little") for at in (place, place + 2))
            self.take(kind, stream[place + 4 : place + 4 + length])
            place += 4 + length
        return self

    def take(self, kind, payload):
        if kind == 3:
            self.power_up(payload[0])
        elif kind == 2:
            self.event(payload[0], payload[1:])
        elif kind == 1:
            self.frame(int.from_bytes(payload[:2], "little"), payload[2:])
        self.follow()

    def follow(self):
        """'6041h and 6061h from any call'"""
        remote = 0 if self.nmt == STOPPED else REMOTE_BIT
        self.values[STATUS_WORD] = STATUS_WORDS[self.drive] + VOLTAGE_BIT * self.voltage + remote
        self.values[MODE_DISPLAY] = self.values[MODE]
        if self.drive == ENABLED and self.values[MODE] != 0:
            raise Unknown("the status word of a drive that is enabled in a mode")

    def event(self, number, arguments):
        if number == 1:
            self.drive = DISABLED
        elif number == 3:
            self.values[0x603F, 0] = int.from_bytes(arguments[:2], "little")
            self.values[0x1001, 0] |= arguments[2] | 1
            self.drive = REACTION
        elif number == 4:
            self.drive = FAULT
        elif number == 5:
            self.values[0x6064, 0], self.values[0x606C, 0] = (int.from_bytes(arguments[at : at + 4], "little") for at in (0, 4))
        elif number == 9:
            self.voltage = arguments[0]
        elif number != 7:
            raise Unknown(f"event {number}")

    def frame(self, identifier, data):
        if identifier == 0x000 and data[1] in (0, self.number):
            states = {0x01: OPERATIONAL, 0x02: STOPPED, 0x80: PRE_OPERATIONAL}
            if data[0] not in states:
                raise Unknown(f"NMT command {data[0]:02X}h")
            self.nmt = states[data[0]]
            if self.nmt == STOPPED and self.drive in (READY, SWITCHED_ON, ENABLED, QUICK_STOP):
                self.drive = DISABLED
        elif identifier == 0x600 + self.number:
            self.request(data)
        else:
            raise Unknown(f"a frame on {identifier:03X}h")

    def request(self, data):
        """An SDO request: expedited downloads with their size told; uploads and segments before the last change no object."""
        if data[0] & 0xE3 == 0x23:
            self.download(int.from_bytes(data[1:3], "little"), data[3], data[4 : 8 - (data[0] >> 2 & 3)])
        elif data[0] & 0xE1 == 0x01:
            raise Unknown("the last segment of a download")

    # ---- SDO downloads

    def download(self, index, subindex, data):
        """What an expedited download does: the abort code, or 0 where it is done."""
        code = self.fault(index, subindex, data)
        if code == 0:
            value = int.from_bytes(data, "little")
            if (index, subindex) == CONTROL_WORD:
                self.command(value)
            self.values[index, subindex] = value
        return code

    def fault(self, index, subindex, data):
        """'in order': the first that is wrong with a download; 0 where nothing is."""
        missing = self.missing(index, subindex)
        if missing:
            return missing
        if index == NAME or ROWS[index, subindex].access != WRITABLE:
            return NO_WRITING
        one, value = ROWS[index, subindex], int.from_bytes(data, "little")
        if len(data) != one.size:
            return TOO_LONG if len(data) > one.size else TOO_SHORT
        if self.is_wrong_time(index, subindex):
            return WRONG_TIME
        if not one.least <= value <= one.greatest:
            return TOO_LOW if value < one.least else TOO_HIGH
        return self.bad_value(index, subindex, value) or self.mapping_fault(index, subindex, value)

    def missing(self, index, subindex):
        if index == NAME:
            return 0 if subindex == 0 else NO_SUBINDEX
        if all(index != there for there, _ in ROWS):
            return NO_OBJECT
        return 0 if (index, subindex) in ROWS else NO_SUBINDEX

    def is_valid(self, pdo):
        return not self.values[pdo.communication, 1] & NOT_VALID

    def is_wrong_time(self, index, subindex):
        for pdo in EVERY_PDO:
            if index == pdo.communication:
                return self.nmt != PRE_OPERATIONAL
            if index == pdo.mapping:
                return self.nmt != PRE_OPERATIONAL or self.is_valid(pdo) or (subindex > 0 and self.values[index, 0] != 0)
        return False

    def bad_value(self, index, subindex, value):
        for pdo in EVERY_PDO:
            if (index, subindex) == (pdo.communication, 1) and not self.is_good_identifier(pdo, value):
                return BAD_VALUE
            if (index, subindex) == (pdo.communication, 2) and 240 < value < 254:
                return BAD_VALUE
        if (index, subindex) == MODE and value not in (0, 1, 3):
            return BAD_VALUE
        low, high = ({**self.values, (index, subindex): value}[limit] for limit in (MINIMUM, MAXIMUM))
        return SWAPPED if signed(low) > signed(high) else 0

    def is_good_identifier(self, pdo, word):
        if bool(word & IS_TRANSMIT) != (pdo.direction == TRANSMIT) or word & RESERVED:
            return False
        if word & NOT_VALID:
            return True
        others = [self.values[other.communication, 1] & IDENTIFIER_BITS for other in EVERY_PDO if other != pdo and self.is_valid(other)]
        present = self.values[pdo.communication, 1]
        changes = self.is_valid(pdo) and word != present
        return 0x181 <= word & IDENTIFIER_BITS <= 0x57F and word & IDENTIFIER_BITS not in others and not changes

    def mapping_fault(self, index, subindex, value):
        for pdo in EVERY_PDO:
            if index == pdo.mapping:
                return self.word_fault(pdo, value) if subindex else self.count_fault(pdo, value)
        return 0

    def word_fault(self, pdo, word):
        if word == 0:
            return 0
        index, subindex, bits = word >> 16, word >> 8 & 0xFF, word & 0xFF
        missing = self.missing(index, subindex)
        if missing:
            return missing
        one = ROWS.get((index, subindex))
        return 0 if one and one.mappable == pdo.direction and bits == 8 * one.size else NOT_MAPPABLE

    def count_fault(self, pdo, count):
        words = [self.values[pdo.mapping, k] for k in range(1, count + 1)]
        if 0 in words:
            return NOT_MAPPABLE
        return TOO_MANY_BITS if sum(word & 0xFF for word in words) > 64 else 0

    # ---- the drive, without set-points

    def command(self, word):
        if word & 0x80:
            raise Unknown("a fault reset")
        steps = {0x6: READY, 0x7: SWITCHED_ON, 0xF: ENABLED, 0xE: READY}
        if not word & 0x02:
            self.drive = DISABLED if self.drive in (READY, SWITCHED_ON, ENABLED, QUICK_STOP) else self.drive
        elif word & 0xF not in steps:
            raise Unknown(f"control word {word:04X}h")
        elif self.drive == DISABLED:
            self.drive = READY if steps[word & 0xF] == READY else DISABLED
        elif self.drive in (READY, SWITCHED_ON, ENABLED):
            self.drive = steps[word & 0xF]

    # ---- the load of a file, ticket 6

    def load(self, file):
        """All of the file's entries, or none of them."""
        verdict = self.refusal(file)
        if verdict.refusal == 0:
            kept = dict(self.values)
            for number, entry in enumerate(entries_of(file), 1):
                code = self.download(*entry)
                if code:
                    self.values = kept
                    return Verdict(14, number, code)
            self.follow()
        return verdict

    def refusal(self, file):
        """What is wrong before any entry is tried, the lowest number first."""
        if self.number == 0:
            return Verdict(4)
        if self.nmt != PRE_OPERATIONAL or self.drive not in (NOT_READY, DISABLED):
            return Verdict(9)
        if len(file) < 4:
            return Verdict(10)
        if int.from_bytes(file[:4], "little") > MOST_ENTRIES:
            return Verdict(11)
        entries = entries_of(file)
        if entries is None:
            return Verdict(12)
        return Verdict(13 if any(entry.index == CONTROL_WORD[0] for entry in entries) else 0)
