"""The node, through the bench program: records in, answers out; SDO requests and replies as bytes and in words."""
import pathlib
import re
import subprocess
from typing import NamedTuple

ROOT = pathlib.Path(__file__).resolve().parents[2]
PROGRAM = ROOT / "target/bin/bench"
FRAME, EVENT, POWER_UP = 1, 2, 3
ANSWER_LINE = re.compile(r"\d+ (\d) [0-9A-F]{4}")

# the first byte of an SDO message; a told size stands in bits 3-2 of a download, and of the reply to an upload
DOWNLOAD, DOWNLOADED, UPLOAD, UPLOADED, ABORT = 0x23, 0x60, 0x40, 0x43, 0x80
# of a transfer by segments: what starts it, both with the length told, and its segments. A segment's toggle is bit 4; one that carries data
# tells in bits 3-1 how many of its seven bytes hold none, and in bit 0 that it is the last
DOWNLOAD_BY_SEGMENTS, UPLOADED_BY_SEGMENTS = 0x21, 0x41
SEGMENT, SEGMENT_TAKEN, SEGMENT_WANTED = 0x00, 0x20, 0x60
SEGMENT_ROOM, TOGGLE, LAST = 7, 0x10, 0x01


class Answer(NamedTuple):
    refusal: int
    frames: list  # of identifier and data

    def reply(self, node_id):
        """The data of the SDO reply, or nothing."""
        return next((data for identifier, data in self.frames if identifier == 0x580 + node_id), b"")


def little(value, size):
    """A number, negative ones too, as bytes with the low one first."""
    return (value % 256**size).to_bytes(size, "little")


def record(kind, payload):
    return little(len(payload), 2) + little(kind, 2) + payload


def power_up(node_id):
    return record(POWER_UP, bytes([node_id]))


def event(number, arguments=b""):
    return record(EVENT, bytes([number]) + arguments)


def request(node_id, data):
    """An SDO request of eight bytes to the node."""
    return record(FRAME, little(0x600 + node_id, 2) + data)


def answers(records):
    """What the node answers to each record, all of them in one run of the bench program."""
    run = subprocess.run([ROOT / "tools/c-run", PROGRAM], input=b"".join(records), capture_output=True, check=True)
    given = []
    for line in run.stdout.decode("ascii").splitlines():
        if head := ANSWER_LINE.fullmatch(line):
            given.append(Answer(int(head[1]), []))
        else:
            identifier, _, data = line.partition(" ")
            given[-1].frames.append((int(identifier, 16), bytes.fromhex(data)))
    if len(given) != len(records):
        raise RuntimeError(f"the bench program answered {len(given)} of {len(records)} records")
    return given


def multiplexor(index, subindex):
    return little(index, 2) + little(subindex, 1)


def sized(command, size):
    return bytes([command | (4 - size) << 2])


def upload(index, subindex):
    return bytes([UPLOAD]) + multiplexor(index, subindex) + bytes(4)


def download(index, subindex, data):
    return sized(DOWNLOAD, len(data)) + multiplexor(index, subindex) + data.ljust(4, b"\0")


def stored(index, subindex):
    return bytes([DOWNLOADED]) + multiplexor(index, subindex) + bytes(4)


def held(index, subindex, data):
    return sized(UPLOADED, len(data)) + multiplexor(index, subindex) + data.ljust(4, b"\0")


def aborted(index, subindex, code):
    return bytes([ABORT]) + multiplexor(index, subindex) + little(code, 4)


def download_by_segments(index, subindex, length):
    return bytes([DOWNLOAD_BY_SEGMENTS]) + multiplexor(index, subindex) + little(length, 4)


def held_by_segments(index, subindex, length):
    return bytes([UPLOADED_BY_SEGMENTS]) + multiplexor(index, subindex) + little(length, 4)


def toggled(command, count):
    """As many messages without data as that, whose toggles alternate from 0 on."""
    return [bytes([command | (TOGGLE if i % 2 else 0)]) + bytes(SEGMENT_ROOM) for i in range(count)]


def segments(data):
    """The segments that carry the data, as full as they can be."""
    parts = [data[place : place + SEGMENT_ROOM] for place in range(0, len(data), SEGMENT_ROOM)]
    heads = [message[0] | SEGMENT_ROOM - len(part) << 1 for message, part in zip(toggled(SEGMENT, len(parts)), parts)]
    heads[-1] |= LAST
    return [bytes([head]) + part.ljust(SEGMENT_ROOM, b"\0") for head, part in zip(heads, parts)]


def value_of(reply):
    """The bytes that an upload's reply carries; None where it carries none, or tells that segments carry them."""
    if len(reply) != 8 or reply[0] not in (0x4F, 0x4B, 0x43):
        return None
    return reply[4 : 8 - (reply[0] >> 2 & 3)]


def has_value(reply):
    """Whether an upload's reply is of an entry that is there."""
    return value_of(reply) is not None or reply[:1] == bytes([UPLOADED_BY_SEGMENTS])


# ---- in words, as a reader of a failure wants them


def place_in_words(message):
    return f"{int.from_bytes(message[1:3], 'little'):04X}:{message[3]:02X}"


def segment_in_words(message):
    data = message[1 : 1 + SEGMENT_ROOM - (message[0] >> 1 & 7)]
    shown = repr(data.decode("ascii")) if data.isascii() and data.decode("ascii").isprintable() else data.hex(" ")
    return f"{'last ' if message[0] & LAST else ''}segment {shown}, toggle {message[0] >> 4 & 1}"


def request_in_words(message):
    command = message[0]
    if command >> 5 == SEGMENT >> 5:
        return f"download of the {segment_in_words(message)}"
    if command >> 5 == SEGMENT_WANTED >> 5:
        return f"upload of a segment, toggle {command >> 4 & 1}"
    if command == UPLOAD:
        return f"upload {place_in_words(message)}"
    if command == DOWNLOAD_BY_SEGMENTS:
        return f"download {place_in_words(message)} by segments"
    return f"download {place_in_words(message)} = {message[4 : 8 - (command >> 2 & 3)].hex(' ')}"


def reply_in_words(message):
    if len(message) != 8:
        return "no reply"
    if message[0] == ABORT:
        place = "" if any(message[1:4]) else " of no object"
        return f"abort {int.from_bytes(message[4:], 'little'):08X}{place}"
    if message[0] == DOWNLOADED:
        return "accepted"
    if message[0] == UPLOADED_BY_SEGMENTS:
        return f"{int.from_bytes(message[4:], 'little')} bytes by segments"
    if message[0] >> 5 == SEGMENT_TAKEN >> 5:
        return f"segment taken, toggle {message[0] >> 4 & 1}"
    if message[0] >> 5 == SEGMENT >> 5:
        return segment_in_words(message)
    data = value_of(message)
    return f"value {data.hex(' ')}" if data is not None else message.hex(" ")
