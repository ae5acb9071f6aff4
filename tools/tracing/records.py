"""Bench records as bytes: payload length (2), kind (2), little-endian, payload."""
import struct
from dataclasses import dataclass
from functools import lru_cache
from typing import Iterable, Iterator, Union

FRAME, EVENT, POWER_UP = 1, 2, 3
LOAD, MOST_LOAD = 4, 0xFFFF  # what the C program of tests/c/loads.c has besides, and the bytes of its longest file
HEAD = struct.Struct('<HH')
PAYLOADS = {FRAME: range(2, 17), EVENT: range(1, 17), POWER_UP: range(1, 2)}  # the payload lengths of each kind
LONGEST = HEAD.size + 16  # bytes of a record
MOST_KEPT = 4096  # frames and the like that are not made anew when they come again


class BadInput(Exception):
    """An input that cannot be used: the text says which, where, and what is wrong with it."""


@dataclass(frozen=True)
class Frame:
    identifier: int
    data: bytes


@dataclass(frozen=True)
class Event:
    number: int
    arguments: bytes


@dataclass(frozen=True)
class PowerUp:
    node: int


@dataclass(frozen=True)
class Load:
    """The load of a file. The bench program has no record for it."""
    data: bytes


@dataclass(frozen=True)
class Damage:
    """The bytes from the first bad record to the end of the stream: the bench program answers them once, with refusal 8."""
    data: bytes


Record = Union[Frame, Event, PowerUp, Load, Damage]


def encode(records: list[Record]) -> bytes:
    return b''.join(encode_one(record) for record in records)


def encode_one(record: Record) -> bytes:
    if isinstance(record, Damage):
        return record.data
    if isinstance(record, Frame):
        kind, payload = FRAME, struct.pack('<H', record.identifier) + record.data
    elif isinstance(record, Event):
        kind, payload = EVENT, bytes([record.number]) + record.arguments
    elif isinstance(record, Load):
        kind, payload = LOAD, record.data
    else:
        kind, payload = POWER_UP, bytes([record.node])
    return HEAD.pack(len(payload), kind) + payload


def decode(stream: bytes, file: str, keep_damage: bool) -> list[Record]:
    return list(decoded([stream], file, keep_damage))


def decoded(pieces: Iterable[bytes], file: str, keep_damage: bool) -> Iterator[Record]:
    """The records of a stream, as its pieces come. A bad one is an error, or with keep_damage the last record."""
    source, held = iter(pieces), b''
    number, passed = 1, 0  # of the record that is due, and the bytes before those that are held
    piece = next(source, b'')
    while held or piece:
        held, place = held + piece, 0
        while place < len(held) and (len(held) - place >= LONGEST or not piece):
            wrong = what_is_wrong(held, place)
            if wrong and not keep_damage:
                nor_log = ', and no log begins so' if number == 1 else ''
                raise BadInput(f'{file}, record {number} (byte {passed + place}): {wrong}{nor_log}')
            if wrong:
                yield Damage(held[place:] + b''.join(source))
                return
            length, kind = HEAD.unpack_from(held, place)
            start = place + HEAD.size
            place = start + length
            number += 1
            yield decode_payload(kind, held[start:place])
        held, passed = held[place:], passed + place
        piece = next(source, b'')


def what_is_wrong(stream: bytes, place: int) -> str:
    """Why no record starts at this place; empty where one does."""
    left = len(stream) - place
    if left < HEAD.size:
        return f'cut: {left} of the 4 bytes of length and kind'
    length, kind = HEAD.unpack_from(stream, place)
    if kind not in PAYLOADS:
        return f'kind {kind}; 1 is a frame, 2 an event, 3 a power-up'
    lengths = PAYLOADS[kind]
    if length not in lengths:
        return f'payload length {length}; kind {kind} has {lengths[0]} to {lengths[-1]}'
    if left - HEAD.size < length:
        return f'cut: {left - HEAD.size} of {length} payload bytes'
    return ''


@lru_cache(MOST_KEPT)
def decode_payload(kind: int, payload: bytes) -> Record:
    if kind == FRAME:
        return Frame(int.from_bytes(payload[:2], 'little'), payload[2:])
    if kind == EVENT:
        return Event(payload[0], payload[1:])
    return PowerUp(payload[0])
