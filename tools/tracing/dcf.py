"""Concise DCF files (CiA 302) as bytes: a count (4), then for each entry index (2), subindex (1), size (4) and data, all little-endian."""
import struct
from typing import NamedTuple, Optional

from .eds import Place
from .records import BadInput

COUNT, HEAD = struct.Struct('<I'), struct.Struct('<HBI')
MOST_ENTRIES = 512


class Entry(NamedTuple):
    place: Place
    data: bytes
    start: int = 0  # the byte of the file where it begins

    @property
    def where(self) -> str:
        return place_text(self.place)


def place_text(place: Place) -> str:
    return f'{place[0]:04X}:{place[1]:02X}'


def byte_count(count: int) -> str:
    return f'{count} byte' if count == 1 else f'{count} bytes'


def entry_count(count: int) -> str:
    return f'{count} entry' if count == 1 else f'{count} entries'


def encode(entries: list[Entry]) -> bytes:
    parts = [HEAD.pack(*entry.place, len(entry.data)) + entry.data for entry in entries]
    return COUNT.pack(len(entries)) + b''.join(parts)


def decode(content: bytes, file: str) -> list[Entry]:
    """The entries of a file. One that the node would not take for a file is an error, with the entry and the byte where it goes wrong."""
    if len(content) < COUNT.size:
        raise BadInput(f'{file}: {byte_count(len(content))}, where the count alone has {COUNT.size}')
    count, = COUNT.unpack_from(content)
    if count > MOST_ENTRIES:
        raise BadInput(f'{file}: a count of {count} entries (byte 0), where {MOST_ENTRIES} are the most')
    entries: list[Entry] = []
    place = COUNT.size
    for number in range(1, count + 1):
        entries.append(entry_at(content, place, f'{file}, entry {number} of {count} (byte {place})'))
        place += HEAD.size + len(entries[-1].data)
    if place < len(content):
        behind = f'entry {count}' if count else 'the count of no entries'
        raise BadInput(f'{file}: {byte_count(len(content) - place)} left over behind {behind} (byte {place})')
    return entries


def entries_in(content: bytes) -> Optional[list[Entry]]:
    """The entries of a file; none where it is no file."""
    try:
        return decode(content, 'file')
    except BadInput:
        return None


def entry_at(content: bytes, place: int, where: str) -> Entry:
    left = len(content) - place
    if left < HEAD.size:
        raise BadInput(f'{where}: cut short, {left} of the {HEAD.size} bytes of index, subindex and size')
    index, subindex, size = HEAD.unpack_from(content, place)
    if left - HEAD.size < size:
        raise BadInput(f'{where}: cut short, {left - HEAD.size} of the {byte_count(size)} of {place_text((index, subindex))}')
    start = place + HEAD.size
    return Entry((index, subindex), content[start:start + size], place)
