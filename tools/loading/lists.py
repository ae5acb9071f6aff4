"""Entries as a readable list, both ways. What `text_of` writes, `parse` takes back to the same entries; people write such lists too."""
import re
from typing import Optional

from tracing import decode, node as can, words
from tracing.dcf import MOST_ENTRIES, Entry, byte_count, entry_count, place_text
from tracing.eds import Object, Objects, Place
from tracing.records import BadInput

NOTATION = """\
A list has one entry in a line, and they are loaded in this order:

  6081:00 [4] Profile velocity = 80000   # what stands behind '#' is a note
  607D:01 = -200000                      # size and name may be left out
  1A03:01 = 0x60640020                   # hexadecimal, also as 60640020h
  2000:01 [2] = 7                        # an object that cendurak.eds does not have needs its size
  6081:00 [5] = bytes 01 02 03 04 05     # data that is no number
  6081:00 [0] = nothing                  # no data

Index and subindex are hexadecimal. A name, where it stands there, must be the object's. Empty lines and notes are left out."""

LINE = re.compile(r'(?P<object>[^\s\[=]+)\s*(?:\[(?P<size>[^\]]*)\])?\s*(?P<name>[^=]*?)\s*=\s*(?P<value>.*)')
OBJECT = re.compile(r'(?:0x)?([0-9A-Fa-f]{4})h?(?::(?:0x)?([0-9A-Fa-f]{1,2})h?)?')
DECIMAL, HEXADECIMAL = re.compile(r'[+-]?[0-9]+'), re.compile(r'0x([0-9A-Fa-f]+)|([0-9A-Fa-f]+)h')
NOTHING, BYTES = 'nothing', 'bytes'
MOST_NUMBER = 4  # bytes of data that the list shows as a number
MOST_WRITTEN = 8  # bytes of a number that a list may have


# ---- entries as text


def text_of(entries: list[Entry], objects: Objects) -> str:
    head = f'# concise DCF, {entry_count(len(entries))}\n'
    rows = [(f'{entry.where} [{len(entry.data)}] {name_of(entry.place, objects)}'.rstrip(), value_text(entry, objects), note(entry, objects))
            for entry in entries]
    left = max((len(row[0]) for row in rows), default=0)
    middle = max((len(row[1]) for row in rows if not row[1].startswith(BYTES)), default=0)
    return head + ''.join(f'{shown_object.ljust(left)} = {value.ljust(middle)}  # {said}\n' for shown_object, value, said in rows)


def name_of(place: Place, objects: Objects) -> str:
    return objects[place].name if place in objects else ''


def is_whole(entry: Entry, objects: Objects) -> bool:
    """Whether the data is a value of the object, by its size."""
    known = objects.get(entry.place)
    return known is not None and not known.is_text and known.size == len(entry.data)


def is_in_hex(entry: Entry, objects: Objects) -> bool:
    """Identifiers and mapped objects of PDOs are words that nobody reads as decimal numbers."""
    return is_whole(entry, objects) and len(entry.data) == 4 and (is_identifier(entry.place) or is_mapped(entry.place))


def is_identifier(place: Place) -> bool:
    return can.is_parameter(place[0], can.COMMUNICATION) and place[1] == 1


def is_mapped(place: Place) -> bool:
    return can.is_parameter(place[0], can.MAPPING) and place[1] > 0


def number_of(entry: Entry, objects: Objects) -> int:
    signed = is_whole(entry, objects) and objects[entry.place].signed
    return int.from_bytes(entry.data, 'little', signed=signed)


def value_text(entry: Entry, objects: Objects) -> str:
    if not entry.data:
        return NOTHING
    if len(entry.data) > MOST_NUMBER:
        return f'{BYTES} {entry.data.hex(" ").upper()}'
    value = number_of(entry, objects)
    return f'0x{value:08X}' if is_in_hex(entry, objects) else str(value)


def note(entry: Entry, objects: Objects) -> str:
    """The number the other way, and what it means."""
    value, known = int.from_bytes(entry.data, 'little'), objects.get(entry.place)
    parts = []
    if 0 < len(entry.data) <= MOST_NUMBER:
        parts.append(str(value) if is_in_hex(entry, objects) else f'{value:0{2 * len(entry.data)}X}h')
    if known is None:
        parts.append('not in the dictionary')
    elif known.is_text:
        parts.append(words.text(entry.data))
    elif not is_whole(entry, objects):
        parts.append(f'the object has {byte_count(known.size)}')
    else:
        parts.append(meaning(entry.place, value, objects))
    if entry.place[0] == can.CONTROL_WORD[0]:
        parts.append('the node takes no file with an entry for 6040h')
    return ', '.join(part for part in parts if part)


def meaning(place: Place, value: int, objects: Objects) -> str:
    """What a value says in words; nothing where it is only a number."""
    if is_identifier(place):
        return 'not valid' if value & can.NOT_VALID else f'on {value & 0x7FF:03X}h'
    if is_mapped(place):
        target = value >> 16, value >> 8 & 0xFF
        return f'{place_text(target)} {name_of(target, objects) or "(no such object)"}, {value & 0xFF} bits' if value else 'nothing'
    if can.is_parameter(place[0], can.COMMUNICATION) and place[1] == 2:
        return decode.type_text(value, place[0] >= can.COMMUNICATION[can.TRANSMIT])
    if place == can.MODE:
        return words.MODES.get(value, 'unknown mode')
    return 'in ms' if place in decode.TIMES else ''


# ---- text as entries


def parse(text: str, file: str, objects: Objects) -> list[Entry]:
    """The entries of a list; a bad line is an error with its number."""
    entries: list[Entry] = []
    for number, line in enumerate(text.split('\n'), 1):
        line = line.partition('#')[0].strip()
        if not line:
            continue
        try:
            entries.append(entry_of(line, objects))
            if len(entries) > MOST_ENTRIES:
                raise ValueError(f'entry {len(entries)}, where {MOST_ENTRIES} are the most')
        except ValueError as wrong:
            raise BadInput(f'{file}, line {number}: {wrong}') from None
    return entries


def entry_of(line: str, objects: Objects) -> Entry:
    shape = LINE.fullmatch(line)
    if not shape:
        raise ValueError(f"{shown(line)} is not 'INDEX:SUBINDEX [SIZE] NAME = VALUE', where size and name may be left out")
    place = place_of(shape['object'])
    known, size = objects.get(place), size_of(shape['size'])
    if known and shape['name'] and shape['name'].split() != known.name.split():
        raise ValueError(f"{place_text(place)} is '{known.name}', and not {shown(shape['name'])}")
    return Entry(place, data_of(shape['value'], place, size, known))


def shown(text: str) -> str:
    """A piece of a bad line, short enough for a message."""
    return repr(text if len(text) <= 60 else text[:57] + '...')


def place_of(text: str) -> Place:
    shape = OBJECT.fullmatch(text)
    if not shape:
        raise ValueError(f'{shown(text)} is no object: index and subindex are hexadecimal, as in 607D:01')
    return int(shape[1], 16), int(shape[2] or '0', 16)


def size_of(text: Optional[str]) -> Optional[int]:
    if text is not None and not re.fullmatch(r'[0-9]{1,9}', text):
        raise ValueError(f'[{text}] is no size: it is a number of bytes, as in [4]')
    return None if text is None else int(text)


def data_of(text: str, place: Place, size: Optional[int], known: Optional[Object]) -> bytes:
    """The data of an entry: nothing, bytes, or a number in as many bytes as the list or the data sheet says."""
    word, *more = text.split() or ['']
    if word == BYTES or word == NOTHING and not more:
        return of_size(bytes_of(more), size)
    if size is None and (known is None or known.is_text):
        raise ValueError(f'{place_text(place)} has no size of its own: tell it before the =, as in [4]')
    signed = known.signed if known and size in (None, known.size) else None
    return number_bytes(text, known.size if size is None else size, signed)


def of_size(data: bytes, size: Optional[int]) -> bytes:
    if size is not None and size != len(data):
        raise ValueError(f'{byte_count(len(data))} of data, where [{size}] says {size}')
    return data


def bytes_of(digits: list[str]) -> bytes:
    for pair in digits:
        if not re.fullmatch('[0-9A-Fa-f]{2}', pair):
            raise ValueError(f'{shown(pair)} is no byte: a byte has two hexadecimal digits')
    return bytes.fromhex(''.join(digits))


def number_bytes(text: str, size: int, signed: Optional[bool]) -> bytes:
    """A number in so many bytes. Where it is not known whether they are signed, it may be negative; hexadecimal ones are the bits."""
    if not 1 <= size <= MOST_WRITTEN:
        raise ValueError(f"a number has 1 to {MOST_WRITTEN} bytes, and not {size}: write '{BYTES} ..', or '{NOTHING}'")
    bits = HEXADECIMAL.fullmatch(text)
    if not bits and not DECIMAL.fullmatch(text):
        raise ValueError(f"{shown(text)} is no value: decimal, hexadecimal as in 0x1F4, '{BYTES} ..' or '{NOTHING}'")
    value = int(bits[1] or bits[2], 16) if bits else int(text)
    least = 0 if bits or signed is False else -(256 ** size) // 2
    most = 256 ** size // 2 - 1 if signed and not bits else 256 ** size - 1
    if not least <= value <= most:
        raise ValueError(f'{shown(text)} does not fit: {byte_count(size)} {"holds" if size == 1 else "hold"} {least} to {most}')
    return (value % 256 ** size).to_bytes(size, 'little')
