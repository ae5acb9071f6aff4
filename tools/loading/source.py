"""A concise DCF as a C source: a constant array with a line for each entry, and its length."""
import re
from typing import Iterator

from tracing.dcf import COUNT, HEAD, Entry, entry_count
from tracing.eds import Objects
from tracing.records import BadInput

from .lists import name_of, value_text

BYTES_OF_A_LINE = 16
MOST_SAID = 40  # characters of a value in a comment


def source_of(entries: list[Entry], name: str, objects: Objects) -> str:
    if not re.fullmatch('[A-Za-z_][A-Za-z0-9_]*', name):
        raise BadInput(f"'{name}' is no name in C")
    lines = [f'/* A concise DCF of {entry_count(len(entries))}, which `tools/dcf write --c {name}` made. */', '#include <stdint.h>', '',
             f'extern const uint8_t {name}[];', f'extern const uint64_t {name}_length;', '', f'const uint8_t {name}[] = {{']
    lines += byte_lines(COUNT.pack(len(entries)), entry_count(len(entries)))
    for entry in entries:
        lines += byte_lines(HEAD.pack(*entry.place, len(entry.data)) + entry.data, said(entry, objects))
    return '\n'.join(lines + ['};', f'const uint64_t {name}_length = sizeof {name};', ''])


def said(entry: Entry, objects: Objects) -> str:
    value = value_text(entry, objects)
    value = value if len(value) <= MOST_SAID else value[:MOST_SAID - 3] + '...'
    return ' '.join(part for part in (entry.where, name_of(entry.place, objects), '=', value) if part)


def byte_lines(data: bytes, comment: str) -> Iterator[str]:
    """Lines of an array, with the comment behind the last of them."""
    for place in range(0, len(data), BYTES_OF_A_LINE):
        part = data[place:place + BYTES_OF_A_LINE]
        is_last = place + BYTES_OF_A_LINE >= len(data)
        yield '    ' + ' '.join(f'0x{byte:02X},' for byte in part) + (f' /* {comment} */' if is_last else '')
