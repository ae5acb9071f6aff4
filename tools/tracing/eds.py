"""The objects of the node as cendurak.eds has them: names, types and default values stand there and nowhere else."""
import configparser
import functools
import re
from pathlib import Path
from typing import NamedTuple, Optional

from .records import BadInput

FILE = Path(__file__).resolve().parents[2] / 'cendurak.eds'

TEXT = 0  # the size of a text, which is as long as it is
TYPES = {2: (1, True), 3: (2, True), 4: (4, True), 5: (1, False), 6: (2, False), 7: (4, False), 9: (TEXT, False)}  # DataType: size, signed


class Object(NamedTuple):
    name: str
    size: int
    signed: bool
    default: str  # a number, or one that starts with $NODEID+; of a text the text

    @property
    def is_text(self) -> bool:
        return self.size == TEXT

    def default_for(self, node: int) -> int:
        text = self.default.upper().replace(' ', '')
        base = node if text.startswith('$NODEID+') else 0
        return (base + int(text.removeprefix('$NODEID+') or '0', 0)) % (1 << 8 * self.size)


Place = tuple[int, int]  # index and subindex
Objects = dict[Place, Object]


@functools.cache
def load(path: Path = FILE) -> Objects:
    """The objects by index and subindex."""
    parser = configparser.ConfigParser(interpolation=None, strict=False)
    try:
        with open(path, encoding='utf-8', errors='replace') as file:
            parser.read_file(file)
    except configparser.Error as wrong:
        raise BadInput(f'{path}: {" ".join(str(wrong).split())[:300]}') from None
    objects: Objects = {}
    for title in parser.sections():
        place = re.fullmatch(r'([0-9A-Fa-f]{4})(?:sub([0-9A-Fa-f]{1,2}))?', title)
        entry = object_of(parser, title) if place else None
        if entry:
            objects[int(place[1], 16), int(place[2] or '0', 16)] = entry
    if not objects:
        raise BadInput(f'{path}: no objects in it')
    return objects


def object_of(parser: configparser.ConfigParser, title: str) -> Optional[Object]:
    """The object of a section; none for a record or an array as a whole, and for types that this node does not have."""
    section = parser[title]
    try:
        size, signed = TYPES[int(section.get('DataType', '0'), 0)]
        entry = Object(full_name(parser, title), size, signed, section.get('DefaultValue', '0'))
        if not entry.is_text:
            entry.default_for(0)
        return entry
    except (KeyError, ValueError):
        return None


def full_name(parser: configparser.ConfigParser, title: str) -> str:
    """The name, and before that of a PDO's parameter which PDO it is."""
    name = parser[title].get('ParameterName', '')
    whole = re.sub('sub.*', '', title, flags=re.IGNORECASE)
    if whole == title or not parser.has_section(whole):
        return name
    pdo = re.match(r'([RT]PDO) ?([0-9])', parser[whole].get('ParameterName', ''))
    return f'{pdo[1]}{pdo[2]} {name}' if pdo else name
