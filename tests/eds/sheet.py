"""The data sheet as it is read: its sections, and its entries with type, access, default, limits and mapping."""
import configparser
import re
from typing import NamedTuple, Optional, Union

OBJECT = re.compile(r"[0-9A-F]{4}")
SUBOBJECT = re.compile(r"([0-9A-F]{4})sub([0-9A-F]{1,2})")
NODE_ID = "$NODEID+"
ACCESS_TYPES = {"const", "ro", "wo", "rw", "rww", "rwr"}
WRITABLE = {"wo", "rw", "rww", "rwr"}

# where CiA 301 has the PDOs: communication parameters of receive and of transmit PDOs, each with the mapping so far behind
RECEIVE, TRANSMIT, MAPPING, PDO_ROOM = 0x1400, 0x1800, 0x200, 0x200

# the one entry that is no row of the dictionary and has no place in its bytes
DEVICE_NAME = 0x1008, 0


class ValueType(NamedTuple):
    name: str
    size: Optional[int]  # None of a text, which is as long as it is
    signed: bool

    @property
    def least(self):
        return -(256**self.size) // 2 if self.signed else 0

    @property
    def greatest(self):
        return self.least + 256**self.size - 1

    def holds(self, value):
        return self.least <= value <= self.greatest


TYPES = {
    0x0002: ValueType("INTEGER8", 1, True),
    0x0003: ValueType("INTEGER16", 2, True),
    0x0004: ValueType("INTEGER32", 4, True),
    0x0005: ValueType("UNSIGNED8", 1, False),
    0x0006: ValueType("UNSIGNED16", 2, False),
    0x0007: ValueType("UNSIGNED32", 4, False),
    0x0009: ValueType("VISIBLE_STRING", None, False),
}


class Entry(NamedTuple):
    section: str
    index: int
    subindex: int
    type: ValueType
    access: str
    default: Union[int, str]  # a text where the type is one
    counts_from_node: bool  # the default is this much plus the node-ID
    low: Optional[int]
    high: Optional[int]
    mappable: bool
    said: dict  # the section's keys as they stand

    @property
    def is_text(self):
        return self.type.size is None

    @property
    def size(self):
        return len(self.default) if self.is_text else self.type.size

    def default_at(self, node_id):
        return self.default + (node_id if self.counts_from_node else 0)

    def says(self, *keys):
        """The keys as they stand in the sheet, for a failure's sentence."""
        return f"[{self.section}] " + " ".join(f"{key}={self.said[key]}" for key in keys)


class Pdo(NamedTuple):
    direction: int
    communication: int
    mapping: int


class Sheet(NamedTuple):
    sections: dict
    entries: dict  # by index and subindex

    def pdos(self):
        return [
            Pdo(direction, index, index + MAPPING)
            for direction in (RECEIVE, TRANSMIT)
            for index, subindex in self.entries
            if direction <= index < direction + PDO_ROOM and subindex == 0
        ]


def sections_of(text):
    """The sections with their keys, in order; a section or key that stands twice is a configparser.Error."""
    parser = configparser.ConfigParser(delimiters=("=",), comment_prefixes=(";",), interpolation=None, default_section="")
    parser.optionxform = str
    parser.read_string(text)
    return {name: dict(parser[name]) for name in parser.sections()}


def place_of(section):
    """Index and subindex of an object's or subobject's section; None for the others."""
    if sub := SUBOBJECT.fullmatch(section):
        return int(sub[1], 16), int(sub[2], 16)
    return (int(section, 16), 0) if OBJECT.fullmatch(section) else None


def number(text):
    """A number of the sheet, decimal or with 0x; anything else is a ValueError (a leading 0 would make it octal)."""
    if not re.fullmatch(r"-?(0|[1-9][0-9]*)|0x[0-9A-Fa-f]+", text):
        raise ValueError(f"'{text}' is no number")
    return int(text, 16) if text.startswith("0x") else int(text)


def limit(keys, key):
    return number(keys[key]) if key in keys else None


def entry_of(section, keys):
    """The entry that a section describes; a ValueError or KeyError where it describes none."""
    index, subindex = place_of(section)
    if keys["AccessType"] not in ACCESS_TYPES or keys["PDOMapping"] not in ("0", "1"):
        raise ValueError("AccessType or PDOMapping is none of CiA 306")
    default, kind = keys["DefaultValue"], TYPES[number(keys["DataType"])]
    is_text = kind.size is None
    return Entry(
        section, index, subindex, kind, keys["AccessType"],
        default if is_text else number(default.removeprefix(NODE_ID)), not is_text and default.startswith(NODE_ID),
        limit(keys, "LowLimit"), limit(keys, "HighLimit"), keys["PDOMapping"] == "1", keys,
    )
