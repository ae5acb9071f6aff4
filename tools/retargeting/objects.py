"""What stands in an object of a 32-bit controller: its functions, the bytes of their code, what each calls, what the object needs from
outside; and how much of the stack each function takes, and each call at the most."""
import re
import struct
from typing import Dict, List, NamedTuple, Set

from . import Refused

SHT_SYMTAB, SHT_NOBITS, SHT_RELA, SHT_REL = 2, 8, 4, 9
ALLOCATED, EXECUTED, WRITTEN = 2, 4, 1
NO_TYPE, FUNCTION, SECTION = 0, 2, 3


class Section(NamedTuple):
    name: str
    kind: int
    flags: int
    place: int
    size: int
    link: int
    about: int
    entry: int


class Symbol(NamedTuple):
    name: str
    size: int
    kind: int
    section: int  # 0: it is not in this object


class Object:
    """A little-endian ELF object of 32 bits, with a section for each function."""

    def __init__(self, data):
        if data[:6] != b'\x7fELF\x01\x01':
            raise Refused('the object is not one of 32 bits, low byte first')
        self.data = data
        start, = struct.unpack_from('<I', data, 32)
        size, count, names = struct.unpack_from('<HHH', data, 46)
        rows = [struct.unpack_from('<10I', data, start + i * size) for i in range(count)]
        self.sections = [Section(self.word_at(rows[names][4] + row[0]), row[1], row[2], row[4], row[5], row[6], row[7], row[9]) for row in rows]
        self.symbols = self.read_symbols()

    def word_at(self, place):
        return self.data[place:self.data.index(b'\0', place)].decode()

    def read_symbols(self):
        table = next(section for section in self.sections if section.kind == SHT_SYMTAB)
        names = self.sections[table.link].place
        rows = (struct.unpack_from('<IIIBBH', self.data, place) for place in range(table.place, table.place + table.size, table.entry))
        return [Symbol(self.word_at(names + row[0]), row[2], row[3] % 16, row[5]) for row in rows]

    def functions(self) -> Dict[int, Symbol]:
        """By the section of each, which holds nothing else."""
        found: Dict[int, Symbol] = {}
        for symbol in self.symbols:
            if symbol.kind == FUNCTION and symbol.section:
                if symbol.section in found:
                    raise Refused(f'{symbol.name} and {found[symbol.section].name} stand in one section')
                found[symbol.section] = symbol
        return found

    def needs(self) -> List[str]:
        """The names that are not in this object."""
        return sorted(symbol.name for symbol in self.symbols if symbol.name and not symbol.section)

    def code_of(self) -> Dict[str, int]:
        """The bytes of each function, with its constants."""
        return {symbol.name: self.sections[section].size for section, symbol in self.functions().items()}

    def named_in(self, section) -> List[Symbol]:
        """The symbols that a table of relocations names."""
        places = range(section.place, section.place + section.size, section.entry)
        return [self.symbols[struct.unpack_from('<I', self.data, place + 4)[0] >> 8] for place in places]

    def calls(self) -> Dict[str, Set[str]]:
        """The functions, here and outside, that each function's code names. By its section a function only names places within itself."""
        functions = self.functions()
        found: Dict[str, Set[str]] = {symbol.name: set() for symbol in functions.values()}
        for section in self.sections:
            if section.kind not in (SHT_REL, SHT_RELA) or section.about not in functions:
                continue
            for symbol in self.named_in(section):
                if symbol.kind == SECTION and symbol.section != section.about:
                    symbol = functions.get(symbol.section, symbol)
                if symbol.kind == FUNCTION or not symbol.section:
                    found[functions[section.about].name].add(symbol.name)
        return found

    def bytes_of(self, name):
        """The bytes of the sections whose names begin so."""
        return sum(section.size for section in self.sections if section.name.startswith(name))

    def variables(self):
        """The bytes that have to stand in RAM."""
        return sum(section.size for section in self.sections if section.flags & ALLOCATED and section.flags & WRITTEN)


def frames_of(stack_usage, functions) -> Dict[str, int]:
    """The stack of each function, out of what clang writes: FILE:NAME, bytes, and whether the amount is fixed."""
    found = {}
    for line in stack_usage.splitlines():
        place, size, manner = line.split('\t')
        name = next((name for name in functions if place.endswith(':' + name)), place)
        if manner != 'static':
            raise Refused(f'{name} takes an amount of stack that is not fixed')
        found[name] = int(size)
    missing = sorted(set(functions) - set(found))
    if missing:
        raise Refused(f'clang does not tell the stack of {", ".join(missing)}')
    return found


def deepest_of(frames, calls) -> Dict[str, int]:
    """The most stack that each function takes with all that it calls here: the longest chain. What is called outside is not in it."""
    known: Dict[str, int] = {}

    def depth(name, chain):
        if name in chain:
            raise Refused(f'{name} calls itself, through {" and ".join(chain)}: no bound of the stack can be told')
        if name not in known:
            known[name] = frames[name] + max((depth(other, chain + (name,)) for other in sorted(calls[name]) if other in frames), default=0)
        return known[name]

    for name in frames:
        depth(name, ())
    return known


INLINED = re.compile(r"'([^']+)' inlined into '[^']+' with \(cost=(-?\d+|always)")


def inlined_of(remarks):
    """The functions of which clang says that it put their code into a caller more than once: name, times, and what it holds one copy to cost,
    the dearest in all first. A copy in a function that is itself copied is counted once."""
    costs: Dict[str, List[int]] = {}
    for name, cost in INLINED.findall(remarks):
        costs.setdefault(name, []).append(0 if cost == 'always' else int(cost))
    rows = [(name, len(told), max(0, *told)) for name, told in costs.items() if len(told) > 1]
    return sorted(rows, key=lambda row: (-row[1] * row[2], row[0]))
