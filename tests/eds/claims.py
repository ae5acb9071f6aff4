"""What the sheet claims of each entry, as cases for the node: after a power-up, requests with the reply that each must get."""
from typing import NamedTuple

import bench
from sheet import MAPPING, PDO_ROOM, RECEIVE, TRANSMIT, WRITABLE

# document 01, 'SDO', and what a segment with no transfer gets
NO_OBJECT, NO_SUBINDEX, NO_WRITING, NO_READING = 0x06020000, 0x06090011, 0x06010002, 0x06010001
TOO_LONG, TOO_SHORT, BELOW, ABOVE, BAD_VALUE, NOT_MAPPABLE = 0x06070012, 0x06070013, 0x06090032, 0x06090031, 0x06090030, 0x06040041
NO_TRANSFER, NOT_COMPATIBLE = 0x05040001, 0x06040043
NOT_VALID, TRANSMIT_BIT, RESERVED_BIT, IDENTIFIER = 1 << 31, 1 << 30, 1 << 11, 0x7FF
FIRST_IDENTIFIER, LAST_IDENTIFIER = 0x181, 0x57F
MODES, TYPES, TYPE_EDGES = {0, 1, 3}, {*range(241), 254, 255}, (0, 1, 240, 241, 253, 254, 255)
MODES_OF_OPERATION = 0x6060
COB_ID, TRANSMISSION_TYPE = 1, 2
POSITION_LIMITS, MINIMUM, MAXIMUM = 0x607D, 1, 2
LEAST, GREATEST = -(2**31), 2**31 - 1
# minimum and maximum that the node is given, before another is tried
LIMITS = ((LEAST, GREATEST), (-1000, 1000), (-1000, -500), (500, 1000), (-1, 0), (0, 0), (LEAST, LEAST), (GREATEST, GREATEST))


class Step(NamedTuple):
    request: bytes
    reply: bytes


class Case(NamedTuple):
    claim: str  # what the sheet says
    steps: list


def writes(index, subindex, data):
    return Step(bench.download(index, subindex, data), bench.stored(index, subindex))


def refuses(index, subindex, data, abort):
    return Step(bench.download(index, subindex, data), bench.aborted(index, subindex, abort))


def reads(index, subindex, data):
    return Step(bench.upload(index, subindex), bench.held(index, subindex, data))


def writes_by_segments(index, subindex, data, abort=None):
    """The data downloaded by segments, each of which is taken, the last too or refused with the abort. Nothing is left running."""
    requests = bench.segments(data)
    replies = bench.toggled(bench.SEGMENT_TAKEN, len(requests))
    if abort:
        replies[-1] = bench.aborted(index, subindex, abort)
    starts = Step(bench.download_by_segments(index, subindex, len(data)), bench.stored(index, subindex))
    return [starts, *map(Step, requests, replies), Step(bench.segments(bytes(1))[0], bench.aborted(0, 0, NO_TRANSFER))]


def reads_by_segments(index, subindex, data):
    """The data uploaded by segments. Nothing is left running."""
    replies = bench.segments(data)
    requests = bench.toggled(bench.SEGMENT_WANTED, len(replies) + 1)
    starts = Step(bench.upload(index, subindex), bench.held_by_segments(index, subindex, len(data)))
    return [starts, *map(Step, requests, [*replies, bench.aborted(0, 0, NO_TRANSFER)])]


def tries(entry, value, abort):
    """The value written to the entry and read back, or refused with the abort."""
    place, data = (entry.index, entry.subindex), bench.little(value, entry.type.size)
    if abort:
        return [refuses(*place, data, abort)]
    return [writes(*place, data), reads(*place, data)]


def as_held(entry, value):
    """The number that the entry's type makes of the value's bytes."""
    return int.from_bytes(bench.little(value, entry.type.size), "little", signed=entry.type.signed)


def default_data(entry, node_id):
    """The bytes of the entry's default."""
    return entry.default.encode("ascii", "replace") if entry.is_text else bench.little(entry.default_at(node_id), entry.type.size)


def is_in(index, first):
    return first <= index < first + PDO_ROOM


def is_communication(entry):
    return is_in(entry.index, RECEIVE) or is_in(entry.index, TRANSMIT)


def is_mapping(entry):
    return is_in(entry.index, RECEIVE + MAPPING) or is_in(entry.index, TRANSMIT + MAPPING)


def directions(entry):
    """The PDOs that an entry may be mapped to, by its access."""
    if not entry.mappable:
        return set()
    return {"rww": {RECEIVE}, "wo": {RECEIVE}, "rw": {RECEIVE, TRANSMIT}}.get(entry.access, {TRANSMIT})


def mapping_word(entry, bits):
    return entry.index << 16 | entry.subindex << 8 | bits % 256


def tie(pair):
    return f"[{pair[0].section}] is at most [{pair[1].section}]"


def is_in_order(pair, values):
    low, high = map(as_held, pair, values)
    return low <= high


def gives(pair, values):
    """The limits written to a node that has the default ones."""
    return [writes(entry.index, entry.subindex, bench.little(value, entry.type.size)) for entry, value in zip(pair, values)]


def moved(pair):
    """Both limits moved up and down again, the wrong one first and then the right one."""
    low, high = ((entry.index, entry.subindex) for entry in pair)
    here, there = ([bench.little(value, entry.type.size) for entry, value in zip(pair, values)] for values in ((-10, 10), (20, 30)))
    up = [refuses(*low, there[0], NOT_COMPATIBLE), writes(*high, there[1]), writes(*low, there[0])]
    down = [refuses(*high, here[1], NOT_COMPATIBLE), writes(*low, here[0]), writes(*high, here[1])]
    return [*gives(pair, (-10, 10)), *up, reads(*low, there[0]), reads(*high, there[1]), *down, reads(*low, here[0]), reads(*high, here[1])]


class Claims:
    def __init__(self, sheet, node_id):
        self.sheet, self.node_id, self.pdos = sheet, node_id, sheet.pdos()

    def cases(self):
        for entry in self.sheet.entries.values():
            yield from self.access(entry)
            if entry.is_text:
                yield from self.text(entry)
            elif entry.access in WRITABLE:
                yield from self.values(entry)
                yield from self.sizes(entry)
            yield from self.mapped(entry)
        yield from self.position_limits()
        yield from self.dummies()

    # ---- the steps that bring the node where only the value decides

    def identifier(self, communication):
        return self.sheet.entries[communication, COB_ID].default_at(self.node_id)

    def not_valid(self, communication):
        """The PDO is made not valid, with the identifier that it has."""
        return writes(communication, COB_ID, bench.little(self.identifier(communication) | NOT_VALID, 4))

    def valid(self, communication):
        return writes(communication, COB_ID, bench.little(self.identifier(communication), 4))

    def open_mapping(self, mapping):
        return [self.not_valid(mapping - MAPPING), writes(mapping, 0, bytes(1))]

    def filled_mapping(self, mapping):
        """Every entry of the mapping names the same object of one byte, so that any number of them fits a frame."""
        way = RECEIVE if is_in(mapping, RECEIVE + MAPPING) else TRANSMIT
        bytewide = [entry for entry in self.sheet.entries.values() if way in directions(entry) and entry.type.size == 1]
        words = [bench.little(mapping_word(entry, 8), 4) for entry in bytewide[:1]]
        slots = [subindex for index, subindex in self.sheet.entries if index == mapping and subindex]
        return self.open_mapping(mapping) + [writes(mapping, slot, word) for slot in slots for word in words]

    def prepared(self, entry):
        if not is_mapping(entry):
            return []
        return self.open_mapping(entry.index) if entry.subindex else self.filled_mapping(entry.index)

    # ---- access, values, sizes

    def access(self, entry):
        """The default is written, at once where four bytes hold it and by segments, and read back; or it is refused both ways."""
        claim, place, data = entry.says("AccessType"), (entry.index, entry.subindex), default_data(entry, self.node_id)
        if entry.access == "wo":
            yield Case(claim, [Step(bench.upload(*place), bench.aborted(*place, NO_READING))])
        if entry.access not in WRITABLE:
            yield Case(claim, [refuses(*place, data[:4], NO_WRITING)])
            yield Case(claim, writes_by_segments(*place, data, NO_WRITING))
            return
        if not entry.is_text:
            yield Case(claim, self.prepared(entry) + tries(entry, entry.default_at(self.node_id), None))
        yield Case(claim, self.prepared(entry) + writes_by_segments(*place, data) + self.read(entry))

    def read(self, entry):
        place, data = (entry.index, entry.subindex), default_data(entry, self.node_id)
        return reads_by_segments(*place, data) if entry.is_text else [reads(*place, data)]

    def text(self, entry):
        yield Case(entry.says("DataType", "DefaultValue"), self.read(entry))

    def values(self, entry):
        """The ends of the entry's range and what lies next to them; where the sheet gives no limits, what document 01 says."""
        if entry.low is None and entry.high is None:
            yield from self.unlimited(entry)
            return
        low = entry.type.least if entry.low is None else entry.low
        high = entry.type.greatest if entry.high is None else entry.high
        claim = entry.says(*[key for key in ("LowLimit", "HighLimit") if key in entry.said])
        for value, abort in ((low, None), (high, None), (low - 1, BELOW), (high + 1, ABOVE)):
            if entry.type.holds(value):
                yield Case(claim, self.prepared(entry) + tries(entry, value, abort))

    def unlimited(self, entry):
        if is_communication(entry) and entry.subindex == COB_ID:
            yield from self.cob_id(entry)
            return
        if is_mapping(entry) and entry.subindex:
            due = {0: None, 0xFFFFFFFF: NO_OBJECT}
        elif entry.index == MODES_OF_OPERATION:
            due = {value: None if value in MODES else BAD_VALUE for value in range(-128, 128)}
        elif is_communication(entry) and entry.subindex == TRANSMISSION_TYPE:
            due = {value: None if value in TYPES else BAD_VALUE for value in TYPE_EDGES}
        else:
            due = {entry.type.least: None, entry.type.greatest: None}
        for value, abort in due.items():
            yield Case(f"[{entry.section}] has no limits", self.prepared(entry) + tries(entry, value, abort))

    def cob_id(self, entry):
        """Bits and range of a PDO's identifier, no two valid PDOs with one, and no way from valid to valid."""
        own = TRANSMIT_BIT if is_in(entry.index, TRANSMIT) else 0
        taken = [self.identifier(pdo.communication) & IDENTIFIER for pdo in self.pdos if pdo.communication != entry.index]
        edges = [FIRST_IDENTIFIER - 1, FIRST_IDENTIFIER, LAST_IDENTIFIER, LAST_IDENTIFIER + 1, *taken]
        legal = {own | x: FIRST_IDENTIFIER <= x <= LAST_IDENTIFIER and x not in taken for x in edges}
        legal |= {NOT_VALID | own: True, NOT_VALID | own | IDENTIFIER: True, NOT_VALID | own ^ TRANSMIT_BIT: False}
        legal |= {own | RESERVED_BIT | FIRST_IDENTIFIER: False, own ^ TRANSMIT_BIT | FIRST_IDENTIFIER: False}
        claim = f"[{entry.section}] has no limits"
        for value, good in legal.items():
            yield Case(claim, [self.not_valid(entry.index), *tries(entry, value, None if good else BAD_VALUE)])
        yield Case(claim, tries(entry, own | FIRST_IDENTIFIER, BAD_VALUE))

    def sizes(self, entry):
        for size in {1, 2, 3, 4} - {entry.type.size}:
            abort = TOO_LONG if size > entry.type.size else TOO_SHORT
            yield Case(entry.says("DataType"), [refuses(entry.index, entry.subindex, bytes(size), abort)])

    # ---- the limits of the position, which are tied to each other

    def position_limits(self):
        """The minimum stays at most the maximum. A sheet that lacks one of them is refused for that."""
        pair = [self.sheet.entries.get((POSITION_LIMITS, subindex)) for subindex in (MINIMUM, MAXIMUM)]
        if all(entry and entry.access in WRITABLE and not entry.is_text for entry in pair):
            for present in LIMITS:
                for entry in pair:
                    yield from self.tied(pair, present, entry)
            yield from self.lengths_first(pair)
            yield Case(tie(pair), moved(pair))

    def tied(self, pair, present, entry):
        """What lies at the limits and next to them, and where a sign counts, judged by the other limit as it is, at once and by segments."""
        place, size, own = (entry.index, entry.subindex), entry.type.size, pair.index(entry)
        edges = {limit + step for limit in present for step in (-1, 0, 1)} | {LEAST, -1, 0, GREATEST}
        for value in sorted({as_held(entry, edge) for edge in edges}):
            wanted = [value if i == own else limit for i, limit in enumerate(present)]
            abort = None if is_in_order(pair, wanted) else NOT_COMPATIBLE
            data, left = bench.little(value, size), reads(*place, bench.little(present[own] if abort else value, size))
            at_once = refuses(*place, data, abort) if abort else writes(*place, data)
            yield Case(tie(pair), [*gives(pair, present), at_once, left])
            yield Case(tie(pair), [*gives(pair, present), *writes_by_segments(*place, data, abort), left])

    def lengths_first(self, pair):
        """Zeros would swap these limits, but a wrong length is found before that."""
        for entry, present in zip(pair, ((-1000, -500), (500, 1000))):
            place = entry.index, entry.subindex
            for size in {1, 2, 3, 5, 8} - {entry.type.size}:
                abort = TOO_LONG if size > entry.type.size else TOO_SHORT
                yield Case(tie(pair), [*gives(pair, present), *writes_by_segments(*place, bytes(size), abort)])
                if size < 4:
                    yield Case(tie(pair), [*gives(pair, present), refuses(*place, bytes(size), abort)])

    # ---- mapping

    def mapped(self, entry):
        """The entry in the first slot of each PDO: mapped and the PDO made valid again, or refused. Another bit length is refused."""
        word, other = (bench.little(mapping_word(entry, bits), 4) for bits in (8 * entry.size, 8 * entry.size + 8))
        for pdo in self.pdos:
            opened = self.open_mapping(pdo.mapping)
            used = [writes(pdo.mapping, 1, word), writes(pdo.mapping, 0, b"\1"), self.valid(pdo.communication)]
            due = used if pdo.direction in directions(entry) else [refuses(pdo.mapping, 1, word, NOT_MAPPABLE)]
            yield Case(entry.says("AccessType", "PDOMapping"), opened + due)
            yield Case(entry.says("DataType"), opened + [refuses(pdo.mapping, 1, other, NOT_MAPPABLE)])

    def dummies(self):
        """Data types are mapped as placeholders of received data where the sheet says so."""
        pdo = next(pdo for pdo in self.pdos if pdo.direction == RECEIVE)
        for key, flag in self.sheet.sections["DummyUsage"].items():
            word = bench.little(int(key.removeprefix("Dummy"), 16) << 16 | 8, 4)
            due = writes(pdo.mapping, 1, word) if flag == "1" else refuses(pdo.mapping, 1, word, NO_OBJECT)
            yield Case(f"[DummyUsage] {key}={flag}", self.open_mapping(pdo.mapping) + [due])
