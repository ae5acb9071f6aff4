"""A frame or an event as a row of the readable trace."""
from dataclasses import dataclass, field
from functools import lru_cache
from typing import NamedTuple, Optional, Union

from . import dcf, events, node as can, segments, words
from .bench import Answer
from .dcf import byte_count
from .eds import Objects, Place
from .log import Entry
from .node import Kept, Node, Pdo, Sdo
from .records import MOST_KEPT, BadInput, Damage, Event, Frame, Load, PowerUp
from .segments import Segment, Transfer, segment_of, toggle_of

IN, OUT, AMPLIFIER = 'in', 'out', 'amp'
PLAIN, QUIET, GOOD, BAD = 'plain', 'quiet', 'good', 'bad'


class ObjectText(NamedTuple):
    place: str
    name: str
    value: str = ''
    joint: str = ' = '  # between name and value


@dataclass
class Row:
    """One line of the trace, or several where a frame has several objects."""
    time: int
    direction: str = ''
    service: str = ''
    frame: Optional[Frame] = None
    details: list[Union[ObjectText, str]] = field(default_factory=list)
    style: str = PLAIN
    shows_status: Optional[int] = None  # the status word, where this row shows it
    line: int = 0  # the entry that it comes from


DEVICE_TYPE, ERROR_REGISTER, HEARTBEAT_TIME, ERROR_CODE = (0x1000, 0), (0x1001, 0), (0x1017, 0), (0x603F, 0)
CONTROL_WORD, STATUS_WORD, SUPPORTED_MODES = can.CONTROL_WORD, (0x6041, 0), (0x6502, 0)
TIMES = (HEARTBEAT_TIME, can.WINDOW_TIME)  # in milliseconds
NO_OBJECT = (0, 0)  # as an abort names none
MOST_NUMBER = 4  # bytes that are shown as a number


class LastIn(NamedTuple):
    """What was put in last, and what was known before it."""
    entry: Entry
    node: Kept
    status: int


class Decoder:
    """Turns a trace into rows, in order: what a row says depends on what came before it."""

    def __init__(self, objects: Objects, answers: Optional[bool] = True):
        """answers: whether the trace has SDO answers, where that is known."""
        self.objects = objects
        self.node = Node(objects, answers)
        # as they were before the frame that is put in or out
        self.running: Optional[Transfer] = None
        self.asked: Optional[Sdo] = None
        self.last_in: Optional[LastIn] = None
        self.texts: dict[tuple[Place, Optional[bytes], int], ObjectText] = {}  # by object, data and mode
        self.status = 0  # the status word that was shown last

    # what goes in and out

    def put_in(self, entry: Entry, accepted: bool = True) -> Row:
        """The row of a record. One that was refused tells nothing about the node."""
        what = entry.what
        self.running = self.node.transfer
        if isinstance(what, Event):
            return Row(entry.time, AMPLIFIER, 'event', details=[event_text(what)], line=entry.line)
        self.last_in = LastIn(entry, self.node.keep(), self.status)
        if isinstance(what, Frame):
            if accepted:
                self.node.receive(what)
            row = self.row_in(what)
        elif isinstance(what, PowerUp):
            if accepted:
                self.node.power_up(what.node)
                self.status = 0
            row = Row(0, AMPLIFIER, 'power-up', details=[f'node-ID {what.node}'])
        elif isinstance(what, Load):
            row = Row(0, AMPLIFIER, 'load', details=self.load_details(what.data))
            if accepted:
                self.node.load(dcf.entries_in(what.data) or [])
        elif isinstance(what, Damage):
            row = Row(0, AMPLIFIER, 'bad record', details=[f'{len(what.data)} bytes: {what.data[:20].hex(" ").upper()}'], style=BAD)
        row.time, row.line = entry.time, entry.line
        return row

    def take_back(self, entry: Entry) -> None:
        """An entry turns out to be refused. Only the last one that was put in can be taken back."""
        if self.last_in and self.last_in.entry is entry:
            self.node.take_back(self.last_in.node)
            self.status = self.last_in.status

    def put_out(self, frame: Frame, entry: Entry) -> Row:
        """The row of a frame that the node sent."""
        self.running, self.asked = self.node.transfer, self.node.request
        self.node.send(frame)
        row = self.row_out(frame)
        row.time, row.line = entry.time, entry.line
        return row

    # files

    def load_details(self, content: bytes) -> list[Union[ObjectText, str]]:
        """The entries of a file, or why it has none."""
        try:
            entries = dcf.decode(content, 'file')
        except BadInput as wrong:
            return [str(wrong)]
        return [f'file of {dcf.entry_count(len(entries))}', *(self.object_text(entry.place, entry.data) for entry in entries)]

    def refusal_row(self, entry: Entry, answer: Answer) -> Row:
        """Why a record was refused; of a load that an entry was aborted in, which one and why."""
        row = Row(entry.time, '', 'refused', details=[f"{answer.refusal}: {words.REFUSALS.get(answer.refusal, 'unknown')}"], style=BAD)
        if answer.load and answer.load.entry:
            tried = (dcf.entries_in(entry.what.data) or [])[:answer.load.entry]
            row.details[0] += f', number {answer.load.entry}'
            row.details += self.entry_reasons(tried, answer.load.code)
        return row

    def entry_reasons(self, tried: list[dcf.Entry], code: int) -> list[Union[ObjectText, str]]:
        """Why the last of these entries of a file was aborted."""
        if not tried:
            return [words.abort(code)]
        swapped = tried[-1].place in can.POSITION_LIMITS and code == words.NOT_COMPATIBLE
        limits = ['minimum {} would be above maximum {}'.format(*self.node.limits_with(tried))] if swapped else []
        return [self.remark(tried[-1].place, words.abort(code)), *limits]

    # frames to the node

    def row_in(self, frame: Frame) -> Row:
        identifier = frame.identifier
        if identifier == can.NMT:
            return self.make(IN, 'NMT', frame, [nmt_text(frame.data)])
        if identifier == can.SYNC:
            wrong = f'{len(frame.data)} bytes, where SYNC has none'
            return self.make(IN, 'SYNC', frame, [wrong] if frame.data else [])
        if self.node.is_on(identifier, can.SDO_REQUEST):
            return self.sdo_request(frame)
        pdo = self.node.pdo_on(can.RECEIVE, identifier)
        if pdo:
            return self.pdo(IN, can.RECEIVE, pdo, frame)
        return self.make(IN, 'other', frame, [other_text(identifier)], QUIET)

    def sdo_request(self, frame: Frame) -> Row:
        sdo = can.sdo_of(frame)
        if sdo is None:
            return self.make(IN, 'SDO request', frame, [f'{len(frame.data)} bytes: not served'])
        if sdo.starts_segments:
            told = '' if sdo.told_size is None else f'{byte_count(sdo.told_size)} told, '
            return self.make(IN, 'SDO write', frame, [self.remark(sdo.place, f'{told}by segments')])
        if sdo.kind == can.DOWNLOAD:
            return self.make(IN, 'SDO write', frame, [self.carried_value(sdo)])
        if sdo.kind == can.UPLOAD:
            return self.make(IN, 'SDO read', frame, [self.object_text(sdo.place)])
        if sdo.kind == can.DOWNLOAD_SEGMENT:
            return self.data_segment(IN, segments.DOWNLOAD, frame)
        if sdo.kind == can.UPLOAD_SEGMENT:
            return self.make(IN, 'SDO segment', frame, [self.segment_text(segments.UPLOAD, toggle_of(sdo.command))])
        if sdo.kind == can.ABORT:
            return self.make(IN, 'SDO abort', frame, [self.abort_text(sdo)])
        return self.make(IN, 'SDO request', frame, [self.object_text(sdo.place), f'unknown command {sdo.command:02X}h'])

    # frames of the node

    def row_out(self, frame: Frame) -> Row:
        identifier, data = frame.identifier, frame.data
        if self.node.is_on(identifier, can.HEARTBEAT):
            return self.heartbeat(frame)
        if self.node.is_on(identifier, can.EMERGENCY) and len(data) == 8:
            code, register = int.from_bytes(data[:2], 'little'), data[2]
            text = f'{words.emergency(code)}; error register {words.error_register(register)}'
            return self.make(OUT, 'EMCY', frame, [text], BAD if code else GOOD)
        if self.node.is_on(identifier, can.SDO_ANSWER):
            return self.sdo_answer(frame)
        pdo = self.node.pdo_on(can.TRANSMIT, identifier)
        if pdo:
            return self.pdo(OUT, can.TRANSMIT, pdo, frame)
        return self.make(OUT, 'other', frame, [other_text(identifier)], QUIET)

    def heartbeat(self, frame: Frame) -> Row:
        if frame.data == b'\0':
            return self.make(OUT, 'boot-up', frame)
        state = words.NMT_STATES.get(frame.data[0], 'unknown state') if len(frame.data) == 1 else 'not one byte'
        return self.make(OUT, 'heartbeat', frame, [state])

    def sdo_answer(self, frame: Frame) -> Row:
        sdo = can.sdo_of(frame)
        if sdo is None:
            return self.make(OUT, 'SDO answer', frame, [f'{len(frame.data)} bytes, where 8 are due'])
        if sdo.kind == can.WRITTEN and self.asked and self.asked.starts_segments:
            return self.make(OUT, 'SDO ready', frame, [self.remark(sdo.place, 'by segments')])
        if sdo.kind == can.WRITTEN:
            return self.make(OUT, 'SDO written', frame, [self.object_text(sdo.place)])
        if sdo.kind == can.READ:
            return self.sdo_value(sdo, frame)
        if sdo.kind == can.SEGMENT_READ:
            return self.data_segment(OUT, segments.UPLOAD, frame)
        if sdo.kind == can.SEGMENT_WRITTEN:
            service = 'SDO written' if self.asked and self.asked.is_last_segment else 'SDO segment'
            return self.make(OUT, service, frame, [self.segment_text(segments.DOWNLOAD, toggle_of(sdo.command), ', taken')])
        if sdo.kind == can.ABORTED:
            return self.make(OUT, 'SDO abort', frame, [self.abort_text(sdo), *self.reasons(sdo)], BAD)
        return self.make(OUT, 'SDO answer', frame, [self.object_text(sdo.place), f'unknown command {sdo.command:02X}h'])

    def sdo_value(self, sdo: Sdo, frame: Frame) -> Row:
        """The answer of an upload: a value, or how many bytes of it the segments bring."""
        if not sdo.is_expedited:
            told = '' if sdo.told_size is None else f'{byte_count(sdo.told_size)}, '
            return self.make(OUT, 'SDO value', frame, [self.remark(sdo.place, f'{told}by segments')])
        row = self.make(OUT, 'SDO value', frame, [self.carried_value(sdo)])
        if sdo.place == STATUS_WORD:
            self.show_status(row, int.from_bytes(sdo.data[:2], 'little'))
        return row

    def carried_value(self, sdo: Sdo) -> ObjectText:
        """The value of an expedited transfer. Where neither it nor the object tells how many bytes it has, there may be fewer than are shown."""
        known, data = self.objects.get(sdo.place), self.node.carried(sdo)
        if sdo.told_size is None and (known is None or known.is_text):
            return self.object_text(sdo.place)._replace(value=f'{words.shown(data)}, of which it is not told how many count')
        return self.object_text(sdo.place, data)

    def abort_text(self, sdo: Sdo) -> Union[ObjectText, str]:
        text = words.abort(int.from_bytes(sdo.data, 'little'))
        return self.remark(sdo.place, text) if sdo.place != NO_OBJECT else f'no object: {text}'

    def reasons(self, sdo: Sdo) -> list[str]:
        """Under a limit of the position that is refused for the other one: why, with both numbers where the trace shows them."""
        if sdo.place not in can.POSITION_LIMITS or int.from_bytes(sdo.data, 'little') != words.NOT_COMPATIBLE:
            return []
        data, limit = self.data_asked_for(sdo.place), self.objects.get(sdo.place)
        low, high = self.node.limits_with([dcf.Entry(sdo.place, data)])
        known = limit and limit.size == len(data) and low > high
        return [f'minimum {low} would be above maximum {high}' if known else 'the minimum would be above the maximum']

    def data_asked_for(self, place: Place) -> bytes:
        """What the request that is answered now would have stored there; nothing where the trace does not show it."""
        asked, running = self.asked, self.running
        if asked and asked.is_last_segment and running and running.place == place:
            return running.with_data(segment_of(asked.whole).data).data
        is_there = asked and asked.kind == can.DOWNLOAD and asked.is_expedited and asked.place == place
        return self.node.carried(asked) if is_there else b''

    # segments, both ways

    def data_segment(self, direction: str, way: str, frame: Frame) -> Row:
        """A segment that carries data. Under the last one of a transfer stands the value that all of them make."""
        segment, running = segment_of(frame.data), self.running
        row = self.make(direction, 'SDO segment', frame, [self.segment_text(way, segment.toggle, self.carried_text(segment), segment.is_last)])
        if segment.is_last and running and running.fits(way, segment.toggle):
            row.details.append(self.whole_value(running.with_data(segment.data)))
        return row

    def whole_value(self, transfer: Transfer) -> ObjectText:
        """What all segments of a transfer make."""
        return self.object_text(transfer.place)._replace(value=self.value_text(transfer.place, transfer.data, transfer.size))

    def segment_text(self, way: str, toggle: int, more: str = '', is_last: bool = False) -> Union[ObjectText, str]:
        """Which segment of which transfer, by the transfer that runs before it."""
        running, last = self.running, 'last ' if is_last else ''
        if not running or running.direction != way:
            return f'no {way} runs: {last}segment, toggle {toggle}{more}'
        due = '' if toggle == running.toggle else f' where {running.toggle} is due'
        return self.remark(running.place, f'{last}{way} segment {running.count + 1}, toggle {toggle}{due}{more}')

    def carried_text(self, segment: Segment) -> str:
        """How many bytes a segment carries, and of a text which."""
        entry = self.objects.get(self.running.place) if self.running else None
        shown = f' {words.text(segment.data)}' if entry and entry.is_text and segment.data else ''
        return f', {byte_count(len(segment.data))}{shown}'

    # both ways

    def make(self, direction: str, service: str, frame: Frame, details: Optional[list] = None, style: str = PLAIN) -> Row:
        return Row(0, direction, service, frame, details or [], style)

    def pdo(self, direction: str, kind: str, pdo: Pdo, frame: Frame) -> Row:
        """A PDO's objects by the mapping in force; of one that is cut short none, since the node takes none."""
        row = self.make(direction, f'{kind}PDO{pdo.number}', frame)
        if len(frame.data) < pdo.size:
            names = ', '.join(dcf.place_text(part.place) for part in pdo.parts)
            row.details.append(f'too short: {len(frame.data)} of the {pdo.size} bytes of {names}')
            return row
        for part in pdo.parts:
            data = frame.data[part.start:part.start + part.size]
            row.details.append(self.object_text(part.place, data))
            if part.place == STATUS_WORD:
                self.show_status(row, int.from_bytes(data, 'little'))
        if len(frame.data) > pdo.size:
            row.details.append(f'{len(frame.data) - pdo.size} bytes more than mapped')
        return row

    def object_text(self, place: Place, data: Optional[bytes] = None) -> ObjectText:
        """An object by its name, with its value where there is data. The same may be asked for often: it is kept."""
        key = place, data, self.node.mode
        text = self.texts.get(key)
        if text is None:
            entry = self.objects.get(place)
            name = entry.name if entry else '(not in the dictionary)'
            text = ObjectText(dcf.place_text(place), name, '' if data is None else self.value_text(place, data))
            if len(self.texts) >= MOST_KEPT:
                self.texts.clear()
            self.texts[key] = text
        return text

    def remark(self, place: Place, text: str) -> ObjectText:
        """What is said about an object and is not its value."""
        return self.object_text(place)._replace(value=text, joint=': ')

    def value_text(self, place: Place, data: bytes, whole_size: Optional[int] = None) -> str:
        """A value in words where its object has words for it, and as a number otherwise. whole_size: where these are only its first bytes."""
        entry, size = self.objects.get(place), len(data) if whole_size is None else whole_size
        value = int.from_bytes(data, 'little')
        if entry and entry.is_text:
            return words.text(data)
        if not entry or entry.size != size:
            return (words.number(value, size) if 0 < size <= MOST_NUMBER else words.shown(data)) + f' in {size} byte(s)'
        if place == CONTROL_WORD:
            return words.control_word(value, self.node.mode)
        if place == STATUS_WORD:
            return words.status_word(value, self.node.mode)
        if place == ERROR_CODE:
            return words.emergency(value) if value else '0000h'
        if place == ERROR_REGISTER:
            return words.error_register(value)
        if place in (can.MODE, can.MODE_DISPLAY):
            return f"{int.from_bytes(data, 'little', signed=True)} {words.MODES.get(value, 'unknown')}"
        if place in TIMES:
            return f'{value} ms'
        if place == DEVICE_TYPE:
            return f'{value:08X}h device profile {value & 0xFFFF}'
        if place == SUPPORTED_MODES:
            return f"{value:08X}h {', '.join(words.bits(value, words.SUPPORTED_MODES))}"
        return self.parameter_text(place, value) or words.number(int.from_bytes(data, 'little', signed=entry.signed), size)

    def parameter_text(self, place: Place, value: int) -> Optional[str]:
        """The parameters of PDOs; none for other objects."""
        index, sub = place
        if index not in can.PARAMETERS:
            return None
        if can.is_parameter(index, can.COMMUNICATION) and sub == 1:
            return f'{value:08X}h ' + ('not valid' if value & can.NOT_VALID else f'on {value & 0x7FF:03X}h')
        if can.is_parameter(index, can.COMMUNICATION) and sub == 2:
            return f'{value} {type_text(value, index >= can.COMMUNICATION[can.TRANSMIT])}'
        if can.is_parameter(index, can.MAPPING) and sub:
            target = self.objects.get((value >> 16, value >> 8 & 0xFF))
            name = target.name if target else 'no such object'
            return f'{value:08X}h {name}, {value & 0xFF} bits' if value else '00000000h nothing'
        return None

    def status_row(self, time: int, status: int) -> Row:
        """The node's status word after a call that changed it."""
        text = self.object_text(STATUS_WORD)._replace(value=words.status_word(status, self.node.mode))
        row = Row(time, '', 'state', details=[text], style=GOOD)
        self.show_status(row, status)
        return row

    def show_status(self, row: Row, status: int) -> None:
        """The row shows this status word. Under target reached that is new stands how long it waited."""
        row.shows_status = status
        if status & ~self.status & words.REACHED and self.node.window_time:
            row.details.append(self.remark(can.WINDOW_TIME, f'inside for {self.node.window_time} ms'))
        self.status = status


@lru_cache(MOST_KEPT)
def event_text(event: Event) -> str:
    values = events.values_of(event)
    if values is None:
        return f'number {event.number}, arguments {event.arguments.hex(" ").upper() or "none"}'
    kind = events.KINDS[event.number]
    if kind.word == 'fault':
        code, register = (int(value, 16) for value in values)
        return f'fault {words.emergency(code)}; error register gains {words.error_register(register)}'
    named = [value if argument.form == 'flag' else f'{argument.name} {value}' for argument, value in zip(kind.arguments, values)]
    return f"{kind.word} {', '.join(named)}".rstrip()


def nmt_text(data: bytes) -> str:
    if len(data) != 2:
        return f'{len(data)} bytes, where NMT has 2: not served'
    command = words.NMT_COMMANDS.get(data[0], f'unknown command {data[0]:02X}h')
    return f'{command}, ' + (f'node {data[1]}' if data[1] else 'all nodes')


def type_text(value: int, transmit: bool) -> str:
    """A PDO's transmission type."""
    if value in (254, 255):
        return 'on change' if transmit else 'at once'
    if value > 240:
        return 'not served'
    if not transmit:
        return 'at the next SYNC'
    return {0: 'at SYNC, if changed', 1: 'at each SYNC'}.get(value, f'at every {value}th SYNC')


USUAL = {0x080: 'emergency', 0x180: 'TPDO1', 0x200: 'RPDO1', 0x280: 'TPDO2', 0x300: 'RPDO2', 0x380: 'TPDO3', 0x400: 'RPDO3', 0x480: 'TPDO4',
         0x500: 'RPDO4', 0x580: 'SDO answer', 0x600: 'SDO request', 0x700: 'heartbeat'}


def other_text(identifier: int) -> str:
    """What a frame that is none of this node's would be by the usual identifiers."""
    service, number = USUAL.get(identifier & 0x780), identifier & 0x7F
    if identifier > 0x7FF or not number or not service:
        return ''
    return f'{service} of node {number}, by the usual identifiers'
