"""Candump logs with the amplifier's events among the frames, as text, both ways."""
import re
from dataclasses import dataclass
from functools import lru_cache
from pathlib import Path
from typing import Iterable, Iterator, NamedTuple, Optional, Union

from . import events
from .inputs import LONGEST_LINE
from .records import MOST_KEPT, MOST_LOAD, BadInput, Damage, Event, Frame, Load, PowerUp, Record, what_is_wrong

NOTATION = """\
A log is what candump writes, in its log-file form or its screen form, with colour or without:

  (1699999999.123456) can0 605#2B40600006000000
    can0  605   [8]  2B 40 60 00 06 00 00 00

Time stamps are in seconds, with up to nine decimals.

What is no frame of the bus stands behind '#>', with a time stamp where one is known:

  #> power-up 5                  the node powers up with this node-ID
  #> started                     an event of the amplifier:
  #> (0.250000) feedback 1200 40   position and velocity, decimal
  #> voltage on                    or off
  #> fault 2310 02                 error code and error register, hexadecimal
  #> reaction-done                 the fault reaction ended
  #> cause-gone                    the fault's cause is gone
  #> quick-stop-done               the axis stands after a quick stop
  #> set-point-reached             the active set-point is done
  #> tick 100                      so many ticks of 1 ms (one, if no number is given)
  #> load feeder.dcf             a concise DCF is loaded: a file, found from the log's folder, or its bytes as digits
  #> event 12 0A0B               an event that has no name: number, argument bytes
  #> frame 8FF#0102              a frame that no bus carries: any 16-bit identifier, up to 14 bytes
  #> damage 0300                 bytes that are no record, to the end of the stream

'## ..' is a chapter's heading and '# ..' a note: the readable trace shows both."""

MICROSECOND, SECOND = 1_000, 1_000_000_000  # times are in nanoseconds
TICK_TIME = 1000 * MICROSECOND  # of one tick
TICK = Event(events.TICK, b'')
MOST_TICKS = 1_000_000  # in one line
LONGEST_GAP = 3600 * SECOND  # between two time stamps that make ticks
MOST_DATA, MOST_RECORD_DATA = 8, 14  # bytes of a frame on the bus, and in a record
NO_BYTES = 'nothing'  # as the content of a file

# the form of most lines
USUAL_FORM = re.compile(r'\(([0-9]{1,12})\.([0-9]{6}|[0-9]{9})\) ([0-9A-Za-z_.-]+) ([0-7][0-9A-F]{2})#((?:[0-9A-F]{2}){0,8})(?: [RT])?')
STAMP = r'\s*(?:\((?P<time>[^)]*)\)\s+)?'
BUS = r'(?P<bus>[^\s(\x00-\x1f\x7f-\x9f][^\s\x00-\x1f\x7f-\x9f]*)\s+'
FLAGS = r'(?:[RT]X\s+\S+\s+\S+\s+)?'
LOG_FORM = re.compile(STAMP + BUS + r'(?P<identifier>[0-9A-Fa-f]+)#(?P<data>\S*)(?:\s+[RT])?\s*$')
SCREEN_FORM = re.compile(STAMP + BUS + FLAGS + r'(?P<identifier>[0-9A-Fa-f]+)\s+\[(?P<length>\d+)\](?P<data>.*)$')
NO_BUS_FORM = re.compile(STAMP + FLAGS + r'[0-9A-Fa-f]+(?:#\S*(?:\s+[RT])?\s*|\s+\[\d+\].*)$')
DIRECTIVE = re.compile(r'#>\s*(?:\((?P<time>[^)]*)\)\s*)?(?P<words>.*)$')
TIME = re.compile(r'([0-9]{1,12})(?:\.([0-9]{1,9}))?')
COLOUR = re.compile(r'\x1b\[[0-9;]*m')  # as candump -c has it in its lines
ERROR_FLAG = 0x20000000  # in the identifier of candump's error frames


@dataclass(frozen=True)
class Heading:
    text: str


@dataclass(frozen=True)
class Note:
    text: str


class Entry(NamedTuple):
    """One thing of a log: where it stands (a line, or the number of a record) and when it was, in nanoseconds."""
    line: int
    time: int
    what: Union[Record, Heading, Note]
    stamped: bool = False


def is_tick(what: Union[Record, Heading, Note]) -> bool:
    return what is TICK or isinstance(what, Event) and what == TICK


class Foreign(ValueError):
    """A frame that this bus does not have."""


class Options(NamedTuple):
    bus: Optional[str] = None  # the one interface to look at
    skip_foreign: bool = False


def parse(lines: Iterable[str], file: str, options: Options = Options(), lead: Optional[int] = 0) -> Iterator[Entry]:
    """The entries of a log, as its lines come; a bad line is an error with its number."""
    reader = Reader(options, Path(file).parent, lead)
    for number, line in enumerate(lines, 1):
        try:
            yield from reader.take(number, line)
        except ValueError as wrong:
            raise BadInput(f'{file}, line {number}: {wrong}') from None


def with_start(entries: list[Entry]) -> list[Entry]:
    """What stands before the first time stamp is moved up to it."""
    first = next((place for place, entry in enumerate(entries) if entry.stamped), 0)
    gap = gap_before(entries[first], entries[first - 1]) if first else 0
    return [entry._replace(time=entry.time + gap) for entry in entries[:first]] + entries[first:]


def gap_before(stamped: Entry, last: Entry) -> int:
    """How far what stands before the first time stamp is moved up, by the last of it."""
    return max(stamped.time - last.time, 0)


class Reader:
    """A log as far as it was read. What has no time stamp has the time of what stands before it; a tick lasts its millisecond."""

    def __init__(self, options: Options, folder: Path, lead: Optional[int]):
        """lead: when the log begins, where it does so without a time stamp; none where that is not known, and the first stamp is moved down to it."""
        self.options = options
        self.folder = folder  # where the files are that the log names
        self.bus = options.bus
        self.moves_down = lead is None
        self.down = 0  # by so much
        self.clock = lead or 0
        self.has_begun = self.is_stamped = self.is_damaged = False

    def take(self, number: int, line: str) -> Iterable[Entry]:
        usual = USUAL_FORM.fullmatch(line)
        if usual:
            return self.take_usual(number, usual)
        if len(line) > LONGEST_LINE:
            raise ValueError(f'a line of over {LONGEST_LINE} characters: {shown(line)}')
        line = COLOUR.sub('', line) if '\x1b' in line else line
        if line.startswith('#>'):
            return self.take_directive(number, line)
        if line.startswith('##'):
            return self.add(number, Heading(line[2:].strip()))
        if line.startswith('#'):
            return self.add(number, Note(line[1:].strip()))
        return self.take_frame(number, line) if line.strip() else ()

    def add(self, number: int, what: Union[Record, Heading, Note], stamp: Optional[int] = None) -> tuple[Entry]:
        if self.is_damaged and not isinstance(what, (Heading, Note)):
            raise ValueError('nothing can follow damage, which goes to the end of the stream')
        if stamp is not None:
            self.set_clock(stamp)
        self.has_begun = True
        return Entry(number, self.clock, what, stamp is not None),

    def set_clock(self, stamp: int) -> None:
        if not self.is_stamped and self.moves_down and self.has_begun:
            self.down = max(stamp - self.clock, 0)
        self.is_stamped = True
        self.clock = stamp - self.down

    def is_of_bus(self, bus: str) -> bool:
        """Whether frames of this interface are looked at: those of the one that was chosen, or else of the only one."""
        if not self.bus:
            self.bus = bus
        if bus != self.bus and not self.options.bus:
            raise ValueError(f'a frame of {shortened(bus)} among those of {shortened(self.bus)}: choose one with --bus')
        return bus == self.bus

    def take_usual(self, number: int, shape: re.Match) -> Iterable[Entry]:
        seconds, part, bus, identifier, data = shape.groups()
        if bus != self.bus and not self.is_of_bus(bus):
            return ()
        stamp = int(seconds) * SECOND + int(part) * (MICROSECOND if len(part) == 6 else 1)
        return self.add(number, usual_frame(identifier, data), stamp)

    def take_frame(self, number: int, line: str) -> Iterable[Entry]:
        shape = LOG_FORM.match(line) or SCREEN_FORM.match(line)
        if not shape and NO_BUS_FORM.match(line):
            raise ValueError(f"no interface in this line, where '(SECONDS) can0 605#2B40..' or 'can0 605 [8] 2B 40 ..' is due: {shown(line)}")
        if not shape:
            raise ValueError(f"neither a frame of candump nor a line behind '#': {shown(line)}")
        stamp = stamp_of(shape['time'])
        if self.options.bus and shape['bus'] != self.options.bus:
            return ()
        try:
            frame = log_frame(shape) if shape.re is LOG_FORM else screen_frame(shape)
        except Foreign as foreign:
            if self.options.skip_foreign:
                return ()
            raise ValueError(f'{foreign}, which this bus does not have (--skip-foreign leaves such frames out)') from None
        return self.add(number, frame, stamp) if self.is_of_bus(shape['bus']) else ()

    def take_directive(self, number: int, line: str) -> Iterable[Entry]:
        shape = DIRECTIVE.match(line)
        stamp = stamp_of(shape['time'])
        word, *values = shape['words'].split() or ['']
        if word == 'load':
            return self.add(number, Load(content_of(' '.join(values), self.folder)), stamp)
        if word != 'tick':
            added = self.add(number, directive(word, values), stamp)
            self.is_damaged = word == 'damage'
            return added
        if len(values) > 1 or not all(is_number(value, MOST_TICKS) and int(value) for value in values):
            raise ValueError(f"'tick' takes a count of 1 to {MOST_TICKS}, or nothing")
        return self.ticks(number, int(values[0]) if values else 1, stamp)

    def ticks(self, number: int, count: int, stamp: Optional[int]) -> Iterator[Entry]:
        """So many ticks. A time stamp is that of the first."""
        self.clock += TICK_TIME if stamp is None else 0
        yield from self.add(number, TICK, stamp)
        for _ in range(count - 1):
            self.clock += TICK_TIME
            yield Entry(number, self.clock, TICK)


def shortened(text: str) -> str:
    """A piece of a bad line as a message can have it: short, and without control characters."""
    return ''.join(one if one.isprintable() else ascii(one)[1:-1] for one in (text if len(text) <= 60 else text[:57] + '...'))


def shown(text: str) -> str:
    return f"'{shortened(text.strip())}'"


def is_number(text: str, most: int) -> bool:
    return re.fullmatch('[0-9]{1,9}', text) is not None and int(text) <= most


def stamp_of(text: Optional[str]) -> Optional[int]:
    if text is None:
        return None
    stamp = time_of(text)
    if stamp is None:
        raise ValueError(f'time stamp ({shortened(text)}) is not in seconds, as candump -L and candump -ta write it')
    return stamp


def time_of(text: str) -> Optional[int]:
    """Seconds, with or without decimals; none where the text is something else."""
    shape = TIME.fullmatch(text)
    return int(shape[1]) * SECOND + int((shape[2] or '').ljust(9, '0')) if shape else None


@lru_cache(MOST_KEPT)
def usual_frame(identifier: str, data: str) -> Frame:
    return Frame(int(identifier, 16), bytes.fromhex(data))


def log_frame(shape: re.Match) -> Frame:
    """A frame of the log-file form, 605#2B40600006000000."""
    data = shape['data']
    if data.startswith('#'):
        raise Foreign('a CAN FD frame')
    identifier = identifier_of(shape['identifier'])
    if data[:1] in ('R', 'r'):
        raise Foreign('a remote frame')
    return Frame(identifier, data_of(data, MOST_DATA))


def screen_frame(shape: re.Match) -> Frame:
    """A frame of the screen form, 605 [8] 2B 40 60 00 06 00 00 00."""
    data = shape['data'].rstrip()
    data = data.partition("'")[0].rstrip() if data.endswith("'") else data  # candump -a adds the bytes as characters
    if data.endswith('ERRORFRAME'):
        raise Foreign('an error frame')
    if len(shape['length']) > 1:
        raise Foreign('a CAN FD frame')
    identifier = identifier_of(shape['identifier'])
    if data.strip() == 'remote request':
        raise Foreign('a remote frame')
    words = data.split()
    if any(len(word) != 2 for word in words):
        raise ValueError(f'data bytes have two digits each: {shown(data)}')
    if str(len(words)) != shape['length']:
        raise ValueError(f"{len(words)} data bytes where [{shape['length']}] says {shape['length']}")
    return Frame(identifier, data_of(''.join(words), MOST_DATA))


def identifier_of(text: str) -> int:
    value = int(text, 16)
    if len(text) == 8:
        raise Foreign('an error frame' if value & ERROR_FLAG else 'a frame with a 29-bit identifier')
    if len(text) != 3 or value > 0x7FF:
        raise ValueError(f"identifier '{shortened(text)}' is not three digits up to 7FF")
    return value


def data_of(text: str, most: int) -> bytes:
    if not re.fullmatch(r'[0-9A-Fa-f]*', text):
        raise ValueError(f'data bytes are not hexadecimal: {shown(text)}')
    if len(text) % 2:
        raise ValueError(f'{len(text)} digits of data: a byte has two')
    if len(text) > 2 * most:
        raise ValueError(f'{len(text) // 2} data bytes, where at most {most} are possible')
    return bytes.fromhex(text)


def content_of(text: str, folder: Path) -> bytes:
    """The content of a file that is loaded: its bytes stand there, or its name."""
    if not text:
        raise ValueError(f"'load' takes a file, its bytes as digits, or '{NO_BYTES}'")
    if text == NO_BYTES or re.fullmatch(r'(?:[0-9A-Fa-f]{2})+', text):
        content = b'' if text == NO_BYTES else bytes.fromhex(text)
    else:
        try:
            content = (folder / text).read_bytes()
        except (OSError, ValueError) as wrong:  # a value error: no file has such a name
            raise ValueError(f"'{shortened(text)}' cannot be read: {getattr(wrong, 'strerror', wrong)}") from None
    if len(content) > MOST_LOAD:
        raise ValueError(f'a file of {len(content)} bytes, where at most {MOST_LOAD} can be loaded here')
    return content


def directive(word: str, values: list[str]) -> Record:
    """What stands behind '#>'."""
    if word in events.NUMBERS:
        return events.from_words(word, values)
    if word == 'power-up' and len(values) == 1 and is_number(values[0], 0xFF):
        return PowerUp(int(values[0]))
    if word == 'event' and len(values) in (1, 2) and is_number(values[0], 0xFF):
        return Event(int(values[0]), data_of(''.join(values[1:]), 15))
    if word == 'frame' and len(values) == 1 and re.fullmatch(r'[0-9A-Fa-f]{1,4}#.*', values[0]):
        identifier, data = values[0].split('#', 1)
        return Frame(int(identifier, 16), data_of(data, MOST_RECORD_DATA))
    if word == 'damage' and len(values) == 1:
        data = data_of(values[0], len(values[0]))
        if not what_is_wrong(data, 0):
            raise ValueError('these bytes are a record, and no damage')
        return Damage(data)
    if word in ('power-up', 'event', 'frame', 'damage'):
        raise ValueError(f"'#> {shortened(' '.join([word] + values))}' is not as 'tools/trace records --help' has it")
    raise ValueError(f"'{shortened(word)}' is no event; there are {', '.join(events.NUMBERS)}, power-up, load, event, frame, damage")


def of_records(records: Iterable[Record]) -> Iterator[Entry]:
    """Records as entries: the time is that of the ticks."""
    clock = 0
    for number, record in enumerate(records, 1):
        clock += TICK_TIME if is_tick(record) else 0
        yield Entry(number, clock, record)


def with_ticks(entries: Iterable[Entry], file: str) -> Iterator[Entry]:
    """The entries with a tick for every millisecond that the time stamps let pass."""
    last: Optional[Entry] = None
    due = 0  # when the next tick is; it counts from the first time stamp
    for entry in entries:
        if is_tick(entry.what):
            raise BadInput(f'{file}, line {entry.line}: a tick, where --ticks makes the ticks of the time stamps')
        if entry.stamped:
            if last and entry.time < last.time:
                raise BadInput(f'{file}, line {entry.line}: time stamp before that of line {last.line}; --ticks needs rising ones')
            due = due if last else entry.time + TICK_TIME
            if entry.time - due > LONGEST_GAP:
                raise BadInput(f'{file}, line {entry.line}: over an hour after line {last.line}, too long for --ticks')
            while due <= entry.time:
                yield Entry(entry.line, due, TICK, True)
                due += TICK_TIME
            last = entry
        yield entry


# logs that are written

def plain(entries: list[Entry]) -> list[Entry]:
    """What every reader of candump logs takes: the frames that a bus can carry, to the microsecond, and nothing else."""
    return [entry._replace(time=entry.time - entry.time % MICROSECOND) for entry in entries
            if isinstance(entry.what, Frame) and is_on_bus(entry.what)]


def is_on_bus(frame: Frame) -> bool:
    return frame.identifier <= 0x7FF and len(frame.data) <= MOST_DATA


def starting_at(entries: list[Entry], start: int, file: str) -> list[Entry]:
    """The entries with all times moved so that the first that is written is this one."""
    first = next((entry.time for entry in entries if not isinstance(entry.what, (Heading, Note))), 0)
    early = next((entry for entry in entries if entry.time - first + start < 0), None)
    if early:
        raise BadInput(f'{file}, line {early.line}: so long before the first line that its time would be below 0, with --start as it is')
    return [entry._replace(time=entry.time - first + start) for entry in entries]


def write(entries: list[Entry], bus: str) -> str:
    return ''.join(line + '\n' for line in lines_of(entries, bus))


def lines_of(entries: list[Entry], bus: str) -> Iterator[str]:
    place = 0
    while place < len(entries):
        entry = entries[place]
        count = ticks_from(entries, place) if is_tick(entry.what) else 1
        yield line_of(entry, bus) + (f' {count}' if count > 1 else '')
        place += count


def ticks_from(entries: list[Entry], place: int) -> int:
    """How many ticks, each a millisecond after the one before, start at this place."""
    count = 1
    while (place + count < len(entries) and count < MOST_TICKS and is_tick(entries[place + count].what)
           and entries[place + count].time == entries[place].time + count * TICK_TIME):
        count += 1
    return count


def stamp_text(time: int) -> str:
    """Six decimals, or nine where six would not do."""
    seconds, part = divmod(time, SECOND)
    return f'{seconds}.{part:09}' if part % MICROSECOND else f'{seconds}.{part // MICROSECOND:06}'


def line_of(entry: Entry, bus: str) -> str:
    what, stamp = entry.what, f'({stamp_text(entry.time)})'
    if isinstance(what, Heading):
        return f'## {what.text}'.rstrip()
    if isinstance(what, Note):
        return f'# {what.text}'.rstrip()
    if isinstance(what, Frame):
        data = what.data.hex().upper()
        if is_on_bus(what):
            return f'{stamp} {bus} {what.identifier:03X}#{data}'
        return f'#> {stamp} frame {what.identifier:03X}#{data}'
    if isinstance(what, Event):
        return f'#> {stamp} {events.to_words(what)}'
    if isinstance(what, PowerUp):
        return f'#> {stamp} power-up {what.node}'
    if isinstance(what, Load):
        return f'#> {stamp} load {what.data.hex().upper() or NO_BYTES}'
    return f'#> {stamp} damage {what.data.hex().upper()}'
