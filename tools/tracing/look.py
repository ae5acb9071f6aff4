"""A trace as the command line names it, and what a first look through it tells before it is read."""
from typing import Iterable, Iterator, NamedTuple, Optional

from . import bench, log, walk
from .inputs import Input
from .log import Entry, Heading, Note, is_tick
from .node import SDO_ANSWER, SDO_REQUEST
from .readable import ABSOLUTE_TIME, LEAST_TIME, USUAL_TIME, time_text
from .records import BadInput, Frame, Load, PowerUp, decoded

UTF_16 = b'\xff\xfe', b'\xfe\xff'  # how a text in 16-bit characters begins
TEXT_CONTROL = b'\t\r\n\x1b'  # control characters that a log may have


class Trace(NamedTuple):
    """A log or records, with what the command line says of it."""
    source: Input
    options: log.Options
    node: Optional[int] = None  # powers up before the first line
    ticks: bool = False
    damaged: bool = False

    def entries(self, lead: Optional[int] = 0) -> Iterator[Entry]:
        """All of it, as it comes. lead: that of log.Reader."""
        file = self.source.name
        if self.is_of_records():
            entries = log.of_records(decoded(self.source.pieces(), file, self.damaged))
        else:
            entries = log.parse(self.source.lines(), file, self.options, lead)
        entries = entries if self.node is None else walk.with_power_up(entries, self.node)
        return log.with_ticks(entries, file) if self.ticks else entries

    def all_entries(self) -> list[Entry]:
        return log.with_start(list(self.entries()))

    def is_of_records(self) -> bool:
        """The length and kind of a record have control characters that no log has."""
        start = self.source.start.removeprefix(b'\xef\xbb\xbf')
        if start[:2] in UTF_16 and not self.damaged:
            raise BadInput(f'{self.source.name}: a text in UTF-16, where a log is in ASCII or UTF-8')
        return any(byte < 0x20 and byte not in TEXT_CONTROL or byte >= 0x80 for byte in start)


class Look(NamedTuple):
    """What a trace has. Of one that comes through a pipe this is not known before it is read."""
    lead: Optional[int] = None  # as log.Reader takes it
    records: Optional[int] = None
    has_power_up: bool = False
    has_answers: Optional[bool] = None  # to SDO requests, of whichever node
    has_loads: bool = True
    times: tuple[int, int, int] = (0, 0, 0)  # of what is shown: the first, the earliest, the latest

    @property
    def is_known(self) -> bool:
        return self.records is not None

    def time_width(self, absolute: bool) -> int:
        """How wide the column of times is to be."""
        if not self.is_known:
            return ABSOLUTE_TIME if absolute else USUAL_TIME
        first, *ends = self.times
        return max([len(time_text(time - (0 if absolute else first))) for time in ends] + [LEAST_TIME])


def look_through(trace: Trace, show_ticks: bool) -> Look:
    """A first look, where the trace can be read again: a bad line shows before anything is written."""
    return look_at(trace.entries(), show_ticks) if trace.source.can_rewind else Look()


def look_at(entries: Iterable[Entry], show_ticks: bool) -> Look:
    records = lead = 0
    has_power_up = has_answers = has_loads = is_stamped = False
    last: Optional[Entry] = None
    times = Times()
    for entry in entries:
        if entry.stamped and not is_stamped:
            is_stamped = True
            lead = log.gap_before(entry, last) if last else 0
            times.move_up(lead)
        last, what = entry, entry.what
        if isinstance(what, (Heading, Note)):
            continue
        records += 1
        if is_tick(what) and not show_ticks:
            continue
        times.add(entry.time)
        if isinstance(what, Frame):
            has_answers = has_answers or SDO_ANSWER < what.identifier < SDO_REQUEST
        else:
            has_power_up = has_power_up or isinstance(what, PowerUp)
            has_loads = has_loads or isinstance(what, Load)
    return Look(lead, records, has_power_up, has_answers, has_loads, times.ends())


class Times:
    """The first, the earliest and the latest of some times."""

    def __init__(self) -> None:
        self.first: Optional[int] = None
        self.earliest = self.latest = 0

    def add(self, time: int) -> None:
        if self.first is None:
            self.first = self.earliest = self.latest = time
        elif time > self.latest:
            self.latest = time
        elif time < self.earliest:
            self.earliest = time

    def move_up(self, gap: int) -> None:
        if self.first is not None:
            self.first, self.earliest, self.latest = self.first + gap, self.earliest + gap, self.latest + gap

    def ends(self) -> tuple[int, int, int]:
        return self.first or 0, self.earliest, self.latest


def check_answers(output: Input, due: Optional[int]) -> None:
    """A first look through an output, where it can be read again, and the records that it answers are counted."""
    if output.can_rewind:
        count = sum(1 for _ in bench.answers_in(output.lines(), output.name))
        if due is not None and count != due:
            raise walk.miscounted(output.name, count, due)


def need_power_up(entries: Iterable[Entry], file: str, look: Look) -> Iterable[Entry]:
    """The entries, in which the node powers up: somewhere, or where that is not known yet, before the first frame."""
    if look.records == 0:
        raise BadInput(f'{file}: no frame and no event in it')
    if look.is_known and not look.has_power_up:
        raise no_power_up(file)
    return entries if look.is_known else behind_power_up(entries, file)


def behind_power_up(entries: Iterable[Entry], file: str) -> Iterator[Entry]:
    has_come = False
    for entry in entries:
        has_come = has_come or isinstance(entry.what, PowerUp)
        if isinstance(entry.what, Frame) and not has_come:
            raise no_power_up(file)
        yield entry


def no_power_up(file: str) -> BadInput:
    return BadInput(f"{file}: which node? say --node N, or '#> power-up N' in the log")
