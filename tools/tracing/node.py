"""What a trace tells about the node: its number, and the objects that were written or read. PDOs are decoded by the mapping in force.

This follows a trace as far as it shows; it decides nothing. What the node does is decided by the node alone.
"""
from typing import Iterator, NamedTuple, Optional

from . import segments, words
from .dcf import Entry
from .eds import Objects, Place
from .records import Frame
from .segments import Transfer, segment_of

NMT, SYNC = 0x000, 0x080
EMERGENCY, SDO_ANSWER, SDO_REQUEST, HEARTBEAT = 0x080, 0x580, 0x600, 0x700  # plus the node's number
STOP, RESET_NODE, RESET_COMMUNICATION = 0x02, 0x81, 0x82
DOWNLOAD_SEGMENT, DOWNLOAD, UPLOAD, UPLOAD_SEGMENT, ABORT = range(5)  # bits 7 to 5 of an SDO request
SEGMENT_READ, SEGMENT_WRITTEN, READ, WRITTEN, ABORTED = range(5)  # and of an answer
EXPEDITED, SIZE_TOLD = 0x02, 0x01  # bits of what starts a transfer: the request of a download, the answer of an upload
PDOS = range(1, 5)
RECEIVE, TRANSMIT = 'R', 'T'
COMMUNICATION = {RECEIVE: 0x1400, TRANSMIT: 0x1800}
MAPPING = {RECEIVE: 0x1600, TRANSMIT: 0x1A00}
PARAMETERS = range(0x1400, 0x1C00)  # the records of all PDOs
NOT_VALID = 0x80000000
CONTROL_WORD, MODE, MODE_DISPLAY, WINDOW_TIME = (0x6040, 0), (0x6060, 0), (0x6061, 0), (0x6068, 0)
POSITION_LIMITS = (0x607D, 1), (0x607D, 2)  # minimum and maximum


class Sdo(NamedTuple):
    """An SDO frame taken apart. A segment has no object of its own: it is read from the whole."""
    command: int
    place: Place
    data: bytes
    whole: bytes

    @property
    def kind(self) -> int:
        return self.command >> 5

    @property
    def is_expedited(self) -> bool:
        """Of what starts a transfer: whether it carries the data. Else segments are to follow, and it may tell how many bytes they have."""
        return bool(self.command & EXPEDITED)

    @property
    def starts_segments(self) -> bool:
        """Whether this request is a download that segments are to follow."""
        return self.kind == DOWNLOAD and not self.is_expedited

    @property
    def told_size(self) -> Optional[int]:
        """How many bytes it says that are carried, by it or by its segments; none where it does not say."""
        if not self.command & SIZE_TOLD:
            return None
        return 4 - (self.command >> 2 & 3) if self.is_expedited else int.from_bytes(self.data, 'little')

    @property
    def is_last_segment(self) -> bool:
        return self.kind == DOWNLOAD_SEGMENT and segment_of(self.whole).is_last


class Mapped(NamedTuple):
    """An object in a PDO: where it starts and how many bytes it has."""
    place: Place
    start: int
    size: int


class Pdo(NamedTuple):
    """A valid PDO, and what is mapped into it."""
    number: int
    parts: list[Mapped]
    size: int


def sdo_of(frame: Frame) -> Optional[Sdo]:
    if len(frame.data) != 8:
        return None
    return Sdo(frame.data[0], (frame.data[1] + 256 * frame.data[2], frame.data[3]), frame.data[4:], frame.data)


def is_parameter(index: int, parameters: dict[str, int]) -> bool:
    """Whether this is the record of one of the PDOs, COMMUNICATION or MAPPING."""
    return any(index - base + 1 in PDOS for base in parameters.values())


class Kept(NamedTuple):
    """What is known of the node at one time."""
    number: Optional[int]
    values: dict[Place, int]
    request: Optional[Sdo]
    transfer: Optional[Transfer]


class Node:
    def __init__(self, objects: Objects, answers: Optional[bool] = True):
        """answers: whether the trace has SDO answers. Where it has none, each write is taken as done; none: as long as no answer showed."""
        self.objects = objects
        self.answers = answers
        self.number: Optional[int] = None
        self.values: dict[Place, int] = {}
        self.pdos: Optional[dict[tuple[str, int], Pdo]] = None  # by direction and identifier; none where the values are newer
        self.own: set[int] = set()  # the identifiers of frames that the node sends, with those of its PDOs
        self.request: Optional[Sdo] = None
        self.transfer: Optional[Transfer] = None  # the one that runs, by segments
        self.before_request: Optional[Kept] = None  # where it is not known whether there are answers

    def power_up(self, number: int) -> None:
        if 1 <= number <= 127:
            self.number = number
            self.request = self.transfer = None
            self.set_values(self.defaults())

    def reset_communication(self) -> None:
        self.transfer = None
        self.set_values(self.values | {place: value for place, value in self.defaults().items() if 0x1000 <= place[0] <= 0x1FFF})

    def defaults(self) -> dict[Place, int]:
        return {place: entry.default_for(self.number) for place, entry in self.objects.items() if not entry.is_text}

    def set_values(self, values: dict[Place, int]) -> None:
        self.values, self.pdos = values, None

    def keep(self) -> Kept:
        """All that is known of the node now, for the case that what comes next has to be taken back."""
        return Kept(self.number, self.values.copy(), self.request, self.transfer)

    def take_back(self, kept: Kept) -> None:
        self.number, values, self.request, self.transfer = kept
        self.set_values(values)

    def is_on(self, identifier: int, service: int) -> bool:
        """Whether this is the identifier of one of the node's services."""
        return self.number is not None and identifier == service + self.number

    def pdo_on(self, direction: str, identifier: int) -> Optional[Pdo]:
        """The valid PDO that has this identifier."""
        if self.pdos is None:
            self.work_out()
        return self.pdos.get((direction, identifier))

    def sends_on(self, identifier: int) -> bool:
        if self.pdos is None:
            self.work_out()
        return identifier in self.own

    def work_out(self) -> None:
        """The PDOs and the node's own identifiers, from the values. Of two PDOs with one identifier the first counts."""
        self.pdos = {}
        for direction in (RECEIVE, TRANSMIT):
            for number in PDOS:
                word = self.values.get((COMMUNICATION[direction] + number - 1, 1), NOT_VALID)
                parts = list(self.mapping(direction, number))
                if not word & NOT_VALID:
                    self.pdos.setdefault((direction, word & 0x7FF), Pdo(number, parts, sum(part.size for part in parts)))
        self.own = {identifier for direction, identifier in self.pdos if direction == TRANSMIT}
        if self.number is not None:
            self.own |= {service + self.number for service in (EMERGENCY, SDO_ANSWER, HEARTBEAT)}

    def mapping(self, direction: str, number: int) -> Iterator[Mapped]:
        index, start = MAPPING[direction] + number - 1, 0
        for entry in range(1, min(self.values.get((index, 0), 0), 8) + 1):
            word = self.values.get((index, entry), 0)
            size = (word & 0xFF) // 8
            yield Mapped((word >> 16, word >> 8 & 0xFF), start, size)
            start += size

    def receive(self, frame: Frame) -> None:
        """A frame that the node gets, or that is for others."""
        if self.answers is None and SDO_ANSWER < frame.identifier < SDO_REQUEST:
            self.learn_of_answers()
        if frame.identifier == NMT and len(frame.data) == 2 and frame.data[1] in (0, self.number):
            self.take_command(frame.data[0])
        elif self.is_on(frame.identifier, SDO_REQUEST):
            self.before_request = self.keep() if self.answers is None else None
            self.request = sdo_of(frame)
            if self.request:
                self.take_request(self.request)
        else:
            self.take_pdo(RECEIVE, frame)

    def learn_of_answers(self) -> None:
        """The first answer of a trace, whoever sent it: what the last request asks for is not done before it is answered."""
        self.answers = True
        if self.request and self.before_request:
            self.take_back(self.before_request._replace(request=self.request))

    def load(self, entries: list[Entry]) -> None:
        """A file that was loaded. A transfer that runs goes on."""
        for entry in entries:
            self.store(entry.place, entry.data)

    def take_command(self, command: int) -> None:
        """An NMT command."""
        if self.number is None:
            return
        if command == RESET_NODE:
            self.power_up(self.number)
        elif command == RESET_COMMUNICATION:
            self.reset_communication()
        elif command == STOP:
            self.transfer = None

    def take_request(self, request: Sdo) -> None:
        """All but segments end a transfer that runs. What a request starts or writes, its answer tells, unless answers are missing."""
        if request.kind not in (DOWNLOAD_SEGMENT, UPLOAD_SEGMENT):
            self.transfer = None
        if not self.answers:
            self.take_unanswered(request)

    def take_unanswered(self, request: Sdo) -> None:
        if request.kind == DOWNLOAD:
            self.take_download(request)
        elif request.kind == DOWNLOAD_SEGMENT:
            self.take_download_segment(request)
        elif request.kind == UPLOAD and request.place in self.objects and self.objects[request.place].is_text:
            self.transfer = Transfer(segments.UPLOAD, request.place)
        elif request.kind == UPLOAD_SEGMENT:
            self.take_upload_segment(b'')

    def send(self, frame: Frame) -> None:
        """A frame that the node sends."""
        if not self.is_on(frame.identifier, SDO_ANSWER):
            return self.take_pdo(TRANSMIT, frame)
        if self.answers is None:
            self.learn_of_answers()
        answer = sdo_of(frame)
        if answer:
            self.take_answer(answer, self.request)
        self.request = None

    def take_answer(self, answer: Sdo, request: Optional[Sdo]) -> None:
        if answer.kind == WRITTEN and request and request.place == answer.place:
            self.take_download(request)
        elif answer.kind == READ and answer.is_expedited:
            self.store(answer.place, self.carried(answer))
        elif answer.kind == READ:
            self.transfer = Transfer(segments.UPLOAD, answer.place)
        elif answer.kind == SEGMENT_READ:
            self.take_upload_segment(segment_of(answer.whole).data, segment_of(answer.whole).is_last)
        elif answer.kind == SEGMENT_WRITTEN and request:
            self.take_download_segment(request)
        elif answer.kind == ABORTED:
            self.transfer = None

    def take_download(self, request: Sdo) -> None:
        """A download that is done, or one by segments that is started."""
        if request.starts_segments:
            self.transfer = Transfer(segments.DOWNLOAD, request.place)
        elif request.kind == DOWNLOAD:
            self.store(request.place, self.carried(request))

    def carried(self, sdo: Sdo) -> bytes:
        """What an expedited transfer carries: as many bytes as it says, else as its object has, else all that there are."""
        known = self.objects.get(sdo.place)
        return sdo.data[:sdo.told_size or (known.size if known and not known.is_text else len(sdo.data))]

    def take_download_segment(self, request: Sdo) -> None:
        """At the last segment the object is written. One that is not due ends the transfer."""
        segment, running = segment_of(request.whole), self.transfer
        if request.kind != DOWNLOAD_SEGMENT or not running or not running.fits(segments.DOWNLOAD, segment.toggle):
            self.transfer = None
            return
        running = running.with_data(segment.data)
        self.transfer = None if segment.is_last else running
        if segment.is_last:
            self.store(running.place, running.data)

    def take_upload_segment(self, data: bytes, is_last: bool = False) -> None:
        if self.transfer:
            self.transfer = None if is_last else self.transfer.with_data(data)

    def take_pdo(self, direction: str, frame: Frame) -> None:
        pdo = self.pdo_on(direction, frame.identifier)
        if pdo and pdo.size <= len(frame.data):
            for part in pdo.parts:
                self.store(part.place, frame.data[part.start:part.start + part.size])

    def store(self, place: Place, data: bytes) -> None:
        """What does not have its object's size is no value of it."""
        known = self.objects.get(place)
        if known and known.size != len(data):
            return
        self.values[place] = int.from_bytes(data, 'little')
        if place == MODE:
            self.values[MODE_DISPLAY] = self.values[MODE]
        elif place[0] in PARAMETERS:
            self.pdos = None

    @property
    def mode(self) -> int:
        return self.values.get(MODE_DISPLAY, 0)

    @property
    def window_time(self) -> int:
        """How many milliseconds target reached waits inside the window; 0 where it does not wait, as under halt."""
        waits = self.mode == words.POSITION_MODE and not self.values.get(CONTROL_WORD, 0) & words.HALT
        return self.values.get(WINDOW_TIME, 0) if waits else 0

    def limits_with(self, writes: list[Entry]) -> tuple[int, int]:
        """Minimum and maximum of the position, as they would be with these written."""
        held = {limit: (self.values.get(limit, 0) % (1 << 32)).to_bytes(4, 'little') for limit in POSITION_LIMITS}
        held |= {write.place: write.data for write in writes}
        low, high = (int.from_bytes(held[limit], 'little', signed=True) for limit in POSITION_LIMITS)
        return low, high
