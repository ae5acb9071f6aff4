"""A whole trace as rows, from its start to its end, as it comes."""
import re
from collections import deque
from contextlib import closing
from typing import Callable, Iterable, Iterator, NamedTuple, Optional, Union

from .bench import Answer
from .decode import Decoder, Row
from .log import Entry, Heading, Note, is_tick
from .records import BadInput, Event, Frame, PowerUp, Record

Line = Union[Row, Heading, Note]
ASKING = ('SDO read', 'SDO write', 'SDO segment')  # services that have an answer


class Step(NamedTuple):
    """A record with its answer: the row of what went in, and those of what came out."""
    entry: Entry
    answer: Answer
    given: Row
    sent: list[Row]


Item = Union[Entry, Row]  # a row is a frame that was recorded, and goes to nobody
Answered = tuple[Item, Optional[Answer]]  # a record has its answer, all else has none


def is_record(item: Item) -> bool:
    return isinstance(item, Entry) and not isinstance(item.what, (Heading, Note))


def records_of(entries: list[Entry]) -> list[Record]:
    return [entry.what for entry in entries if is_record(entry)]


# records and their answers

def with_answers(entries: Iterable[Entry], answers: Iterator[Answer], file: str) -> Iterator[Answered]:
    """The entries with the answers of an output."""
    count = 0
    for entry in entries:
        answer = next(answers, None) if is_record(entry) else None
        if is_record(entry) and answer is None:
            raise BadInput(f'{file}: answers to {count} records, where there are more')
        count += answer is not None
        yield entry, answer
    more = sum(1 for _ in answers)
    if more:
        raise miscounted(file, count + more, count)


def miscounted(file: str, answers: int, records: int) -> BadInput:
    return BadInput(f'{file}: answers to {answers} records, where there are {records}')


def answered(items: Iterable[Item], answer: Callable[[Iterator[Record]], Iterator[Answer]], source: str) -> Iterator[Answered]:
    """The items with what they are answered, in order. Records are taken ahead of their answers, as many as are under way."""
    coming, waiting = iter(items), deque()
    count = 0

    def records() -> Iterator[Record]:
        for item in coming:
            waiting.append(item)
            if is_record(item):
                yield item.what

    with closing(answer(records())) as answers:
        for one in answers:
            while waiting and not is_record(waiting[0]):
                yield waiting.popleft(), None
            if not waiting:
                raise BadInput(f'{source}: more answers than records')
            count += 1
            yield waiting.popleft(), one
    waiting.extend(coming)
    left = sum(map(is_record, waiting))
    if left:
        raise miscounted(source, count, count + left)
    yield from ((item, None) for item in waiting)


def steps(pairs: Iterable[Answered], decoder: Decoder) -> Iterator[Union[Step, Row, Heading, Note]]:
    """Every record with its answer, and what stands between them."""
    for item, answer in pairs:
        if answer is None:
            yield item.what if isinstance(item, Entry) else item
            continue
        given = decoder.put_in(item, answer.refusal == 0)
        sent = [decoder.put_out(frame, item) for frame in answer.frames]
        if given.service in ASKING and not any(row.service.startswith('SDO') for row in sent):
            given.details.append('not answered')
        yield Step(item, answer, given, sent)


def rows_with_answers(pairs: Iterable[Answered], decoder: Decoder, show_ticks: bool) -> Iterator[Line]:
    """The readable trace of records and their answers. A tick is shown where asked for, and where it is refused."""
    status = 0
    for step in steps(pairs, decoder):
        if not isinstance(step, Step):
            yield step
            continue
        if show_ticks or step.answer.refusal or not is_tick(step.entry.what):
            yield step.given
        if step.answer.refusal:
            yield decoder.refusal_row(step.entry, step.answer)
        yield from step.sent
        if step.answer.status != status and all(row.shows_status != step.answer.status for row in step.sent):
            yield decoder.status_row(step.entry.time, step.answer.status)
        status = step.answer.status


# logs as they were recorded

def rows_as_recorded(entries: Iterable[Entry], decoder: Decoder, show_ticks: bool) -> Iterator[Line]:
    """The readable trace of a log alone: frames on the node's own identifiers are those it sent."""
    for entry in without_refused(entries, decoder):
        what = entry.what
        if isinstance(what, Frame):
            yield decoder.put_out(what, entry) if decoder.node.sends_on(what.identifier) else decoder.put_in(entry)
        elif isinstance(what, (Heading, Note)):
            yield what
        elif show_ticks or not is_tick(what):
            yield decoder.put_in(entry)


def split(entries: Iterable[Entry], decoder: Decoder) -> Iterator[Item]:
    """A recorded log as what the node was given, and the rows of what it sent."""
    for entry in without_refused(entries, decoder):
        what = entry.what
        if isinstance(what, Frame) and decoder.node.sends_on(what.identifier):
            yield decoder.put_out(what, entry)
            continue
        if not isinstance(what, (Event, Heading, Note)):  # an event tells nothing about the node
            decoder.put_in(entry)
        yield entry


def without_refused(entries: Iterable[Entry], decoder: Decoder) -> Iterator[Entry]:
    """The entries, of which the decoder takes back what the log notes as refused right behind it."""
    last: Optional[Entry] = None
    for entry in entries:
        if isinstance(entry.what, Note) and last and is_refusal(entry.what):
            decoder.take_back(last)
        yield entry
        last = entry


def refusal_note(refusal: int) -> Note:
    """What stands in a log of the whole bus behind a record that was refused."""
    return Note(f'refused {refusal}')


def is_refusal(note: Note) -> bool:
    return re.fullmatch(r'refused [0-9]+', note.text) is not None


def with_power_up(entries: Iterator[Entry], number: int) -> Iterator[Entry]:
    """The entries behind a power-up."""
    first = next(entries, None)
    yield Entry(first.line, first.time, PowerUp(number)) if first else Entry(0, 0, PowerUp(number))
    if first:
        yield first
    yield from entries
