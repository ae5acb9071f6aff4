"""The first difference of two traces, and how it is told."""
from collections import defaultdict, deque
from itertools import zip_longest
from typing import NamedTuple, Optional

from .bench import Answer
from .decode import Row
from .readable import Painter, painter_for
from .words import REFUSALS, status_word

MOST_WAITING = 10_000  # frames that wait for their like on the other side; where there are more, the first of them has none
LABEL = 16  # columns


class Sent(NamedTuple):
    """A frame that the node sends in the replay, and the row of what it answers."""
    row: Row
    cause: Row


class Difference(NamedTuple):
    place: int  # among the frames from the node, or of its identifier, from 1
    recorded: Optional[Row]
    sent: Optional[Sent]
    is_early: bool = False  # where one side has none, it may still come

    @property
    def line(self) -> int:
        """The line of the log where it shows."""
        return self.recorded.line if self.recorded else self.sent.cause.line


class Group:
    """Frames whose order counts: the recorded and the replayed ones that wait for their like, of which one side has none."""

    def __init__(self) -> None:
        self.recorded: deque[Row] = deque()
        self.sent: deque[Sent] = deque()
        self.matched = 0

    def match(self) -> Optional[Difference]:
        """Pairs off what is alike; the difference that shows by now."""
        while self.recorded and self.sent:
            if self.recorded[0].frame != self.sent[0].row.frame:
                return self.difference()
            self.recorded.popleft()
            self.sent.popleft()
            self.matched += 1
        return self.difference()._replace(is_early=True) if len(self.recorded) + len(self.sent) > MOST_WAITING else None

    def difference(self) -> Optional[Difference]:
        """That of the first frames that wait; none where none does."""
        recorded, sent = self.recorded[0] if self.recorded else None, self.sent[0] if self.sent else None
        return Difference(self.matched + 1, recorded, sent) if recorded or sent else None


class Comparison:
    """What was recorded against what is replayed, both as they come in the order of the log. Memory is for the frames that wait for their like."""

    def __init__(self, by_identifier: bool, may_lack_boot_up: bool):
        """may_lack_boot_up: the first frame that is replayed counts only where the first recorded one is like it."""
        self.by_identifier = by_identifier
        self.may_lack_boot_up = may_lack_boot_up
        self.groups: dict[int, Group] = defaultdict(Group)
        self.boot_up: Optional[Sent] = None
        self.recorded = 0  # frames so far
        self.found: Optional[Difference] = None  # the earliest so far

    def add_recorded(self, row: Row) -> None:
        self.recorded += 1
        if self.recorded == 1:
            self.settle_boot_up(row)
        group = self.group_of(row)
        if self.may_change(group):
            group.recorded.append(row)
            self.note(group.match())

    def add_sent(self, sent: Sent) -> None:
        if self.may_lack_boot_up and not self.boot_up:
            self.boot_up = sent
        group = self.group_of(sent.row)
        if self.may_change(group):
            group.sent.append(sent)
            self.note(group.match())

    def group_of(self, row: Row) -> Group:
        return self.groups[row.frame.identifier if self.by_identifier else 0]

    def settle_boot_up(self, recorded: Optional[Row]) -> None:
        """The first recorded frame, or that there is none, tells whether the log begins behind the boot-up."""
        if self.boot_up and (not recorded or recorded.frame != self.boot_up.row.frame):
            self.group_of(self.boot_up.row).sent.popleft()
        self.may_lack_boot_up, self.boot_up = False, None

    def note(self, difference: Optional[Difference]) -> None:
        if difference and (not self.found or difference.line < self.found.line):
            self.found = difference

    def may_change(self, group: Group) -> bool:
        """Whether the group can still have the earliest difference: a frame waits in it that stands before the one that was found."""
        if not self.found:
            return True
        waiting = group.difference()
        return waiting is not None and waiting.line < self.found.line

    @property
    def is_decided(self) -> bool:
        return self.found is not None and not any(map(self.may_change, self.groups.values()))

    def end(self) -> Optional[Difference]:
        """The earliest difference, where both sides have ended."""
        if not self.recorded:
            self.settle_boot_up(None)
        for group in self.groups.values():
            self.note(group.difference())
        return self.found


def told(difference: Difference, file: str, by_identifier: bool, coloured: bool, width: Optional[int] = None) -> str:
    """The difference in words."""
    recorded, sent = difference.recorded, difference.sent
    rows = [row for row in (recorded, sent and sent.row, sent and sent.cause) if row]
    painter = painter_for(rows, coloured, width and width - LABEL)
    identifier = (recorded or sent.row).frame.identifier
    which = f'frame {difference.place} on {identifier:03X}' if by_identifier else f'frame {difference.place} from the node'
    parts = [f'{file}, line {difference.line}: first difference, at {which}']
    missing = f'none so far, where {MOST_WAITING} wait for it' if difference.is_early else 'no further frame'
    parts += labelled(painter, 'recorded', recorded, missing)
    parts += labelled(painter, 'replayed', sent.row if sent else None, missing)
    if sent:
        parts += labelled(painter, f'at line {sent.cause.line}', sent.cause, '')
    return '\n'.join(parts) + '\n'


def labelled(painter: Painter, label: str, row: Optional[Row], missing: str) -> list[str]:
    lines = list(painter.lines(row)) if row else [missing]
    return [f'  {label if i == 0 else "":{LABEL - 3}} {line}' for i, line in enumerate(lines)]


def first_answer(one: list[Answer], other: list[Answer]) -> Optional[int]:
    """The place of the first answer that differs, from 0. The lines where they stand do not count."""
    for place, (a, b) in enumerate(zip_longest(one, other)):
        if a is None or b is None or a._replace(line=0) != b._replace(line=0):
            return place
    return None


class Told(NamedTuple):
    """An answer with its rows: what it answers, where that is known, and the frames sent."""
    answer: Answer
    given: Optional[Row]
    sent: list[Row]
    mode: int


def told_answers(place: int, sides: list[tuple[str, Optional[Told]]], coloured: bool, width: Optional[int] = None) -> str:
    """Two answers that differ, in words."""
    where = '; '.join(f'{path}, line {told.answer.line}' if told else f'{path} ends before' for path, told in sides)
    known = [told for _, told in sides if told]
    painter = painter_for([row for told in known for row in told.sent + ([told.given] if told.given else [])], coloured, width and width - LABEL)
    parts = [f'record {place + 1}: first difference ({where}): {what_differs([told.answer for told in known])}']
    if known[0].given:
        parts += labelled(painter, 'record', known[0].given, '')
    for path, told in sides:
        parts.append(f'  {path}: ' + (answer_line(told.answer, told.mode) if told else 'no answer'))
        parts += [line for row in told.sent for line in labelled(painter, '', row, '')] if told else []
    return '\n'.join(parts) + '\n'


def what_differs(answers: list[Answer]) -> str:
    if len(answers) < 2:
        return 'no answer'
    one, other = answers
    if one.refusal != other.refusal:
        return 'the refusal'
    for number, (a, b) in enumerate(zip_longest(one.frames, other.frames), 1):
        if a != b:
            return f'frame {number}'
    return 'the load' if one.load != other.load else 'the status word'


def answer_line(answer: Answer, mode: int) -> str:
    refusal = f'refused {answer.refusal} ({REFUSALS[answer.refusal]})' if answer.refusal else 'accepted'
    return f'{refusal}, {len(answer.frames)} frame(s), status word {status_word(answer.status, mode)}'
