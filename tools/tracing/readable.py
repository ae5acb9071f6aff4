"""Rows as text: aligned columns, with colour where it is wanted, folded to the width of a terminal."""
import os
import re
import shutil
import sys
import textwrap
from typing import Iterable, Iterator, Optional, Union

from .decode import AMPLIFIER, BAD, GOOD, PLAIN, QUIET, ObjectText, Row
from .log import MICROSECOND, SECOND, Heading
from .walk import Line

WIDTH = 132  # of a heading's rule
SERVICE, BYTES = 11, 23  # widths of columns
LEAST_TIME, USUAL_TIME, ABSOLUTE_TIME = 4, 11, 17  # widths of the first column: of its title, of times up to some hours, of those of a log
LEAST_ROOM = 24  # of the last column, however narrow the terminal is
NOTE_INDENT, HANGING = ' ' * 3, ' ' * 2

BOLD, DIM, RED, GREEN, CYAN = '1', '2', '31', '32', '36'
COLOURS = {PLAIN: '', QUIET: DIM, GOOD: GREEN, BAD: RED}
CONTROL = re.compile(r'[\x00-\x1f\x7f-\x9f]')  # characters that are not for a terminal


def wants_colour(choice: str) -> bool:
    if choice != 'auto':
        return choice == 'always'
    return sys.stdout.isatty() and not os.environ.get('NO_COLOR') and os.environ.get('TERM') != 'dumb'


def terminal_width() -> Optional[int]:
    """How many columns the output has; none where it is no terminal, and lines are as long as they are."""
    return shutil.get_terminal_size().columns if sys.stdout.isatty() else None


def time_text(time: int) -> str:
    """A time in seconds, to the microsecond."""
    return f"{'-' if time < 0 else ''}{abs(time) // SECOND}.{abs(time) % SECOND // MICROSECOND:06}"


def visible(text: str) -> str:
    return CONTROL.sub(' ', text)


class Painter:
    """Writes rows in columns."""

    def __init__(self, coloured: bool, time_width: int, start: Optional[int] = 0, width: Optional[int] = None):
        """start: what times count from, none for that of the first row. width: of the terminal, none where lines are not folded."""
        self.coloured = coloured
        self.time_width = time_width
        self.start = start
        self.indent = ' ' * (time_width + 1 + 3 + 1 + 4 + 1 + SERVICE + 1 + BYTES + 2)
        self.width = width
        self.room = None if width is None else max(width - len(self.indent), LEAST_ROOM)

    def paint(self, text: str, colour: str) -> str:
        return f'\x1b[{colour}m{text}\x1b[0m' if self.coloured and colour and text.strip() else text

    def header(self) -> str:
        columns = f"{'time':>{self.time_width}} dir {'id':3}  {'service':{SERVICE}} {'bytes':{BYTES}}"
        return self.paint(f'{columns}  object, name and value', DIM)

    def heading(self, text: str) -> Iterator[str]:
        rule = WIDTH if self.width is None else min(WIDTH, self.width)
        for line in self.folded(f'-- {visible(text)} ', rule):
            yield self.paint(line.ljust(rule, '-'), BOLD)

    def note(self, text: str) -> Iterator[str]:
        for line in self.folded(visible(text), None if self.width is None else max(self.width - len(NOTE_INDENT), LEAST_ROOM)):
            yield f'{NOTE_INDENT}{line}'.rstrip()

    def lines(self, row: Row) -> list[str]:
        """The lines of a row: further objects stand under the first."""
        if self.start is None:
            self.start = row.time
        colour = COLOURS[row.style] or (CYAN if row.direction == AMPLIFIER else '')
        identifier, data = (f'{row.frame.identifier:03X}', row.frame.data.hex(' ').upper()) if row.frame else ('', '')
        columns = [time_text(row.time - self.start).rjust(self.time_width), f'{row.direction:3}', f'{identifier:3} ', row.service.ljust(SERVICE),
                   data.ljust(BYTES) + ' ']
        details = [detail_text(detail) for detail in row.details] or ['']
        if self.room is not None:
            details = [line for detail in details for line in self.folded(detail, self.room, HANGING)]
        if self.coloured:
            columns = [self.paint(column, one) for column, one in zip(columns, (DIM, '', '', colour, DIM))]
            details = [self.paint(detail, colour) for detail in details]
        columns.append(details[0])
        return [' '.join(columns).rstrip()] + [self.indent + detail for detail in details[1:]]

    def folded(self, text: str, room: Optional[int], hanging: str = '') -> list[str]:
        """A text in lines that fit; behind the first they hang in."""
        if self.width is None or len(text) <= room:
            return [text]
        return textwrap.wrap(text, room, subsequent_indent=hanging, break_on_hyphens=False) or ['']


def painter_for(rows: Iterable[Row], coloured: bool, width: Optional[int] = None) -> Painter:
    """A painter for these rows alone, with the times as they are."""
    return Painter(coloured, max((len(time_text(row.time)) for row in rows), default=LEAST_TIME), width=width)


def detail_text(detail: Union[ObjectText, str]) -> str:
    if isinstance(detail, str):
        return detail
    return f'{detail.place} {detail.name}{detail.joint}{detail.value}' if detail.value else f'{detail.place} {detail.name}'


def texts(lines: Iterable[Line], painter: Painter) -> Iterator[str]:
    """The whole trace, as its rows come."""
    yield painter.header()
    after_row = False
    for line in lines:
        if isinstance(line, Row):
            yield from painter.lines(line)
        elif isinstance(line, Heading):
            yield ''
            yield from painter.heading(line.text)
        else:
            if after_row:
                yield ''
            yield from painter.note(line.text)
        after_row = isinstance(line, Row)
