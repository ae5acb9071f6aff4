"""The amplifier's events in words, both ways: `feedback 1200 0` and its number with argument bytes."""
import re
from typing import NamedTuple, Optional

from .records import Event


class Argument(NamedTuple):
    name: str
    size: int
    form: str  # 'signed', 'hex' or 'flag'


class Kind(NamedTuple):
    word: str
    arguments: tuple[Argument, ...] = ()


TICK = 7
KINDS = {
    1: Kind('started'),
    2: Kind('quick-stop-done'),
    3: Kind('fault', (Argument('code', 2, 'hex'), Argument('register', 1, 'hex'))),
    4: Kind('reaction-done'),
    5: Kind('feedback', (Argument('position', 4, 'signed'), Argument('velocity', 4, 'signed'))),
    6: Kind('set-point-reached'),
    TICK: Kind('tick'),
    8: Kind('cause-gone'),
    9: Kind('voltage', (Argument('flag', 1, 'flag'),)),
}
NUMBERS = {kind.word: number for number, kind in KINDS.items()}
NUMBERS_OF = {'signed': re.compile('[+-]?[0-9]{1,30}'), 'hex': re.compile('(?:0x)?[0-9A-Fa-f]{1,30}')}
FLAGS = {'off': 0, 'on': 1, '0': 0, '1': 1}  # of each value, the first word is the one written


def values_of(event: Event) -> Optional[list[str]]:
    """The arguments in words; none where the event is no known one with arguments of the right size."""
    kind = KINDS.get(event.number)
    if kind is None or len(event.arguments) != sum(argument.size for argument in kind.arguments):
        return None
    words, place = [], 0
    for argument in kind.arguments:
        part = event.arguments[place:place + argument.size]
        place += argument.size
        word = value_text(argument, int.from_bytes(part, 'little', signed=argument.form == 'signed'))
        if word is None:
            return None
        words.append(word)
    return words


def value_text(argument: Argument, value: int) -> Optional[str]:
    if argument.form == 'flag':
        return next((word for word, flag in FLAGS.items() if flag == value), None)
    return str(value) if argument.form == 'signed' else f'{value:0{2 * argument.size}X}'


def to_words(event: Event) -> str:
    """The event as a log writes it; `event NUMBER BYTES` where it is no known one with arguments of the right size."""
    values = values_of(event)
    if values is None:
        return f'event {event.number} {event.arguments.hex().upper()}'.rstrip()
    return ' '.join([KINDS[event.number].word] + values)


def from_words(word: str, values: list[str]) -> Event:
    """The event of a word and its values; ValueError says what is wrong with them."""
    number = NUMBERS[word]
    wanted = KINDS[number].arguments
    if len(values) != len(wanted):
        names = ', '.join(argument.name.upper() for argument in wanted) or 'nothing'
        raise ValueError(f"'{word}' takes {names}")
    return Event(number, b''.join(value_bytes(argument, value) for argument, value in zip(wanted, values)))


def value_bytes(argument: Argument, text: str) -> bytes:
    try:
        value = FLAGS[text] if argument.form == 'flag' else number_of(text, argument.form)
        return value.to_bytes(argument.size, 'little', signed=argument.form == 'signed')
    except (KeyError, ValueError, OverflowError):
        wanted = {'signed': 'a signed decimal number', 'hex': 'a hexadecimal number', 'flag': 'on or off'}[argument.form]
        raise ValueError(f"{argument.name} '{text[:60]}' is not {wanted} of {argument.size} byte(s)") from None


def number_of(text: str, form: str) -> int:
    if not NUMBERS_OF[form].fullmatch(text):
        raise ValueError(f'not {form}')
    return int(text, 10 if form == 'signed' else 16)
