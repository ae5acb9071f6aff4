"""What the commands read: files and standard input, whole, or piece by piece as it comes."""
import codecs
import sys
from typing import Callable, Iterable, Iterator

from .records import BadInput

PIECE = 1 << 16  # bytes that are read at once
LONGEST_LINE = 1 << 18  # characters; the digits of the longest file that is loaded are half of it
START_LENGTH = 4  # bytes by which a log and records are told apart


def nothing() -> None:
    """What is done before a wait, where nothing is."""


class Input:
    """A file, or standard input where the name is '-'. What can be rewound may be read again; a pipe is read once, as it comes."""

    def __init__(self, name: str, before_wait: Callable[[], None] = nothing):
        """before_wait: done each time before more is waited for, where it may take its time."""
        if name == '-' and sys.stdin is None:
            raise BadInput('standard input is closed')
        self.name = 'standard input' if name == '-' else name
        self.stream = sys.stdin.buffer if name == '-' else open(name, 'rb')
        self.before_wait = before_wait
        self.can_rewind = self.stream.seekable()
        self.origin = self.stream.tell() if self.can_rewind else 0
        self.start = self.first_bytes()

    def first_bytes(self) -> bytes:
        """The first bytes, as many as there are. They are no less a part of what is read."""
        start = b''
        while len(start) < START_LENGTH and (more := self.read(START_LENGTH - len(start))):
            start += more
        return start

    def pieces(self) -> Iterator[bytes]:
        """All of it, from the start."""
        if self.can_rewind:
            self.stream.seek(self.origin + len(self.start))
        piece = self.start
        while piece:
            yield piece
            piece = self.read(PIECE)

    def read(self, most: int) -> bytes:
        if not self.can_rewind:
            self.before_wait()
        try:
            return self.stream.read1(most)
        except OSError as wrong:
            raise BadInput(f'{self.name}: {wrong.strerror}') from None

    def lines(self) -> Iterator[str]:
        return lines_in(self.pieces())


def lines_in(pieces: Iterable[bytes]) -> Iterator[str]:
    """The lines of a text, each as soon as it is complete. One that is too long is the last, and cut behind its limit."""
    decoder = codecs.getincrementaldecoder('utf-8-sig')('replace')
    rest = ''
    for piece in pieces:
        *lines, rest = (rest + decoder.decode(piece)).split('\n')
        yield from lines
        if len(rest) > LONGEST_LINE:
            break
    rest += decoder.decode(b'', True)
    if rest:
        yield rest


def bytes_of(name: str) -> bytes:
    return b''.join(Input(name).pieces())
