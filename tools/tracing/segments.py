"""Transfers by segments (CiA 301): a segment taken apart, and the transfer that runs, as far as a trace tells."""
from typing import NamedTuple

from .eds import Place

DOWNLOAD, UPLOAD = 'download', 'upload'
ROOM = 7  # data bytes of a segment
MOST_HELD = 64  # bytes of a transfer: more than any number has, or than are shown


class Segment(NamedTuple):
    toggle: int
    is_last: bool
    data: bytes  # what it carries


def segment_of(message: bytes) -> Segment:
    """The segment that eight bytes are: bits 3 to 1 of the first tell how many of the others carry nothing."""
    return Segment(toggle_of(message[0]), bool(message[0] & 1), message[1:1 + ROOM - (message[0] >> 1 & 7)])


def toggle_of(command: int) -> int:
    return command >> 4 & 1


class Transfer(NamedTuple):
    direction: str
    place: Place
    count: int = 0  # of the segments so far
    size: int = 0  # of what they carried
    data: bytes = b''  # the first bytes of it

    @property
    def toggle(self) -> int:
        """That of the segment that is due."""
        return self.count % 2

    def fits(self, direction: str, toggle: int) -> bool:
        """Whether a segment is the one that is due."""
        return self.direction == direction and self.toggle == toggle

    def with_data(self, data: bytes) -> 'Transfer':
        """The transfer behind one more segment."""
        return self._replace(count=self.count + 1, size=self.size + len(data), data=(self.data + data)[:MOST_HELD])
