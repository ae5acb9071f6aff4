"""A CANopen master over a socket that carries struct can_frame, one in a packet: what goes over it is kept with its time."""
import select
import socket
import struct
import time
from typing import NamedTuple

CAN_FRAME = struct.Struct("=IB3x8s")
EXTENDED, REMOTE, ERROR = 1 << 31, 1 << 30, 1 << 29  # the flags beside an identifier
PATIENCE = 8.0  # seconds that anything may take on a busy machine

SYNC, EMERGENCY, SDO_REPLY, SDO_REQUEST, HEARTBEAT = 0x080, 0x080, 0x580, 0x600, 0x700
START, STOP, PRE_OPERATIONAL, RESET_NODE, RESET_COMMUNICATION = 0x01, 0x02, 0x80, 0x81, 0x82


class Silence(Exception):
    """What was waited for did not come."""


class Frame(NamedTuple):
    time: float
    is_sent: bool  # by the master
    identifier: int
    data: bytes


def packet(identifier, data, length=None):
    return CAN_FRAME.pack(identifier, len(data) if length is None else length, data.ljust(8, b"\0"))


class Master:
    def __init__(self, end: socket.socket, node: int):
        self.end = end
        self.node = node
        self.frames = []  # all that went over the socket

    # ---- frames

    def send(self, identifier, data=b""):
        self.take()
        self.end.send(packet(identifier, data))
        self.frames.append(Frame(time.monotonic(), True, identifier, bytes(data)))

    def command(self, command, node=None):
        self.send(0, bytes([command, self.node if node is None else node]))

    def take(self, seconds=0.0):
        """Takes what is there; waits for the first frame, no longer than that."""
        while select.select([self.end], [], [], seconds)[0]:
            content = self.end.recv(256)
            if len(content) != CAN_FRAME.size:
                raise Silence(f"a packet of {len(content)} bytes: the other end has closed, or sends no frames")
            identifier, length, data = CAN_FRAME.unpack(content)
            self.frames.append(Frame(time.monotonic(), False, identifier, data[:length]))
            seconds = 0.0

    def listen(self, seconds):
        """Takes all that comes in that time."""
        end = time.monotonic() + seconds
        while time.monotonic() < end:
            self.take(max(0.0, end - time.monotonic()))

    def heard(self, identifier, since=0):
        return [frame.data for frame in self.frames[since:] if not frame.is_sent and frame.identifier == identifier]

    def wait(self, wanted, what, since=0):
        """The first frame of the node, from a place on, that is as wanted."""
        end = time.monotonic() + PATIENCE
        place = since
        while True:
            for frame in self.frames[place:]:
                if not frame.is_sent and wanted(frame):
                    return frame
            place = len(self.frames)
            if time.monotonic() >= end:
                raise Silence(f"no {what} in {PATIENCE} s")
            self.take(0.05)

    def wait_for(self, identifier, data=None, since=0):
        words = f"frame {identifier:03X}" + ("" if data is None else f" with {data.hex()}")
        return self.wait(lambda frame: frame.identifier == identifier and data in (None, frame.data), words, since)

    # ---- SDO

    def ask(self, request):
        self.take()
        since = len(self.frames)
        self.send(SDO_REQUEST + self.node, request)
        return self.wait_for(SDO_REPLY + self.node, since=since).data

    def upload(self, index, subindex=0):
        """The bytes of an object, expedited or by segments; an abort code as a number."""
        reply = self.ask(struct.pack("<BHBI", 0x40, index, subindex, 0))
        if reply[0] == 0x80:
            return struct.unpack("<I", reply[4:])[0]
        if reply[0] & 2:
            return reply[4:8 - (reply[0] >> 2 & 3)]
        content, toggle, is_last = b"", 0, False
        while not is_last:
            segment = self.ask(bytes([0x60 | toggle]) + bytes(7))
            content += segment[1:8 - (segment[0] >> 1 & 7)]
            toggle, is_last = toggle ^ 0x10, bool(segment[0] & 1)
        return content

    def read(self, index, subindex=0, signed=False):
        content = self.upload(index, subindex)
        if not isinstance(content, bytes):
            raise Silence(f"{index:04X}:{subindex:02X} aborted with {content:08X}")
        return int.from_bytes(content, "little", signed=signed)

    def write(self, index, subindex, value, size):
        """0, or the abort code."""
        reply = self.ask(struct.pack("<BHBI", 0x23 | (4 - size) << 2, index, subindex, value & 0xFFFFFFFF))
        return struct.unpack("<I", reply[4:])[0] if reply[0] == 0x80 else 0

    def wait_until(self, look, what):
        """Looks again and again, until it is so."""
        end = time.monotonic() + PATIENCE
        while not look():
            if time.monotonic() >= end:
                raise Silence(f"not in {PATIENCE} s: {what}")
            self.listen(0.005)
