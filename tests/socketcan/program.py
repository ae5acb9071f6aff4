"""The program cendurak-node under test: built by the command of its README, and run over one end of a socket pair."""
import contextlib
import os
import re
import shlex
import shutil
import signal
import socket
import subprocess
import tempfile
import time
from pathlib import Path

from master import HEARTBEAT, PATIENCE, Master

ROOT = Path(__file__).resolve().parent.parent.parent
README = ROOT / "examples" / "socketcan" / "README.md"
FAKE = Path(__file__).resolve().parent / "fake_can.c"
ARCHIVE = ROOT / "target" / "staticlib" / "libcendurak.a"
NODE = 5
interface = None  # a CAN interface to test on, in place of socket pairs


def compiler():
    return shlex.split(os.environ.get("CC", "cc"))


def what_is_missing():
    """A sentence, where the program cannot be built here; none: it can."""
    if os.uname().sysname != "Linux" or os.uname().machine != "x86_64":
        return "the archive is for Linux on x86-64, and this machine is not"
    if not shutil.which(compiler()[0]):
        return f"there is no compiler '{compiler()[0]}'"
    probe = subprocess.run([*compiler(), "-E", "-"], input="#include <stdio.h>\n#include <linux/can/raw.h>\n", text=True, capture_output=True)
    return None if probe.returncode == 0 else "the headers of the C library and <linux/can/raw.h> are not there"


def build_command():
    """The command that README.md has for building, as one line."""
    found = re.search(r"^    cc (?:.*\\\n)*.*$", README.read_text(), re.M)
    return found.group(0).replace("\\\n", " ").strip()


def build(room):
    """The ended compiler, of the program and of the fake interface."""
    command = re.sub(r"^cc", shlex.join(compiler()), build_command()).replace("target/cendurak-node", str(room / "cendurak-node"))
    program = subprocess.run(command, shell=True, cwd=ROOT, capture_output=True, text=True)
    fake = subprocess.run([*compiler(), "-std=c11", "-Wall", "-Wextra", "-fPIC", "-shared", str(FAKE), "-o", str(room / "fake_can.so"), "-ldl"],
                          capture_output=True, text=True)
    return program, fake


def pair(send_room=None):
    """The master's end and the program's; the program's with room for few frames, where it is told so."""
    mine, its = socket.socketpair(socket.AF_UNIX, socket.SOCK_SEQPACKET)
    if send_room is not None:
        its.setsockopt(socket.SOL_SOCKET, socket.SO_SNDBUF, send_room)
    return mine, its


def end_of_interface():
    """The master's end on the interface that is tested on."""
    end = socket.socket(socket.AF_CAN, socket.SOCK_RAW, socket.CAN_RAW)
    end.bind((interface,))
    return end


class Program:
    """A running one: its process, its master, and what it printed. `end` is the master's, `handed` the sockets that the program gets."""

    def __init__(self, room, arguments, end, handed, environment):
        self.place = Path(tempfile.mkdtemp(dir=room))
        self.notes = self.place / "notes"
        self.master = Master(end, NODE)
        with open(self.place / "out", "wb") as out, open(self.place / "err", "wb") as err:
            self.process = subprocess.Popen([str(room / "cendurak-node"), *arguments], stdout=out, stderr=err, stdin=subprocess.DEVNULL,
                                            pass_fds=[its.fileno() for its in handed],
                                            env={**os.environ, **environment, "FAKE_CAN_NOTES": str(self.notes)})
        for its in handed:
            its.close()

    def out(self):
        return (self.place / "out").read_text()

    def err(self):
        return (self.place / "err").read_text()

    def noted(self):
        return self.notes.read_text().splitlines()

    def processor_seconds(self):
        """What it has used so far."""
        fields = Path(f"/proc/{self.process.pid}/stat").read_text().rpartition(")")[2].split()
        return (int(fields[11]) + int(fields[12])) / os.sysconf("SC_CLK_TCK")

    def wait_for_line(self, words):
        self.master.wait_until(lambda: words in self.out(), f"the program says '{words}'")

    def end(self, number=signal.SIGTERM):
        """The exit status behind a signal."""
        self.process.send_signal(number)
        return self.ended()

    def ended(self):
        """The exit status of a program that ends by itself."""
        return self.process.wait(PATIENCE)


def start(room, options, send_room, fails):
    """On the interface that is tested on; or over a socket pair, by --fd or, where `fails` is told, as the fake interface."""
    if interface is not None:
        return Program(room, [*options, interface, str(NODE)], end_of_interface(), [], {})
    end, its = pair(send_room)
    if fails is None:
        return Program(room, [*options, "--fd", str(its.fileno()), str(NODE)], end, [its], {})
    fake = {"LD_PRELOAD": str(room / "fake_can.so"), "FAKE_CAN_FD": str(its.fileno()), "FAKE_CAN_FAILS": fails}
    return Program(room, [*options, "vcan0", str(NODE)], end, [its], fake)


@contextlib.contextmanager
def running(room, *options, send_room=None, fails=None):
    """The program, started and in the end stopped. `fails` is a call of the fake interface, and how it fails; '': none does."""
    program = start(room, options, send_room, fails)
    try:
        if interface is not None:  # what is sent before the node is there is lost
            program.master.wait_for(HEARTBEAT + NODE, b"\0")
        yield program
    finally:
        if program.process.poll() is None:
            program.process.kill()
        program.process.wait()
        program.master.end.close()


def run(room, *arguments):
    """A program that is to end at once."""
    return subprocess.run([str(room / "cendurak-node"), *arguments], capture_output=True, text=True, timeout=PATIENCE)


def packets_that_fit(send_room):
    """How many frames a socket with that little room takes while nobody reads."""
    mine, its = pair(send_room)
    its.setblocking(False)
    count = 0
    with contextlib.suppress(BlockingIOError):
        while True:
            its.send(bytes(16))
            count += 1
    mine.close()
    its.close()
    return count


def seconds_since(start):
    return time.monotonic() - start
