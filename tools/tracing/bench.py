"""The bench program's output as answers, and the bench program itself; where a file is loaded, the C program of tests/c/loads.c."""
import functools
import os
import re
import select
import subprocess
import tempfile
from itertools import islice
from pathlib import Path
from typing import Iterable, Iterator, NamedTuple, Optional

from .inputs import PIECE, lines_in
from .records import MOST_KEPT, BadInput, Frame, Load, Record, encode

ROOT = Path(__file__).resolve().parents[2]
C_RUN, C_BUILD = str(ROOT / 'tools' / 'c-run'), str(ROOT / 'tools' / 'c-build')
BENCH = ROOT / 'target' / 'bin' / 'bench'
LOADS, ARCHIVE = ROOT / 'tests' / 'c' / 'loads.c', ROOT / 'target' / 'staticlib' / 'libcendurak.a'
NEEDS = """\
the bench program, target/bin/bench, which tools/build bench makes. Where a file is loaded the C calls are made instead, by
the program of tests/c/loads.c: it needs target/staticlib/libcendurak.a, which tools/build cendurak makes."""

RECORD_LINE = re.compile(r'([0-9]+) ([0-9]|1[0-4]) ([0-9A-F]{4})')
FRAME_LINE = re.compile(r'([0-9A-F]{3})((?: [0-9A-F]{2}){0,8})')
LOAD_LINE = re.compile(r'[0-9]{1,2} ([0-9]{1,9}) ([0-9A-F]{8})')  # under the line of a load
DICTIONARY_LINE = re.compile(r'(?:[0-9A-F]{2}){16,}')  # under that
BATCH = 500  # records that are handed to the program at once


class Loaded(NamedTuple):
    """What a load answered besides its refusal, and the dictionary after it."""
    entry: int
    code: int
    dictionary: bytes = b''


class Answer(NamedTuple):
    """What the node answered to one record, and the output's line where it starts."""
    line: int
    refusal: int
    status: int
    frames: tuple[Frame, ...]
    load: Optional[Loaded] = None


def parse(text: str, file: str) -> list[Answer]:
    return list(answers_in(lines_in([text.encode()]), file))


def answers_in(lines: Iterable[str], file: str) -> Iterator[Answer]:
    """The answers of an output, each when the line of the next one is there."""
    answer: Optional[Answer] = None
    due = 1
    for number, line in enumerate(lines, 1):
        line = line.rstrip('\r')
        if shape := RECORD_LINE.fullmatch(line):
            if shape[1] != str(due):
                raise BadInput(f'{file}, line {number}: record {shape[1][:60]} where {due} is due')
            if answer:
                yield answer
            answer, due = Answer(number, int(shape[2]), int(shape[3], 16), ()), due + 1
        elif (shape := FRAME_LINE.fullmatch(line)) and answer:
            answer = answer._replace(frames=answer.frames + (frame_of(shape[1], shape[2]),))
        elif (shape := LOAD_LINE.fullmatch(line)) and answer:
            answer = answer._replace(load=Loaded(int(shape[1]), int(shape[2], 16)))
        elif DICTIONARY_LINE.fullmatch(line) and answer and answer.load:
            answer = answer._replace(load=answer.load._replace(dictionary=bytes.fromhex(line)))
        else:
            raise BadInput(f"{file}, line {number}: neither a record's line nor a frame's: {line[:60]!r}")
    if answer:
        yield answer


@functools.lru_cache(MOST_KEPT)
def frame_of(identifier: str, data: str) -> Frame:
    return Frame(int(identifier, 16), bytes.fromhex(data))


# the program

class Program(NamedTuple):
    command: list[str]
    name: str


def program_for(has_loads: bool) -> Program:
    """The bench program; where there may be loads among the records, the C program."""
    if has_loads:
        return Program([C_RUN, loads_program()], 'tests/c/loads.c')
    if not BENCH.is_file():
        raise BadInput('target/bin/bench is not built; tools/build bench makes it')
    return Program([C_RUN, str(BENCH)], 'the bench program')


def run(records: list[Record]) -> str:
    """The program's output on these records."""
    program = program_for(any(isinstance(record, Load) for record in records))
    return b''.join(output_of(program, records)).decode('ascii', errors='replace')


def answers_to(records: Iterable[Record], program: Program) -> Iterator[Answer]:
    """The program's answers. It is given the records as they come."""
    return answers_in(lines_in(output_of(program, records)), program.name)


def output_of(program: Program, records: Iterable[Record]) -> Iterator[bytes]:
    """What the program prints, as it comes. It is stopped where that is not heard to its end."""
    with tempfile.TemporaryFile() as said, \
            subprocess.Popen(program.command, stdin=subprocess.PIPE, stdout=subprocess.PIPE, stderr=said, bufsize=0) as child:
        try:
            yield from exchange(child, batches(iter(records)))
        except BaseException:
            child.kill()
            raise
        if child.wait():
            said.seek(0)
            raise BadInput(f'{program.name} ended with status {child.returncode}: {said.read().decode(errors="replace").strip()[:300]}')


def batches(records: Iterator[Record]) -> Iterator[bytes]:
    while batch := list(islice(records, BATCH)):
        yield encode(batch)


def exchange(child: subprocess.Popen, given: Iterator[bytes]) -> Iterator[bytes]:
    """Gives to a program and takes from it, whichever it is ready for, so that neither waits for the other."""
    os.set_blocking(child.stdin.fileno(), False)
    left = next(given, b'')
    while True:
        if not left and not child.stdin.closed:
            child.stdin.close()
        ready, is_ready, _ = select.select([child.stdout], [] if child.stdin.closed else [child.stdin], [])
        if is_ready:
            left = written(child, left) or next(given, b'')
        if ready:
            piece = os.read(child.stdout.fileno(), PIECE)
            if not piece:
                return
            yield piece


def written(child: subprocess.Popen, left: bytes) -> bytes:
    """What is left of these bytes after a write; nothing where the program takes no more."""
    try:
        return left[os.write(child.stdin.fileno(), left):]
    except BrokenPipeError:
        child.stdin.close()
        return b''


@functools.cache
def room() -> tempfile.TemporaryDirectory:
    """Where the C program is kept while this program runs."""
    return tempfile.TemporaryDirectory()


@functools.cache
def loads_program() -> str:
    """The C program, compiled and linked with the node."""
    if not ARCHIVE.is_file():
        raise BadInput('target/staticlib/libcendurak.a is not built, without which no file is loaded; tools/build cendurak makes it')
    program = str(Path(room().name) / 'loads')
    built = subprocess.run([C_BUILD, program, str(LOADS)], capture_output=True)
    if built.returncode:
        raise BadInput(f'tests/c/loads.c is not built: {built.stderr.decode(errors="replace").strip()[:300]}')
    return program
