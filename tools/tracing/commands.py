"""The command line of tools/trace."""
import argparse
import os
import sys
from contextlib import closing
from pathlib import Path
from typing import Callable, Iterable, Iterator, Optional

from . import bench, differ, eds, log, readable, walk
from .decode import Decoder, Row
from .inputs import Input, nothing
from .log import Entry
from .look import Look, Trace, check_answers, look_at, look_through, need_power_up
from .node import HEARTBEAT
from .records import BadInput, Load, encode

SAME, DIFFERENT, BAD_INPUT, INTERRUPTED = 0, 1, 2, 130

ABOUT = "Bus traces of the node, for commissioning. '-' is standard input. Every command has its own --help."
STATUS = 'Exit status: 0 done; 2 bad input, named on standard error with its file and line or record, and nothing is written.'
READ_STATUS = ('Exit status: 0 done; 2 bad input, named on standard error with its file and line or record. Of a file nothing is written\n'
               'then, of a pipe what stands before it.')
VERDICT = 'Exit status: 0 the same; 1 different; 2 bad input, named on standard error with its file and line or record.'


PIPED = """\
A file is looked through before it is read. A pipe is read once, as it comes: there the power-up, or --node, has to stand
before the first frame, and as it is not known whether a file will be loaded, it is the C calls that are made."""


def main(arguments: list[str]) -> int:
    return carry_out(parser().parse_args(arguments), 'trace', BAD_INPUT)


def carry_out(args: argparse.Namespace, tool: str, bad_input: int) -> int:
    """The command, and its exit status; bad input is said on standard error."""
    try:
        if sys.stdout is None:
            raise BadInput('standard output is closed')
        status = args.command(args)
        sys.stdout.flush()
        return status
    except BadInput as wrong:
        return complain(tool, wrong, bad_input)
    except BrokenPipeError:
        drop_output()  # the reader has seen enough
        return SAME
    except KeyboardInterrupt:
        drop_output()
        return INTERRUPTED
    except OSError as wrong:
        drop_output()
        return complain(tool, f'{wrong.filename or "output"}: {wrong.strerror}', bad_input)


def complain(tool: str, wrong: object, status: int) -> int:
    """What was written so far stands before what is wrong."""
    try:
        if sys.stdout:
            sys.stdout.flush()
    except OSError:
        drop_output()
    print(f'{tool}: {wrong}', file=sys.stderr)
    return status


def drop_output() -> None:
    """What is not written yet goes nowhere, and is no error at the end of the program."""
    try:
        os.dup2(os.open(os.devnull, os.O_WRONLY), sys.stdout.fileno())
    except OSError:
        pass  # it is no file


# the commands

def command_records(args: argparse.Namespace) -> int:
    entries = trace_of(args.log, args).all_entries()
    if args.drop_own:
        items = walk.split(need_power_up(entries, args.log, look_at(entries, False)), Decoder(eds.load(args.eds)))
        entries = [item for item in items if isinstance(item, Entry)]
    load = next((entry for entry in entries if isinstance(entry.what, Load)), None)
    if load:
        raise BadInput(f'{args.log}, line {load.line}: a load, for which the bench program has no record; tools/trace run makes one')
    if not args.out and sys.stdout.isatty():
        raise BadInput('records are bytes and no text for a terminal: give -o FILE or redirect the output')
    return emit(encode(walk.records_of(entries)), args.out)


def command_run(args: argparse.Namespace) -> int:
    return emit(bench.run(walk.records_of(trace_of(args.trace, args).all_entries())).encode(), args.out)


def command_log(args: argparse.Namespace) -> int:
    trace = trace_of(args.trace, args)
    entries = trace.all_entries()
    if args.output:
        entries = whole_bus(entries, answers_of(args.output), args)
    if args.plain:
        entries = log.plain(entries)
    if args.start is not None:
        entries = log.starting_at(entries, args.start, trace.source.name)
    return emit(encoded(log.write(entries, args.bus or 'can0')), args.out)


def whole_bus(entries: list[Entry], answers: list[bench.Answer], args: argparse.Namespace) -> list[Entry]:
    """What the node was given and what it sent, in order; a refusal is a note."""
    bus: list[Entry] = []
    coming = iter(answers)
    due = len(walk.records_of(entries))
    if due != len(answers):
        raise walk.miscounted(args.output, len(answers), due)
    for entry in entries:
        bus.append(entry)
        if not walk.is_record(entry):
            continue
        answer = next(coming)
        if answer.refusal:
            bus.append(entry._replace(what=walk.refusal_note(answer.refusal)))
        bus.extend(entry._replace(what=frame) for frame in answer.frames)
    return bus


def command_read(args: argparse.Namespace) -> int:
    if args.trace == args.output == '-':
        raise BadInput("'-' stands for standard input once, and not twice")
    trace = trace_of(args.trace, args, write_out)
    output = Input(args.output, write_out) if args.output else None
    look = look_through(trace, args.show_ticks or args.run or output is not None)
    if output:
        check_answers(output, look.records)
    painter = readable.Painter(readable.wants_colour(args.color), look.time_width(args.absolute), 0 if args.absolute else None,
                               readable.terminal_width())
    for text in readable.texts(lines_of(trace, output, look, args), painter):
        sys.stdout.buffer.write(encoded(text + '\n'))
    return SAME


def lines_of(trace: Trace, output: Optional[Input], look: Look, args: argparse.Namespace) -> Iterator[walk.Line]:
    """The readable trace, as it comes."""
    objects = eds.load(args.eds)
    entries = trace.entries(0 if args.absolute and not look.is_known else look.lead)
    if output:
        pairs = walk.with_answers(entries, bench.answers_in(output.lines(), output.name), output.name)
        return walk.rows_with_answers(pairs, Decoder(objects), args.show_ticks)
    if args.run:
        return walk.rows_with_answers(replayed(entries, look), Decoder(objects), args.show_ticks)
    return walk.rows_as_recorded(need_power_up(entries, trace.source.name, look), Decoder(objects, look.has_answers), args.show_ticks)


def replayed(items: Iterable[walk.Item], look: Look) -> Iterator[walk.Answered]:
    """What a trace has, with the answers of the node."""
    program = bench.program_for(look.has_loads)
    return walk.answered(items, lambda records: bench.answers_to(records, program), program.name)


def command_replay(args: argparse.Namespace) -> int:
    trace = trace_of(args.log, args)
    look = look_through(trace, False)
    objects = eds.load(args.eds)
    items = walk.split(need_power_up(trace.entries(look.lead), trace.source.name, look), Decoder(objects))
    comparison = differ.Comparison(args.by_identifier, args.node is not None)
    with closing(replayed(items, look)) as pairs:
        difference = compared(walk.steps(pairs, Decoder(objects)), comparison)
    if difference:
        emit(encoded(differ.told(difference, trace.source.name, args.by_identifier, readable.wants_colour(args.color), readable.terminal_width())))
        return DIFFERENT
    return emit(f'the same: {comparison.recorded} frames from the node are as recorded\n'.encode())


def compared(steps: Iterable, comparison: differ.Comparison) -> Optional[differ.Difference]:
    """The first difference. What comes behind it is not looked at."""
    for step in steps:
        if isinstance(step, Row):
            comparison.add_recorded(step)
        elif isinstance(step, walk.Step):
            for row in step.sent:
                comparison.add_sent(differ.Sent(row, step.given))
        if comparison.is_decided:
            return comparison.found
    return comparison.end()


def command_compare(args: argparse.Namespace) -> int:
    one, other = (answers_of(path) for path in (args.wanted, args.got))
    place = differ.first_answer(one, other)
    if place is None:
        return emit(f'the same: {len(one)} answers\n'.encode())
    entries = trace_of(args.records, args).all_entries() if args.records else None
    objects = eds.load(args.eds)
    sides = [(path, answer_at(place, answers, entries, objects)) for path, answers in ((args.wanted, one), (args.got, other))]
    emit(encoded(differ.told_answers(place, sides, readable.wants_colour(args.color), readable.terminal_width())))
    return DIFFERENT


def answer_at(place: int, answers: list[bench.Answer], entries: Optional[list[Entry]], objects: eds.Objects) -> Optional[differ.Told]:
    """The answer at this place, in words as far as the trace before it tells; none where the answers end before."""
    if place >= len(answers):
        return None
    decoder, given = Decoder(objects), None
    history = answers[:place + 1]
    if entries is None:
        decoder.node.power_up(number_in(history))
        sent = [[decoder.put_out(frame, Entry(0, 0, frame)) for frame in answer.frames] for answer in history][-1]
    else:
        records = [entry for entry in entries if walk.is_record(entry)][:place + 1]
        if len(records) != len(history):
            raise walk.miscounted('the outputs', len(history), len(records))
        *_, last = walk.steps(zip(records, history), decoder)
        given, sent = last.given, last.sent
    return differ.Told(answers[place], given, sent, decoder.node.mode)


def number_in(answers: list[bench.Answer]) -> int:
    """The node's number as its first boot-up tells; 0 where there is none."""
    frames = (frame for answer in answers for frame in answer.frames)
    return next((frame.identifier - HEARTBEAT for frame in frames if frame.identifier > HEARTBEAT and frame.data == b'\0'), 0)


# input and output

def trace_of(path: str, args: argparse.Namespace, before_wait: Callable[[], None] = nothing) -> Trace:
    options = log.Options(args.bus if args.bus_chosen else None, args.skip_foreign)
    return Trace(Input(path, before_wait), options, args.node, args.ticks, args.damaged)


def answers_of(path: str) -> list[bench.Answer]:
    return list(bench.answers_in(Input(path).lines(), path))


def write_out() -> None:
    """What was written is to be seen while more is waited for."""
    sys.stdout.flush()


def encoded(text: str) -> bytes:
    return text.encode('utf-8', errors='surrogateescape')  # the name of a file may be any bytes


def emit(content: bytes, path: Optional[str] = None) -> int:
    if path:
        Path(path).write_bytes(content)
    else:
        sys.stdout.buffer.write(content)
    return SAME


# arguments

def parser() -> argparse.ArgumentParser:
    top = argparse.ArgumentParser(prog='tools/trace', description=ABOUT)
    kinds = top.add_subparsers(metavar='COMMAND', required=True)
    add_records(kinds)
    add_run(kinds)
    add_log(kinds)
    add_read(kinds)
    add_replay(kinds)
    add_compare(kinds)
    return top


def add(kinds, name: str, command, text: str, after: str) -> argparse.ArgumentParser:
    """A command with the options that all commands know; those that it does not show have their defaults."""
    one = kinds.add_parser(name, help=text, description=text, epilog=after, formatter_class=argparse.RawDescriptionHelpFormatter)
    one.set_defaults(command=command, node=None, ticks=False, bus=None, bus_chosen=True, skip_foreign=False, damaged=False, eds=eds.FILE)
    return one


def add_log_options(one: argparse.ArgumentParser) -> None:
    one.add_argument('--node', type=node_number, metavar='N', help='the node powers up with this node-ID before the first line')
    one.add_argument('--ticks', action='store_true', help='a tick for each millisecond of the time stamps, from the first one on')
    one.add_argument('--bus', metavar='NAME', help='of a log with several interfaces, the one to look at')
    one.add_argument('--skip-foreign', action='store_true', help='leave out CAN FD, 29-bit, remote and error frames')


def add_reading_options(one: argparse.ArgumentParser) -> None:
    one.add_argument('--color', choices=('auto', 'always', 'never'), default='auto', help='auto: on a terminal, unless NO_COLOR is set')
    add_eds(one)


def add_eds(one: argparse.ArgumentParser) -> None:
    one.add_argument('--eds', type=Path, default=eds.FILE, metavar='FILE', help="the objects' names and types (default: cendurak.eds)")


def add_damaged(one: argparse.ArgumentParser) -> None:
    one.add_argument('--damaged', action='store_true', help='keep a bad record and all behind it as damage; else it is an error')


def node_number(text: str) -> int:
    if not log.is_number(text, 127) or not int(text):
        raise argparse.ArgumentTypeError(f"'{text}' is not 1 to 127")
    return int(text)


def start_time(text: str) -> int:
    time = log.time_of(text)
    if time is None:
        raise argparse.ArgumentTypeError(f"'{text}' is no Unix time: seconds, with or without decimals, as date +%s tells them")
    return time - time % log.MICROSECOND


def add_records(kinds) -> None:
    text = 'a candump log with events, as records for the bench program'
    one = add(kinds, 'records', command_records, text, f'{log.NOTATION}\n\n{STATUS}')
    one.add_argument('log', metavar='LOG')
    one.add_argument('-o', dest='out', metavar='FILE', help='where the records go (default: standard output)')
    one.add_argument('--drop-own', action='store_true', help='leave out the frames that the node sent, by their identifiers')
    add_log_options(one)
    add_eds(one)


def add_run(kinds) -> None:
    text = 'a trace through the node: what the bench program prints for it'
    after = (f'It needs {bench.NEEDS}\nThat program prints what the bench program would, and under a load what it answered, and the '
             f'dictionary after it.\n\n{STATUS}')
    one = add(kinds, 'run', command_run, text, after)
    one.add_argument('trace', metavar='TRACE', help='records, or a log')
    one.add_argument('-o', dest='out', metavar='FILE', help='where the output goes (default: standard output)')
    add_log_options(one)
    add_damaged(one)


def add_log(kinds) -> None:
    text = "records as a candump log with events; with the bench program's output, the log of the whole bus"
    after = ('Records have no time stamps: the times are those of the ticks, 1 ms each. A log may stand for RECORDS.\n'
             'Wireshark opens plain logs alone, and log2asc of can-utils needs real times: --plain --start 1700000000 is for both.\n'
             f'How events stand in a log: tools/trace records --help.\n\n{STATUS}')
    one = add(kinds, 'log', command_log, text, after)
    one.set_defaults(bus_chosen=False)
    one.add_argument('trace', metavar='RECORDS')
    one.add_argument('output', metavar='OUTPUT', nargs='?', help='what the bench program printed for these records')
    one.add_argument('-o', dest='out', metavar='FILE', help='where the log goes (default: standard output)')
    one.add_argument('--bus', metavar='NAME', help='the interface that the log names (default: can0)')
    one.add_argument('--plain', action='store_true', help="frames alone, as candump writes them: no events, headings and notes behind '#'")
    one.add_argument('--start', type=start_time, metavar='EPOCH', help='move all times so that the first is this Unix time, in seconds')
    one.add_argument('--ticks', action='store_true', help='a tick for each millisecond of the time stamps (of a LOG)')
    add_damaged(one)


def add_read(kinds) -> None:
    after = ('Without OUTPUT and --run, the log is read as it was recorded: frames on the identifiers of the node are those it sent.\n'
             'Columns: time in seconds from the first line on; in, out (of the node) or amp (from the amplifier); identifier; service;\n'
             'data bytes; object, its name and its value. PDOs are decoded by the mapping that the trace shows. What an SDO transfer\n'
             'by segments carries is told whole at its last segment. A state line tells a status word that no frame told. Ticks are\n'
             'not shown. On a terminal long lines are folded to its width, which COLUMNS may tell.\n\n'
             'From a pipe each line is shown as soon as it is complete:\n\n  candump -ta can0 | tools/trace read --node 5 -\n\n'
             'Of a log without any SDO answer each write is taken as done; from a pipe, each write before the first answer.\n\n'
             f'--run needs {bench.NEEDS}\n\n{PIPED}\n\nHow events stand in a log: tools/trace records --help.\n\n{READ_STATUS}')
    one = add(kinds, 'read', command_read, 'the readable trace', after)
    one.add_argument('trace', metavar='TRACE', help='records, or a log')
    one.add_argument('output', metavar='OUTPUT', nargs='?', help='what the bench program printed for these records')
    one.add_argument('--run', action='store_true', help='run the node for the output, as tools/trace run does')
    one.add_argument('--show-ticks', action='store_true', help='show ticks')
    one.add_argument('--absolute', action='store_true', help='time stamps as in the log')
    add_log_options(one)
    add_damaged(one)
    add_reading_options(one)


def add_replay(kinds) -> None:
    after = ('Frames on the identifiers of the node are those it sent, as recorded; all others are given to the bench program, and\n'
             "what it answers is compared with what was recorded, in order. The amplifier's events are on no bus: place them in the\n"
             'log, as tools/trace records --help says. With --node, a log may begin behind the boot-up.\n\n'
             f'It ends at the first difference. Frames that wait for their like, recorded or replayed, are kept; where over {differ.MOST_WAITING}\n'
             f'wait (with --by-identifier, of one identifier) the first of them is the difference.\n\n'
             f'It needs {bench.NEEDS}\n\n{PIPED}\n\n{VERDICT}')
    one = add(kinds, 'replay', command_replay, 'a recorded log through the node: does it answer as recorded?', after)
    one.add_argument('log', metavar='LOG')
    one.add_argument('--by-identifier', action='store_true',
                     help='compare the order of frames of one identifier only; keeps, for each identifier, the frames that wait for their like')
    add_log_options(one)
    add_reading_options(one)


def add_compare(kinds) -> None:
    one = add(kinds, 'compare', command_compare, 'two outputs of the bench program', VERDICT)
    one.add_argument('wanted', metavar='OUTPUT')
    one.add_argument('got', metavar='OUTPUT')
    one.add_argument('--records', metavar='TRACE', help='the records, or the log, that both answer: tells the cause too')
    one.add_argument('--ticks', action='store_true', help='a tick for each millisecond of the time stamps (of a log)')
    add_damaged(one)
    add_reading_options(one)
