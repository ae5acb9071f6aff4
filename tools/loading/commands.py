"""The command line of tools/dcf."""
import argparse
import sys
from pathlib import Path

from tracing import dcf, eds
from tracing.commands import carry_out, node_number
from tracing.inputs import bytes_of
from tracing.records import MOST_LOAD, BadInput

from . import lists, source, trial, verdict

DONE, BAD = 0, 1
USUAL_NODE = 5

ABOUT = "Concise DCF files (CiA 302), the configurations that the node loads. '-' is standard input or output. Every command has its own --help."
STATUS = 'Exit status: 0 done; 1 bad input, named on standard error with its entry and byte, or its line, and nothing is written.'
VERDICT = 'Exit status: 0 the node takes the file; 1 it refuses it, or bad input, named on standard error.'


def main(arguments: list[str]) -> int:
    return carry_out(parser().parse_args(arguments), 'dcf', BAD)


# the commands

def command_read(args: argparse.Namespace) -> int:
    entries = dcf.decode(bytes_of(args.file), args.file)
    return emit(lists.text_of(entries, eds.load()).encode(), '-')


def command_write(args: argparse.Namespace) -> int:
    objects = eds.load()
    entries = lists.parse(bytes_of(args.list).decode('utf-8-sig', errors='replace'), args.list, objects)
    if args.c:
        return emit(source.source_of(entries, args.c, objects).encode(), args.file)
    if args.file == '-' and sys.stdout.isatty():
        raise BadInput('a file is bytes and no text for a terminal: give its name, or redirect the output')
    return emit(dcf.encode(entries), args.file)


def command_try(args: argparse.Namespace) -> int:
    content, objects = bytes_of(args.file), eds.load()
    if len(content) > MOST_LOAD:
        raise BadInput(f'{args.file}: {len(content)} bytes, where files of up to {MOST_LOAD} are tried')
    ran = trial.run(content, args.node, objects)
    emit(verdict.told(content, ran, args.node, objects).encode(), '-')
    return BAD if ran.refusal else DONE


def emit(content: bytes, path: str) -> int:
    if path == '-':
        sys.stdout.buffer.write(content)
        sys.stdout.buffer.flush()
    else:
        Path(path).write_bytes(content)
    return DONE


# arguments

def parser() -> argparse.ArgumentParser:
    top = argparse.ArgumentParser(prog='tools/dcf', description=ABOUT)
    kinds = top.add_subparsers(metavar='COMMAND', required=True)
    add_read(kinds)
    add_write(kinds)
    add_try(kinds)
    return top


def add(kinds, name: str, command, text: str, after: str) -> argparse.ArgumentParser:
    one = kinds.add_parser(name, help=text, description=text, epilog=after, formatter_class=argparse.RawDescriptionHelpFormatter)
    one.set_defaults(command=command)
    return one


def add_read(kinds) -> None:
    after = f'tools/dcf write takes such a list, and makes the same file of it.\n\n{STATUS}'
    one = add(kinds, 'read', command_read, 'a file as a readable list, by the names of cendurak.eds', after)
    one.add_argument('file', metavar='FILE')


def add_write(kinds) -> None:
    one = add(kinds, 'write', command_write, 'a file from a readable list', f'{lists.NOTATION}\n\n{STATUS}')
    one.add_argument('--c', metavar='NAME', help='a C source, with the file as a constant array of that name, and NAME_length')
    one.add_argument('list', metavar='LIST', nargs='?', default='-', help='the list (default: standard input)')
    one.add_argument('file', metavar='FILE', help='where the file goes')


def add_try(kinds) -> None:
    after = ('The node is the compiled one, target/staticlib/libcendurak.a, which tools/build cendurak makes. What the file changes is\n'
             f'told by object, or why it is refused: which entry, its value, and the abort code in words.\n\n{VERDICT}')
    one = add(kinds, 'try', command_try, 'a file through the node, fresh from power-up', after)
    one.add_argument('file', metavar='FILE')
    one.add_argument('--node', type=node_number, default=USUAL_NODE, metavar='N', help=f'the node-ID (default: {USUAL_NODE})')
