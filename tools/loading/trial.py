"""A file through the compiled node, fresh from power-up: by the C calls, in the program of tests/c/loads.c."""
from typing import NamedTuple

from tracing import bench
from tracing.dcf import encode
from tracing.eds import Objects, Place
from tracing.records import BadInput, Load, PowerUp


class Trial(NamedTuple):
    """What a load answered, and the objects before and after it."""
    refusal: int
    entry: int  # from 1; 0 where none is named
    code: int
    before: dict[Place, bytes]
    after: dict[Place, bytes]


def run(content: bytes, node: int, objects: Objects) -> Trial:
    """A file of no entries changes nothing, so that a load of one tells how the objects stand before."""
    answers = bench.parse(bench.run([PowerUp(node), Load(encode([])), Load(content)]), 'the node')
    first, last = (answer.load for answer in answers[1:])
    if answers[1].refusal or not first or not last:
        raise BadInput('the node does not take a file of no entries')
    return Trial(answers[2].refusal, last.entry, last.code, values_of(first.dictionary, objects), values_of(last.dictionary, objects))


def values_of(dictionary: bytes, objects: Objects) -> dict[Place, bytes]:
    """The objects' bytes: they are packed in rising order of index and subindex, and a text is none of them."""
    values, place = {}, 0
    for where, entry in sorted(objects.items()):
        if not entry.is_text:
            values[where] = dictionary[place:place + entry.size]
            place += entry.size
    if place != len(dictionary):
        raise BadInput(f'the data sheet has {place} bytes of objects, and the node {len(dictionary)}')
    return values
