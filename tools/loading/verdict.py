"""What a load came to, in words."""
from tracing import dcf, node as can, words
from tracing.dcf import Entry, entry_count, place_text
from tracing.decode import Decoder
from tracing.eds import Objects, Place
from tracing.node import Node
from tracing.records import BadInput

from .lists import is_identifier, name_of
from .trial import Trial

MISFITS = 10, 11, 12  # refusals of what is no file
CONTROL_WORD_ENTRY, ENTRY_ABORTED = 13, 14
WRONG_TIME, BAD_VALUE = 0x08000022, 0x06090030
FOLLOWING = (0x6041, 0), (0x6061, 0)


def told(content: bytes, trial: Trial, number: int, objects: Objects) -> str:
    """The verdict on a file, as lines; the node powered up with that number."""
    if trial.refusal:
        lines = [f'refused {trial.refusal}: {words.REFUSALS.get(trial.refusal, "unknown")}', *reasons(content, trial, number, objects)]
        return '\n'.join(lines + ['nothing is changed']) + '\n'
    entries = dcf.decode(content, 'file')
    return '\n'.join([f'accepted: {entry_count(len(entries))}, by node {number} fresh from power-up', *changes(entries, trial, objects)]) + '\n'


# ---- an accepted file


def changes(entries: list[Entry], trial: Trial, objects: Objects) -> list[str]:
    """The objects that have another value now, and how many entries left theirs as it was."""
    changed = [place for place in trial.before if trial.before[place] != trial.after[place]]
    if not changed:
        return ['nothing is changed']
    decoder = Decoder(objects)
    rows = [(named(place, objects), decoder.value_text(place, trial.before[place]), decoder.value_text(place, trial.after[place])
             + (', which follows' if place in FOLLOWING else '')) for place in changed]
    left, middle = (max(len(row[column]) for row in rows) for column in (0, 1))
    same = {entry.place for entry in entries} - set(changed)
    unchanged = f"as before: {', '.join(place_text(place) for place in sorted(same))}"
    return [f'{name:{left}}  {old:{middle}} -> {new}' for name, old, new in rows] + ([unchanged] if same else [])


def named(place: Place, objects: Objects) -> str:
    return f'{place_text(place)} {name_of(place, objects)}'.rstrip()


# ---- a refused one


def reasons(content: bytes, trial: Trial, number: int, objects: Objects) -> list[str]:
    if trial.refusal in MISFITS:
        try:
            dcf.decode(content, 'file')
        except BadInput as wrong:
            return [f'  {wrong}']
    entries = dcf.entries_in(content) or []
    if trial.refusal == CONTROL_WORD_ENTRY:
        at = next(at for at, entry in enumerate(entries) if entry.place[0] == can.CONTROL_WORD[0])
        return [f'  {entry_text(entries, at, objects)}']
    if trial.refusal == ENTRY_ABORTED:
        return [f'  {entry_text(entries, trial.entry - 1, objects)}', f'  {words.abort(trial.code)}', *hints(entries, trial, number, objects)]
    return []


def entry_text(entries: list[Entry], at: int, objects: Objects) -> str:
    """An entry with its place in the file, its object and its value."""
    entry = entries[at]
    text = Decoder(objects).object_text(entry.place, entry.data)
    return f'entry {at + 1} of {len(entries)} (byte {entry.start}): {text.place} {text.name} = {text.value}'


def hints(entries: list[Entry], trial: Trial, number: int, objects: Objects) -> list[str]:
    """What the abort of an entry means for this object, where there is more to say than its code does."""
    failed = entries[trial.entry - 1]
    index, subindex = failed.place
    if failed.place in can.POSITION_LIMITS and trial.code == words.NOT_COMPATIBLE:
        node = Node(objects)
        node.power_up(number)
        return ['  minimum {} would be above maximum {}'.format(*node.limits_with(entries[:trial.entry]))]
    if can.is_parameter(index, can.MAPPING) and trial.code == WRONG_TIME:
        return ['  a mapping is written while its PDO is not valid' + (', and its objects while their number is 0' if subindex else '')]
    if is_identifier(failed.place) and trial.code == BAD_VALUE:
        return ['  bit 31 is 1 where the PDO is not valid, bit 30 is 1 for a TPDO and 0 for an RPDO, bits 29 to 11 are 0; a valid one lies in',
                '  181h to 57Fh, differs from that of every other valid PDO, and is changed by way of not valid']
    return []
