"""The sheet against the node: what is there, the defaults, what changes by itself, and every claim."""
import functools
from typing import NamedTuple

import bench
from claims import MODES_OF_OPERATION, NO_OBJECT, NO_SUBINDEX, Claims, Step, default_data

STARTED, FAULT, FEEDBACK, VOLTAGE = 1, 3, 5, 9
ran = {}  # by node-ID and requests, the replies that replies_to has seen


class Scan(NamedTuple):
    entries: set  # index and subindex of each entry that the node has
    replies: dict  # by index and subindex, the reply to each upload that was tried
    strays: list  # refusals with another abort than the right one


@functools.cache
def scan(node_id):
    """Uploads right after power-up: every index, and every subindex of those that are there."""
    replies = uploads(node_id, [(index, 0) for index in range(0x10000)])
    there = [place for place, reply in replies.items() if reply != bench.aborted(*place, NO_OBJECT)]
    absent = replies.keys() - set(there)
    replies |= uploads(node_id, [(index, subindex) for index, _ in there for subindex in range(256)])
    entries = {place for place, reply in replies.items() if bench.has_value(reply)}
    strays = [
        place for place, reply in replies.items()
        if place not in entries and place not in absent and reply != bench.aborted(*place, NO_SUBINDEX)
    ]
    return Scan(entries, replies, strays)


def uploads(node_id, places, before=()):
    """The reply to an upload of each place, after power-up and the records that go before."""
    requests = [bench.request(node_id, bench.upload(*place)) for place in places]
    given = bench.answers([bench.power_up(node_id), *before, *requests])
    return dict(zip(places, (answer.reply(node_id) for answer in given[1 + len(before) :])))


def check(sheet, node_id, report):
    boot_up = bench.answers([bench.power_up(node_id)])[0]
    report.check(boot_up == (0, [(0x700 + node_id, b"\0")]), f"node {node_id} does not boot up: {boot_up}")
    check_presence(sheet, node_id, report)
    check_changes(sheet, node_id, report)
    check_claims(sheet, node_id, report)


def check_presence(sheet, node_id, report):
    """The node has the sheet's entries with their defaults, and refuses every other index and subindex."""
    found = scan(node_id)
    for place, entry in sheet.entries.items():
        data = default_data(entry, node_id)
        due = bench.held_by_segments(*place, len(data)) if entry.is_text else bench.held(*place, data)
        given = found.replies.get(place, found.replies[place[0], 0])
        report.check(given == due, told(entry.says("DataType", "DefaultValue"), Step(bench.upload(*place), due), node_id, given))
    for index, subindex in found.entries - sheet.entries.keys():
        report.check(False, f"node {node_id} has {index:04X}:{subindex:02X}, and the sheet has no such entry")
    for place in found.strays:
        report.check(False, f"node {node_id} refuses {place[0]:04X}:{place[1]:02X} with {bench.reply_in_words(found.replies[place])}")
    report.check(found.entries == sheet.entries.keys(), f"node {node_id} has {len(found.entries)} entries, and the sheet others")


def check_changes(sheet, node_id, report):
    """After a start, a mode, feedback and a fault: what the node writes itself (ro) has changed, what is constant has not."""
    mode = bench.request(node_id, bench.download(MODES_OF_OPERATION, 0, b"\1"))
    feedback = bench.event(FEEDBACK, bench.little(1000, 4) + bench.little(-5, 4))
    fault = bench.event(FAULT, bench.little(0x2310, 2) + b"\2")
    lively = [bench.event(STARTED), bench.event(VOLTAGE, b"\1"), mode, feedback, fault]
    entries = [entry for entry in sheet.entries.values() if entry.access in ("const", "ro")]
    replies = uploads(node_id, [(entry.index, entry.subindex) for entry in entries], lively)
    for entry in entries:
        now = replies[entry.index, entry.subindex]
        changed = now != scan(node_id).replies.get((entry.index, entry.subindex), now)
        said = f"{entry.says('AccessType')}: node {node_id} {'changes' if changed else 'never changes'} it"
        report.check(changed == (entry.access == "ro"), said)


def check_claims(sheet, node_id, report):
    """A case passes where each of its requests gets its reply."""
    cases = list(Claims(sheet, node_id).cases())
    given = replies_to(node_id, [tuple(step.request for step in case.steps) for case in cases])
    for case, replies in zip(cases, given):
        wrong = next(((step, reply) for step, reply in zip(case.steps, replies) if reply != step.reply), None)
        report.check(wrong is None, wrong and told(case.claim, wrong[0], node_id, wrong[1]))


def replies_to(node_id, scripts):
    """The replies to each script's requests, which start from a power-up of their own; what ran once is not run again."""
    new = [script for script in dict.fromkeys(scripts) if (node_id, script) not in ran]
    records = []
    for script in new:
        records += [bench.power_up(node_id), *(bench.request(node_id, message) for message in script)]
    given = iter(bench.answers(records))
    for script in new:
        next(given)
        ran[node_id, script] = [next(given).reply(node_id) for _ in script]
    return [ran[node_id, script] for script in scripts]


def told(claim, step, node_id, given):
    due, got = bench.reply_in_words(step.reply), bench.reply_in_words(given)
    return f"{claim}: {bench.request_in_words(step.request)} must give {due}, and node {node_id} gave {got}"
