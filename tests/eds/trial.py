"""A sheet on trial: the true one must pass, and each wrong one must be refused with its sentence."""
import against_node
import against_table
import consistency
from report import Report
from sheet import sections_of
from wrong_sheets import AGAINST_ITSELF, AGAINST_RULES_AND_NODE

NODE_IDS = (5, 127)
WRONG_SHEETS_NODE_ID = 127


def check_sheet(data, report, node_ids=NODE_IDS):
    """The sheet for itself, and then, where it can be read, against the rules' rows and against the node under each node-ID."""
    sheet = consistency.read(data, report)
    if sheet:
        against_table.check(sheet, report)
        for node_id in node_ids:
            against_node.check(sheet, node_id, report)


def check_wrong_sheets(data, report):
    """On one node-ID alone, where the node is asked."""
    for name, (changes, sentence) in AGAINST_RULES_AND_NODE.items():
        check_refused(check_on_one, name, changed(data, changes), sentence, report)
    for name, (changes, sentence) in AGAINST_ITSELF.items():
        check_refused(consistency.read, name, changed(data, changes), sentence, report)
    other_ends = data.replace(b"\r\n", b"\n")
    check_refused(consistency.read, "other line ends", other_ends, "the sheet's lines do not all end in CR and LF", report)
    check_refused(consistency.read, "a section twice", data + b"[6502]\r\n", "section '6502' already exists", report)


def check_on_one(data, report):
    check_sheet(data, report, (WRONG_SHEETS_NODE_ID,))


def check_refused(examine, name, data, sentence, report):
    """The sheet is refused, and one of the failures says what is wrong with it."""
    trial = Report()
    examine(data, trial)
    given = trial.failures[0] if trial.failures else "nothing"
    report.check(
        any(sentence in failure for failure in trial.failures),
        f"a sheet with {name} must be refused with '{sentence}', and the first failure is '{given}'",
    )


def changed(data, changes):
    """The true sheet with the changes, as bytes."""
    sections = sections_of(data.decode("ascii"))
    for name, keys in changes.items():
        old = sections.pop(name, {}) if keys is None else sections.setdefault(name, {})
        for key, value in (keys or {}).items():
            old.pop(key, None) if value is None else old.__setitem__(key, value)
    lines = [line for name, keys in sections.items() for line in (f"[{name}]", *(f"{key}={value}" for key, value in keys.items()), "")]
    return "\r\n".join(lines).encode("ascii") + b"\r\n"
