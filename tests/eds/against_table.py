"""The sheet's types against the rows of the rules: which entries have a row, and the signs. The node cannot be asked for a sign, but for those
of 607Dh, which it compares: its bytes are the same with it or without."""
import re

from bench import ROOT
from sheet import DEVICE_NAME, MAPPING, PDO_ROOM, RECEIVE, TRANSMIT

TABLE = "crates/rules_dictionary/specs/Table.antt"
ROW = re.compile(r"\brow 0x([0-9A-F]{4}) (\d+) ([iu])(?:8|16|32) ")


def is_of_pdo(index):
    """The rows of PDOs have no index of their own in the rules: it is worked out there from the PDO's number."""
    return any(first <= index < first + MAPPING + PDO_ROOM for first in (RECEIVE, TRANSMIT))


def check(sheet, report):
    rows = {(int(index, 16), int(subindex)): sign for index, subindex, sign in ROW.findall((ROOT / TABLE).read_text(encoding="utf-8"))}
    report.check("i" in rows.values(), f"{TABLE} has no signed row that can be found")
    for index, subindex in rows.keys() - sheet.entries.keys():
        report.check(False, f"the rules have a row for {index:04X}:{subindex:02X}, and the sheet has no such entry")
    for place, entry in sheet.entries.items():
        has_row = place in rows or is_of_pdo(entry.index)
        rows_of_it = "a row" if has_row else "no row"
        report.check(has_row != (place == DEVICE_NAME), f"[{entry.section}] stands in the sheet, and the rules have {rows_of_it} for it")
        right = "text" if place == DEVICE_NAME else "signed" if rows.get(place) == "i" else "unsigned"
        report.check(kind_of(entry) == right, f"{entry.says('DataType')} is {entry.type.name}, and the rules' {told(right)}")


def kind_of(entry):
    return "text" if entry.is_text else "signed" if entry.type.signed else "unsigned"


def told(kind):
    return "device name is a text" if kind == "text" else f"row is {kind}"
