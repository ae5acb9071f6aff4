"""One version in all places: the header's, the data sheet's, the newest of the change log, and the one that the README tells. Raised alone, each is
refused."""
import re
from typing import NamedTuple

from report import Report
from sheet import number, sections_of

HEADER, CHANGE_LOG, README = "include/cendurak.h", "CHANGELOG.md", "README.md"
RELEASE = re.compile(r"^## (\d+)\.(\d+) \((\d{4})-(\d\d)-(\d\d)\)$", re.M)


class Release(NamedTuple):
    major: int
    minor: int
    day: tuple  # year, month and day, as they stand

    @property
    def name(self):
        return f"{self.major}.{self.minor}"

    @property
    def revision(self):
        """As CiA 301 writes revisions: the major number from bit 16 on."""
        return 65536 * self.major + self.minor


def check(header, sheet, change_log, readme, report):
    """All as texts, but for the sheet, which is bytes."""
    releases = [Release(int(major), int(minor), tuple(day)) for major, minor, *day in RELEASE.findall(change_log)]
    check_order(change_log, releases, report)
    if releases:
        check_header(header, releases[0], report)
        check_lengths(header, change_log, releases[0], report)
        check_sheet(sections_of(sheet.decode("ascii")), releases[0], report)
        check_readme(readme, releases[0], report)


def check_order(change_log, releases, report):
    """The newest stands first; every minor number is there once, and no release is younger than the one above it."""
    headings = re.findall(r"^## .*$", change_log, re.M)
    report.check(headings and len(headings) == len(releases), f"{CHANGE_LOG} has a heading that is not '## MAJOR.MINOR (YEAR-MONTH-DAY)', or none")
    for newer, older in zip(releases, releases[1:]):
        follows = (newer.major, newer.minor) in ((older.major, older.minor + 1), (older.major + 1, 0))
        report.check(follows, f"{CHANGE_LOG} has {older.name} below {newer.name}")
        report.check(older.day <= newer.day, f"{CHANGE_LOG} has {older.name} on a later day than {newer.name}")


def check_header(header, newest, report):
    numbers = [re.search(rf"^#define CENDURAK_VERSION_{part} (\d+)u$", header, re.M) for part in ("MAJOR", "MINOR")]
    if report.check(all(numbers), f"{HEADER} has no CENDURAK_VERSION_MAJOR or no CENDURAK_VERSION_MINOR"):
        told = ".".join(found[1] for found in numbers)
        report.check(told == newest.name, f"{HEADER} is of version {told}, and the newest of {CHANGE_LOG} is {newest.name}")


def check_lengths(header, change_log, newest, report):
    """The change log's table begins with the newest release and the lengths of the header."""
    lengths = [re.search(rf"^#define CENDURAK_{part}_LEN (\d+)u$", header, re.M) for part in ("STATE", "DICT", "OUT")]
    due = " | ".join([newest.name, *(found[1] if found else "?" for found in lengths)])
    told = re.search(r"^\| (\d+\.\d+(?: \| \d+){3}) \|", change_log, re.M)
    told = told[1] if told else "nothing"
    report.check(told == due, f"{CHANGE_LOG}'s table begins with {told}, and by {HEADER} it is {due}")


def check_sheet(sections, newest, report):
    file, device = sections.get("FileInfo", {}), sections.get("DeviceInfo", {})
    year, month, day = newest.day
    due = {
        "FileVersion": (file, newest.major), "FileRevision": (file, newest.minor), "RevisionNumber": (device, newest.revision),
    }
    for key, (section, right) in due.items():
        told = section.get(key, "nothing")
        same = re.fullmatch(r"\d+|0x[0-9A-Fa-f]+", told) and number(told) == right
        report.check(same, f"cendurak.eds has {key}={told}, and the newest of {CHANGE_LOG}, {newest.name}, makes it {shown(key, right)}")
    told = file.get("ModificationDate", "nothing")
    same = told == f"{month}-{day}-{year}"
    report.check(same, f"cendurak.eds has ModificationDate={told}, and {CHANGE_LOG} dates {newest.name} {year}-{month}-{day}")


def check_readme(readme, newest, report):
    """Where the README tells the version it is the newest; it need not."""
    for told in re.findall(r"one number,\s+(\d+\.\d+)", readme):
        report.check(told == newest.name, f"{README} tells version {told}, and the newest of {CHANGE_LOG} is {newest.name}")


def shown(key, value):
    return f"0x{value:08X}" if key == "RevisionNumber" else str(value)


# ---- wrong ones: what is changed in a right header, sheet or change log, and the sentence that must refuse it

RIGHT_HEADER = (
    "#define CENDURAK_VERSION_MAJOR 2u\n#define CENDURAK_VERSION_MINOR 11u\n"
    "#define CENDURAK_STATE_LEN 401u\n#define CENDURAK_DICT_LEN 393u\n#define CENDURAK_OUT_LEN 66u\n"
)
RIGHT_SHEET = "[FileInfo]\r\nFileVersion=2\r\nFileRevision=11\r\nModificationDate=03-09-2027\r\n[DeviceInfo]\r\nRevisionNumber=0x0002000B\r\n"
RIGHT_CHANGE_LOG = (
    "# Changes\n\n| 2.11 | 401 | 393 | 66 | x |\n| 2.10 | 399 | 391 | 66 | x |\n\n"
    "## 2.11 (2027-03-09)\n\nText.\n\n## 2.10 (2027-03-09)\n\n## 2.9 (2027-01-02)\n\n### Within\n"
)
RIGHT_README = "Header, sheet and change log are one number, 2.11. The feeder has 1,024 lengths.\n"
RIGHT = (RIGHT_HEADER, RIGHT_SHEET, RIGHT_CHANGE_LOG, RIGHT_README)

WRONG = {
    "a header that is raised alone": (
        "MINOR 11u", "MINOR 12u", "include/cendurak.h is of version 2.12, and the newest of CHANGELOG.md is 2.11",
    ),
    "a header of another major number": (
        "MAJOR 2u", "MAJOR 1u", "include/cendurak.h is of version 1.11, and the newest of CHANGELOG.md is 2.11",
    ),
    "a header without its version": (
        "#define CENDURAK_VERSION_MAJOR 2u\n", "", "include/cendurak.h has no CENDURAK_VERSION_MAJOR or no CENDURAK_VERSION_MINOR",
    ),
    "a sheet that is raised alone": (
        "FileRevision=11", "FileRevision=12", "cendurak.eds has FileRevision=12, and the newest of CHANGELOG.md, 2.11, makes it 11",
    ),
    "a sheet of another major number": (
        "FileVersion=2", "FileVersion=1", "cendurak.eds has FileVersion=1, and the newest of CHANGELOG.md, 2.11, makes it 2",
    ),
    "a sheet whose revision is left behind": (
        "0x0002000B", "0x0002000A", "cendurak.eds has RevisionNumber=0x0002000A, and the newest of CHANGELOG.md, 2.11, makes it 0x0002000B",
    ),
    "a sheet with its revision in decimal digits": (
        "0x0002000B", "0x00020011", "cendurak.eds has RevisionNumber=0x00020011, and the newest of CHANGELOG.md, 2.11, makes it 0x0002000B",
    ),
    "a sheet with the parts of its revision swapped": (
        "0x0002000B", "0x000B0002", "cendurak.eds has RevisionNumber=0x000B0002, and the newest of CHANGELOG.md, 2.11, makes it 0x0002000B",
    ),
    "a sheet of another day": (
        "ModificationDate=03-09-2027", "ModificationDate=09-03-2027",
        "cendurak.eds has ModificationDate=09-03-2027, and CHANGELOG.md dates 2.11 2027-03-09",
    ),
    "a change log that is raised alone": (
        "## 2.11 (", "## 2.12 (2027-03-10)\n\n## 2.11 (", "include/cendurak.h is of version 2.11, and the newest of CHANGELOG.md is 2.12",
    ),
    "a header with another length": (
        "DICT_LEN 393u", "DICT_LEN 395u",
        "CHANGELOG.md's table begins with 2.11 | 401 | 393 | 66, and by include/cendurak.h it is 2.11 | 401 | 395 | 66",
    ),
    "a change log whose table has no line for the newest": (
        "| 2.11 | 401 | 393 | 66 | x |\n", "",
        "CHANGELOG.md's table begins with 2.10 | 399 | 391 | 66, and by include/cendurak.h it is 2.11 | 401 | 393 | 66",
    ),
    "a change log with a release left out": ("## 2.10 (2027-03-09)\n", "", "CHANGELOG.md has 2.9 below 2.11"),
    "a change log with the newest last": ("## 2.11 (2027-03-09)", "## 2.8 (2027-03-09)", "CHANGELOG.md has 2.10 below 2.8"),
    "a change log with days that rise downwards": ("2.10 (2027-03-09)", "2.10 (2027-03-10)", "CHANGELOG.md has 2.10 on a later day than 2.11"),
    "a change log with a heading without its day": (
        "## 2.9 (2027-01-02)", "## 2.9", "CHANGELOG.md has a heading that is not '## MAJOR.MINOR (YEAR-MONTH-DAY)', or none",
    ),
    "a README that is left behind": ("number, 2.11", "number, 2.10", "README.md tells version 2.10, and the newest of CHANGELOG.md is 2.11"),
    "a change log without headings": ("## ", "**", "CHANGELOG.md has a heading that is not '## MAJOR.MINOR (YEAR-MONTH-DAY)', or none"),
}


def failures_of(header, sheet, change_log, readme):
    trial = Report()
    check(header, sheet.encode("ascii"), change_log, readme, trial)
    return trial.failures


def check_wrong(report):
    """The right ones pass; each wrong one differs from them in one text and is refused with its sentence."""
    told = failures_of(*RIGHT)
    report.check(not told, f"texts of one version must pass, and not be refused with {told}")
    for name, (old, new, sentence) in WRONG.items():
        changed = [text.replace(old, new) for text in RIGHT]
        report.check(sum(a != b for a, b in zip(changed, RIGHT)) == 1, f"{name}: the change is not of one text")
        told = failures_of(*changed)
        report.check(sentence in told, f"{name} must be refused with '{sentence}', and not with {told}")
