"""What the sheet says of itself: its sections, its lists and counts, and values that are well formed."""
import configparser
import re

from sheet import DEVICE_NAME, MAPPING, NODE_ID, PDO_ROOM, RECEIVE, SUBOBJECT, TRANSMIT, Sheet, entry_of, number, place_of, sections_of

ENTRIES = 123  # of the dictionary's bytes
MANDATORY = [0x1000, 0x1001, 0x1018]
VARIABLE, ARRAY, RECORD = "0x7", "0x8", "0x9"
MANUFACTURER = range(0x2000, 0x6000)
POSITION_LIMITS = 0x607D
IN_COMMENTS = ("6060h", "607Dh")  # objects whose values no limits tell, and a comment must
DATE, TIME = r"(0[1-9]|1[0-2])-(0[1-9]|[12]\d|3[01])-\d{4}", r"(0[1-9]|1[0-2]):[0-5]\d(AM|PM)"
FLAG, NUMBER, WORDS, NAME = r"[01]", r"0|[1-9]\d*|0x[0-9A-Fa-f]+", r"\S(.*\S)?", r"[ -~]{5,32}"

FILE_INFO = {
    "FileName": r"cendurak\.eds", "FileVersion": NUMBER, "FileRevision": NUMBER, "EDSVersion": r"4\.0", "Description": WORDS,
    "CreationTime": TIME, "CreationDate": DATE, "CreatedBy": WORDS,
    "ModificationTime": TIME, "ModificationDate": DATE, "ModifiedBy": WORDS,
}
DEVICE_INFO = {
    "VendorName": WORDS, "VendorNumber": NUMBER, "ProductName": WORDS, "ProductNumber": NUMBER, "RevisionNumber": NUMBER,
    "OrderCode": WORDS, **{f"BaudRate_{rate}": FLAG for rate in (10, 20, 50, 125, 250, 500, 800, 1000)},
    "SimpleBootUpMaster": FLAG, "SimpleBootUpSlave": FLAG, "Granularity": r"8", "DynamicChannelsSupported": FLAG, "CompactPDO": NUMBER,
    "GroupMessaging": FLAG, "NrOfRXPDO": NUMBER, "NrOfTXPDO": NUMBER, "LSS_Supported": FLAG,
}
DUMMY_USAGE = {f"Dummy{index:04X}": FLAG for index in range(1, 8)}
ENTRY = {"ParameterName", "ObjectType", "DataType", "AccessType", "DefaultValue", "PDOMapping"}
LIMITS = {"LowLimit", "HighLimit"}
GROUP = {"ParameterName", "ObjectType", "SubNumber"}
LISTS = ("MandatoryObjects", "OptionalObjects", "ManufacturerObjects")
FIXED = ("FileInfo", "DeviceInfo", "DummyUsage", "Comments", *LISTS)


def read(data, report):
    """The sheet, with all that is wrong in it reported; None where its entries cannot be read."""
    report.check(data.isascii() and data.endswith(b"\r\n"), "the sheet is not ASCII, or its last line has no end")
    report.check(data.count(b"\r\n") == data.count(b"\n") == data.count(b"\r"), "the sheet's lines do not all end in CR and LF")
    try:
        sections = sections_of(data.decode("ascii", "replace"))
    except configparser.Error as error:
        report.check(False, f"the sheet has no legal form: {error}")
        return None
    if not check_sections(sections, report):
        return None
    check_form(sections, "FileInfo", FILE_INFO, report)
    check_form(sections, "DeviceInfo", DEVICE_INFO, report)
    check_form(sections, "DummyUsage", DUMMY_USAGE, report)
    check_comments(check_numbered(sections, "Comments", "Lines", "Line", report), report)
    check_lists(sections, report)
    entries = read_entries(sections, report)
    if entries is None:
        return None
    check_groups(sections, entries, report)
    check_names(sections, report)
    check_position_limits(entries, report)
    check_device(sections["DeviceInfo"], entries, report)
    in_bytes = len(entries.keys() - {DEVICE_NAME})
    report.check(in_bytes == ENTRIES, f"the sheet has {in_bytes} entries besides the device name, and the dictionary {ENTRIES}")
    report.check(DEVICE_NAME in entries, "the sheet has no device name, 1008h")
    return Sheet(sections, entries) if check_pdos(entries, report) else None


def check_sections(sections, report):
    lacking = [name for name in FIXED if name not in sections]
    unknown = [name for name in sections if name not in FIXED and place_of(name) is None]
    astray = [name for name in sections if (sub := SUBOBJECT.fullmatch(name)) and sub[1] not in sections]
    report.check(not lacking, f"sections are missing: {lacking}")
    report.check(not unknown, f"sections are neither of CiA 306 nor an object's: {unknown}")
    report.check(not astray, f"subobjects have no object: {astray}")
    return not lacking and not unknown and not astray


def check_form(sections, name, form, report):
    """The section has just the keys of its form, and each value matches."""
    keys = sections[name]
    report.check(keys.keys() == form.keys(), f"[{name}] differs in its keys: {sorted(keys.keys() ^ form.keys())}")
    for key in keys.keys() & form.keys():
        report.check(re.fullmatch(form[key], keys[key]), f"[{name}] {key}={keys[key]} is not well formed")


def check_numbered(sections, name, count, prefix, report):
    """The section holds a count and then just so many lines, numbered from 1; their values."""
    keys = dict(sections[name])
    told = keys.pop(count, None)
    report.check(told == str(len(keys)), f"[{name}] {count}={told}, and there are {len(keys)}")
    numbered = [f"{prefix}{i}" for i in range(1, len(keys) + 1)]
    report.check(list(keys) == numbered, f"[{name}] is not numbered from 1 on")
    return list(keys.values())


def check_comments(lines, report):
    for name in IN_COMMENTS:
        report.check(any(name in line for line in lines), f"[Comments] does not tell the values of {name}")


def check_lists(sections, report):
    """Each object stands in the list that its index asks for, rising; all that is listed has a section, and the other way round."""
    listed = []
    for name in LISTS:
        values = check_numbered(sections, name, "SupportedObjects", "", report)
        report.check(all(re.fullmatch(r"0x[0-9A-F]{4}", value) for value in values), f"[{name}] holds what is no index")
        indexes = [int(value, 16) for value in values if re.fullmatch(r"0x[0-9A-F]{4}", value)]
        report.check(indexes == sorted(set(indexes)), f"[{name}] does not rise")
        for index in indexes:
            right = LISTS[0] if index in MANDATORY else LISTS[2] if index in MANUFACTURER else LISTS[1]
            report.check(name == right, f"[{name}] lists 0x{index:04X}, which belongs to [{right}]")
        listed += [f"{index:04X}" for index in indexes]
    objects = [name for name in sections if name not in FIXED and not SUBOBJECT.fullmatch(name)]
    for section in sorted({*listed, *objects}):
        report.check(section in objects, f"[{section}] is listed and has no section")
        report.check(section in listed, f"[{section}] is not listed")
    report.check([f"{index:04X}" for index in MANDATORY] == listed[:3], "[MandatoryObjects] is not 1000h, 1001h and 1018h")


def read_entries(sections, report):
    """Every entry by index and subindex; None where one of them cannot be read."""
    entries, readable = {}, True
    for section, keys in sections.items():
        if place_of(section) is None or keys.get("ObjectType") in (ARRAY, RECORD):
            continue
        try:
            entry = entry_of(section, keys)
        except (KeyError, ValueError) as error:
            readable = report.check(False, f"[{section}] cannot be read: {error}")
            continue
        entries[entry.index, entry.subindex] = entry
        check_entry(entry, report)
    return entries if readable else None


def check_entry(entry, report):
    """The entry's keys, limits and default agree with each other."""
    extra = entry.said.keys() - ENTRY - LIMITS
    report.check(not extra, f"[{entry.section}] has keys that no entry has: {sorted(extra)}")
    report.check(entry.said.get("ObjectType") == VARIABLE, f"[{entry.section}] is no variable")
    directed = entry.access in ("rww", "rwr")
    report.check(entry.mappable or not directed, f"{entry.says('AccessType', 'PDOMapping')}: a direction, and not mappable")
    check_text(entry, report) if entry.is_text else check_number(entry, report)


def check_text(entry, report):
    """A visible text as long as a device name may be."""
    report.check(re.fullmatch(NAME, entry.default), f"{entry.says('DefaultValue')} is no text of 5 to 32 characters")
    report.check(not entry.said.keys() & LIMITS, f"[{entry.section}] is a text and has limits")


def check_number(entry, report):
    low = entry.type.least if entry.low is None else entry.low
    high = entry.type.greatest if entry.high is None else entry.high
    is_range = entry.type.holds(low) and entry.type.holds(high) and low <= high
    report.check(is_range, f"[{entry.section}] limits {low} and {high} are no range")
    for node_id in (1, 127):
        default = entry.default_at(node_id)
        report.check(low <= default <= high, f"{entry.says('DefaultValue')} lies outside {low}..{high} at node-ID {node_id}")
    report.check(
        not entry.counts_from_node or re.fullmatch(r"\$NODEID\+0x[0-9A-F]+", entry.said["DefaultValue"]),
        f"{entry.says('DefaultValue')} is not {NODE_ID}0x..",
    )


def check_groups(sections, entries, report):
    """A record or array has its keys, as many subobjects as it says, from 0 on, and in subobject 0 the highest of them."""
    for section, keys in sections.items():
        if section in FIXED or SUBOBJECT.fullmatch(section):
            continue
        subs = [place_of(name)[1] for name in sections if name.startswith(section + "sub")]
        if keys.get("ObjectType") == VARIABLE:
            report.check(not subs, f"[{section}] is a variable and has subobjects")
            continue
        report.check(keys.keys() == GROUP, f"[{section}] differs in its keys: {sorted(keys.keys() ^ GROUP)}")
        report.check(keys.get("SubNumber") == str(len(subs)), f"[{section}] SubNumber={keys.get('SubNumber')}, and there are {len(subs)}")
        report.check(subs == sorted(subs) and subs[:1] == [0], f"[{section}] has no subobject 0, or they do not rise")
        first = entries.get((int(section, 16), 0))
        if first and subs:
            highest = first.default if first.access == "const" else first.high
            report.check(highest == max(subs), f"[{first.section}] tells {highest} as the highest subindex, and it is {max(subs)}")


def check_names(sections, report):
    """Every object has a name of its own, and every subobject one of its own in its object."""
    seen = set()
    for section, keys in sections.items():
        if section in FIXED:
            continue
        sub = SUBOBJECT.fullmatch(section)
        name = keys.get("ParameterName", "")
        report.check(re.fullmatch(WORDS, name), f"[{section}] has no name")
        report.check((sub and sub[1], name) not in seen, f"[{section}] ParameterName={name} stands twice")
        seen.add((sub and sub[1], name))


def check_position_limits(entries, report):
    """The default minimum is at most the default maximum."""
    pair = [entries[POSITION_LIMITS, subindex] for subindex in (1, 2) if (POSITION_LIMITS, subindex) in entries]
    defaults = [entry.default for entry in pair]
    report.check(defaults == sorted(defaults), " lies above ".join(entry.says("DefaultValue") for entry in pair))


def check_device(device, entries, report):
    """[DeviceInfo] tells the PDOs, the vendor and the name that the objects have."""
    for key, direction in (("NrOfRXPDO", RECEIVE), ("NrOfTXPDO", TRANSMIT)):
        for record in (direction, direction + MAPPING):
            there = len({index for index, _ in entries if record <= index < record + PDO_ROOM})
            report.check(device.get(key) == str(there), f"[DeviceInfo] {key}={device.get(key)}, and {there} records from 0x{record:04X} on")
    vendor = entries.get((0x1018, 1))
    same = vendor and re.fullmatch(NUMBER, device.get("VendorNumber", "")) and number(device["VendorNumber"]) == vendor.default
    report.check(same, f"[DeviceInfo] VendorNumber={device.get('VendorNumber')} is not the default of [1018sub1]")
    name, told = entries.get(DEVICE_NAME), device.get("ProductName")
    report.check(name is None or name.default == told, f"[DeviceInfo] ProductName={told} is not the default of [1008]")


def check_pdos(entries, report):
    """There are PDOs each way, each with its identifier and its mapping: without them the node cannot be asked."""
    whole = True
    for direction in (RECEIVE, TRANSMIT):
        numbers = {index % PDO_ROOM for index, _ in entries if direction <= index < direction + 2 * PDO_ROOM}
        needed = [(direction + n, 1) for n in numbers] + [(direction + MAPPING + n, k) for n in numbers for k in (0, 1)]
        lacking = [f"{index:04X}sub{subindex}" for index, subindex in needed if (index, subindex) not in entries]
        whole &= report.check(numbers and not lacking, f"PDOs from 0x{direction:04X} on are not whole: {lacking}")
    return whole
