"""Wrong sheets: what each changes in the true one, and a sentence that must be among those that refuse it.

A change gives keys of a section their new values; None takes a key or a whole section away."""
from consistency import ENTRIES

VARIABLE = {
    "ParameterName": "Another", "ObjectType": "0x7", "DataType": "0x0007",
    "AccessType": "const", "DefaultValue": "0", "PDOMapping": "0",
}

# The optional objects behind 1008h. Without it each of them is listed one number lower.
BEHIND_DEVICE_NAME = [
    0x1014, 0x1017, *range(0x1400, 0x1404), *range(0x1600, 0x1604), *range(0x1800, 0x1804), *range(0x1A00, 0x1A04), 0x603F, 0x6040, 0x6041,
    0x6060, 0x6061, 0x6064, 0x6067, 0x6068, 0x606C, 0x606D, 0x606F, 0x607A, 0x607D, 0x6081, 0x6083, 0x6084, 0x60FF, 0x6502,
]
LISTED = 2 + len(BEHIND_DEVICE_NAME)  # with 1005h and 1008h
ONE_LESS = {"SupportedObjects": str(LISTED - 1), str(LISTED): None}
NO_DEVICE_NAME = {
    "1008": None,
    "OptionalObjects": {
        **ONE_LESS, **{str(number): f"0x{index:04X}" for number, index in enumerate(BEHIND_DEVICE_NAME, 2)},
    },
}


def named(name):
    return {"1008": {"DefaultValue": name}, "DeviceInfo": {"ProductName": name}}


AGAINST_RULES_AND_NODE = {
    "a default": (
        {"6083": {"DefaultValue": "2"}},
        "[6083] DataType=0x0007 DefaultValue=2: upload 6083:00 must give value 02 00 00 00, and node 127 gave value 01 00 00 00",
    ),
    "a default that is right for one node-ID": (
        {"1401sub1": {"DefaultValue": "0x00000305"}},
        "[1401sub1] DataType=0x0007 DefaultValue=0x00000305: upload 1401:01 must give value 05 03 00 00,"
        " and node 127 gave value 7f 03 00 00",
    ),
    "a type": (
        {"606D": {"DataType": "0x0007"}},
        "[606D] DataType=0x0007 DefaultValue=0: upload 606D:00 must give value 00 00 00 00, and node 127 gave value 00 00",
    ),
    "a sign left out": ({"6064": {"DataType": "0x0007"}}, "[6064] DataType=0x0007 is UNSIGNED32, and the rules' row is signed"),
    "a sign too many": ({"1000": {"DataType": "0x0004"}}, "[1000] DataType=0x0004 is INTEGER32, and the rules' row is unsigned"),
    "a writable entry as node-written": (
        {"1017": {"AccessType": "ro"}},
        "[1017] AccessType=ro: download 1017:00 = 00 00 must give abort 06010002, and node 127 gave accepted",
    ),
    "a constant as writable": (
        {"1000": {"AccessType": "rw"}},
        "[1000] AccessType=rw: download 1000:00 = 92 01 02 00 must give accepted, and node 127 gave abort 06010002",
    ),
    "a constant as node-written": ({"6502": {"AccessType": "ro"}}, "[6502] AccessType=ro: node 127 never changes it"),
    "a node-written entry as constant": ({"1001": {"AccessType": "const"}}, "[1001] AccessType=const: node 127 changes it"),
    "an entry as write-only": (
        {"606D": {"AccessType": "wo"}},
        "[606D] AccessType=wo: upload 606D:00 must give abort 06010001, and node 127 gave value 00 00",
    ),
    "a high limit one too low": (
        {"6067": {"HighLimit": "0x7FFFFFFE"}},
        "[6067] LowLimit=0 HighLimit=0x7FFFFFFE: download 6067:00 = ff ff ff 7f must give abort 06090031, and node 127 gave accepted",
    ),
    "a high limit one too high": (
        {"6067": {"HighLimit": "0x80000000"}},
        "[6067] LowLimit=0 HighLimit=0x80000000: download 6067:00 = 00 00 00 80 must give accepted, and node 127 gave abort 06090031",
    ),
    "a low limit one too high": (
        {"6084": {"LowLimit": "2", "DefaultValue": "2"}},
        "[6084] LowLimit=2 HighLimit=0xFFFFFFFF: download 6084:00 = 01 00 00 00 must give abort 06090032, and node 127 gave accepted",
    ),
    "limits left out": (
        {"6083": {"LowLimit": None, "HighLimit": None}},
        "[6083] has no limits: download 6083:00 = 00 00 00 00 must give accepted, and node 127 gave abort 06090032",
    ),
    "a limit that the node does not have": (
        {"606F": {"HighLimit": "1000"}},
        "[606F] HighLimit=1000: download 606F:00 = e9 03 must give abort 06090031, and node 127 gave accepted",
    ),
    "a range for one of two limits": (
        {"607Dsub1": {"HighLimit": "0"}},
        "[607Dsub1] HighLimit=0: download 607D:01 = 01 00 00 00 must give abort 06090031, and node 127 gave accepted",
    ),
    "limits without their signs": (
        {"607Dsub1": {"DataType": "0x0007", "DefaultValue": "0x80000000"}, "607Dsub2": {"DataType": "0x0007"}},
        "[607Dsub1] is at most [607Dsub2]: download 607D:01 = ff ff ff ff must give abort 06040043, and node 127 gave accepted",
    ),
    "a set of values as a range": (
        {"6060": {"LowLimit": "0", "HighLimit": "3"}},
        "[6060] LowLimit=0 HighLimit=3: download 6060:00 = 04 must give abort 06090031, and node 127 gave abort 06090030",
    ),
    "a mapping of seven": (
        {"1A03sub0": {"HighLimit": "7"}},
        "[1A03sub0] LowLimit=0 HighLimit=7: download 1A03:00 = 08 must give abort 06090031, and node 127 gave accepted",
    ),
    "a mappable entry as not mappable": (
        {"6081": {"AccessType": "rw", "PDOMapping": "0"}},
        "[6081] AccessType=rw PDOMapping=0: download 1600:01 = 20 00 81 60 must give abort 06040041, and node 127 gave accepted",
    ),
    "an entry as mappable that is not": (
        {"6067": {"AccessType": "rww", "PDOMapping": "1"}},
        "[6067] AccessType=rww PDOMapping=1: download 1600:01 = 20 00 67 60 must give accepted, and node 127 gave abort 06040041",
    ),
    "the one byte of the receive PDOs as not mappable": (
        {"6060": {"AccessType": "rw", "PDOMapping": "0"}},
        "[6060] AccessType=rw PDOMapping=0: download 1600:01 = 08 00 60 60 must give abort 06040041, and node 127 gave accepted",
    ),
    "the other direction": (
        {"6040": {"AccessType": "rwr"}},
        "[6040] AccessType=rwr PDOMapping=1: download 1A00:01 = 10 00 40 60 must give accepted, and node 127 gave abort 06040041",
    ),
    "both directions": (
        {"607A": {"AccessType": "rw"}},
        "[607A] AccessType=rw PDOMapping=1: download 1A00:01 = 20 00 7a 60 must give accepted, and node 127 gave abort 06040041",
    ),
    "a placeholder": (
        {"DummyUsage": {"Dummy0005": "1"}},
        "[DummyUsage] Dummy0005=1: download 1600:01 = 08 00 05 00 must give accepted, and node 127 gave abort 06020000",
    ),
    "an entry left out": (
        {"607Dsub2": None, "607Dsub0": {"DefaultValue": "1"}, "607D": {"SubNumber": "2"}},
        "node 127 has 607D:02, and the sheet has no such entry",
    ),
    "an object left out": (
        {"6502": None, "OptionalObjects": ONE_LESS},
        "node 127 has 6502:00, and the sheet has no such entry",
    ),
    "an entry too many": (
        {"1018sub2": VARIABLE, "1018sub0": {"DefaultValue": "2"}, "1018": {"SubNumber": "3"}},
        "[1018sub2] DataType=0x0007 DefaultValue=0: upload 1018:02 must give value 00 00 00 00, and node 127 gave abort 06090011",
    ),
    "an entry without a row": (
        {"1018sub2": VARIABLE, "1018sub0": {"DefaultValue": "2"}, "1018": {"SubNumber": "3"}},
        "[1018sub2] stands in the sheet, and the rules have no row for it",
    ),
    "a row without an entry": (
        {"607Dsub2": None, "607Dsub0": {"DefaultValue": "1"}, "607D": {"SubNumber": "2"}},
        "the rules have a row for 607D:02, and the sheet has no such entry",
    ),
    "an object too many": (
        {"6503": VARIABLE, "OptionalObjects": {str(LISTED + 1): "0x6503", "SupportedObjects": str(LISTED + 1)}},
        "[6503] DataType=0x0007 DefaultValue=0: upload 6503:00 must give value 00 00 00 00, and node 127 gave abort 06020000",
    ),
    "no device name": (NO_DEVICE_NAME, "node 127 has 1008:00, and the sheet has no such entry"),
    "a device name that ends otherwise": (
        named("Cendurak servo unit"),
        "[1008] DataType=0x0009 DefaultValue=Cendurak servo unit: upload of a segment, toggle 0 must give last segment ' unit', toggle 0,"
        " and node 127 gave last segment ' node', toggle 0",
    ),
    "a device name in small letters": (
        named("cendurak servo node"),
        "[1008] DataType=0x0009 DefaultValue=cendurak servo node: upload of a segment, toggle 0 must give segment 'cendura', toggle 0,"
        " and node 127 gave segment 'Cendura', toggle 0",
    ),
    "a device name of another length": (
        named("Cendurak"),
        "[1008] DataType=0x0009 DefaultValue=Cendurak: upload 1008:00 must give 8 bytes by segments, and node 127 gave 19 bytes by segments",
    ),
    "a device name that is a number": (
        {"1008": {"DataType": "0x0007", "DefaultValue": "0"}},
        "[1008] DataType=0x0007 is UNSIGNED32, and the rules' device name is a text",
    ),
    "a device name that is read at once": (
        {"1008": {"DataType": "0x0007", "DefaultValue": "0"}},
        "[1008] DataType=0x0007 DefaultValue=0: upload 1008:00 must give value 00 00 00 00, and node 127 gave 19 bytes by segments",
    ),
    "a second text": (
        {"6502": {"DataType": "0x0009", "DefaultValue": "profile position"}},
        "[6502] DataType=0x0009 is VISIBLE_STRING, and the rules' row is unsigned",
    ),
    "a number that is read by segments": (
        {"6502": {"DataType": "0x0009", "DefaultValue": "profile position"}},
        "[6502] DataType=0x0009 DefaultValue=profile position: upload 6502:00 must give 16 bytes by segments,"
        " and node 127 gave value 05 00 00 00",
    ),
    "a device name that can be written": (
        {"1008": {"AccessType": "rw"}},
        "[1008] AccessType=rw: download of the last segment ' node', toggle 0 must give segment taken, toggle 0,"
        " and node 127 gave abort 06010002",
    ),
    "a device name that changes": ({"1008": {"AccessType": "ro"}}, "[1008] AccessType=ro: node 127 never changes it"),
    "a device name as mappable": (
        {"1008": {"PDOMapping": "1"}},
        "[1008] AccessType=const PDOMapping=1: download 1A00:01 = 98 00 08 10 must give accepted, and node 127 gave abort 06040041",
    ),
}

AGAINST_ITSELF = {
    "a count of entries": (
        {"6502": None, "OptionalObjects": ONE_LESS},
        f"the sheet has {ENTRIES - 1} entries besides the device name, and the dictionary {ENTRIES}",
    ),
    "a count of objects": (
        {"OptionalObjects": {"SupportedObjects": str(LISTED - 1)}},
        f"[OptionalObjects] SupportedObjects={LISTED - 1}, and there are {LISTED}",
    ),
    "an object in the wrong list": (
        {"ManufacturerObjects": {"1": "0x6502", "SupportedObjects": "1"}},
        "[ManufacturerObjects] lists 0x6502, which belongs to [OptionalObjects]",
    ),
    "a listed object without a section": ({"6502": None}, "[6502] is listed and has no section"),
    "a section that is not listed": ({"6503": VARIABLE}, "[6503] is not listed"),
    "a count of subobjects": ({"607D": {"SubNumber": "2"}}, "[607D] SubNumber=2, and there are 3"),
    "a highest subindex": ({"607Dsub0": {"DefaultValue": "3"}}, "[607Dsub0] tells 3 as the highest subindex, and it is 2"),
    "a default outside its limits": ({"6083": {"DefaultValue": "0"}}, "[6083] DefaultValue=0 lies outside 1..4294967295 at node-ID 1"),
    "a default that its type does not hold": (
        {"606D": {"DefaultValue": "65536"}},
        "[606D] DefaultValue=65536 lies outside 0..65535 at node-ID 1",
    ),
    "limits the wrong way round": ({"6067": {"LowLimit": "5", "HighLimit": "4"}}, "[6067] limits 5 and 4 are no range"),
    "default limits the wrong way round": (
        {"607Dsub1": {"DefaultValue": "5"}, "607Dsub2": {"DefaultValue": "4"}},
        "[607Dsub1] DefaultValue=5 lies above [607Dsub2] DefaultValue=4",
    ),
    "limits that are tied and no word of it": (
        {"Comments": {"Line8": "Limits."}},
        "[Comments] does not tell the values of 607Dh",
    ),
    "a default that is no number": ({"6502": {"DefaultValue": "five"}}, "[6502] cannot be read: 'five' is no number"),
    "an unknown access": ({"6502": {"AccessType": "r"}}, "[6502] cannot be read: AccessType or PDOMapping is none of CiA 306"),
    "an entry without a type": ({"6502": {"DataType": None}}, "[6502] cannot be read: 'DataType'"),
    "a direction without a mapping": (
        {"6081": {"PDOMapping": "0"}},
        "[6081] AccessType=rww PDOMapping=0: a direction, and not mappable",
    ),
    "a name that stands twice": ({"6041": {"ParameterName": "Controlword"}}, "[6041] ParameterName=Controlword stands twice"),
    "a number of PDOs": ({"DeviceInfo": {"NrOfTXPDO": "3"}}, "[DeviceInfo] NrOfTXPDO=3, and 4 records from 0x1800 on"),
    "a PDO without its identifier": ({"1402sub1": None}, "PDOs from 0x1400 on are not whole: ['1402sub1']"),
    "no device name": (NO_DEVICE_NAME, "the sheet has no device name, 1008h"),
    "a device name of 4 characters": (named("Node"), "[1008] DefaultValue=Node is no text of 5 to 32 characters"),
    "a device name of 33 characters": (named("N" * 33), f"[1008] DefaultValue={'N' * 33} is no text of 5 to 32 characters"),
    "a device name with a limit": ({"1008": {"HighLimit": "32"}}, "[1008] is a text and has limits"),
    "another product": (
        {"DeviceInfo": {"ProductName": "Another"}},
        "[DeviceInfo] ProductName=Another is not the default of [1008]",
    ),
    "another vendor": ({"DeviceInfo": {"VendorNumber": "0x1"}}, "[DeviceInfo] VendorNumber=0x1 is not the default of [1018sub1]"),
    "a day first": ({"FileInfo": {"CreationDate": "15-11-2026"}}, "[FileInfo] CreationDate=15-11-2026 is not well formed"),
    "a section that no sheet has": ({"Remarks": {"Lines": "0"}}, "sections are neither of CiA 306 nor an object's: ['Remarks']"),
}
