"""The numbers of CiA 301 and CiA 402, and of the node's refusals, in words."""

REFUSALS = {
    1: 'dictionary of a wrong length',
    2: 'output too short',
    3: 'node-ID outside 1 to 127',
    4: 'state and dictionary not sound (no power-up yet)',
    5: 'identifier over 7FFh or more than 8 bytes',
    6: 'no such event, or wrong arguments',
    7: 'event out of place',
    8: 'bad record',
    9: 'not in Pre-operational, or the drive not at rest',
    10: 'file under 4 bytes',
    11: 'over 512 entries',
    12: 'file cut short, or bytes left over',
    13: 'an entry for the control word',
    14: 'an entry is aborted',
}

NOT_COMPATIBLE = 0x06040043
ABORTS = {
    0x05030000: 'toggle bit not alternated',
    0x05040000: 'SDO timed out',
    0x05040001: 'unknown command',
    0x06010000: 'access not supported',
    0x06010001: 'object cannot be read',
    0x06010002: 'object cannot be written',
    0x06020000: 'no such object',
    0x06040041: 'object cannot be mapped so',
    0x06040042: 'mapping longer than a PDO',
    NOT_COMPATIBLE: 'general parameter incompatibility',
    0x06040047: 'does not fit inside the device',
    0x06060000: 'hardware fault',
    0x06070010: 'length does not match',
    0x06070012: 'too many bytes for the object',
    0x06070013: 'too few bytes for the object',
    0x06090011: 'no such subindex',
    0x06090030: 'value not allowed',
    0x06090031: 'value too high',
    0x06090032: 'value too low',
    0x06090036: 'maximum below minimum',
    0x08000000: 'general error',
    0x08000020: 'cannot be stored',
    0x08000021: 'cannot be stored: local control',
    0x08000022: 'not in the present state',
    0x08000023: 'no object dictionary',
    0x08000024: 'no data',
}

EMERGENCIES = {
    0x0000: 'errors reset',
    0x2310: 'continuous over-current',
    0x2320: 'short circuit',
    0x3210: 'DC link over-voltage',
    0x3220: 'DC link under-voltage',
    0x4310: 'drive too hot',
    0x7121: 'motor blocked',
    0x8110: 'CAN overrun: frames lost',
    0x8120: 'CAN error passive',
    0x8130: 'life guard or heartbeat error',
    0x8140: 'recovered from bus-off',
    0x8150: 'CAN identifier collision',
    0x8200: 'PDO dropped: a value not allowed',
    0x8210: 'PDO dropped: too short',
    0x8220: 'PDO too long',
    0x8240: 'SYNC of unexpected length',
    0x8250: 'RPDO timeout',
    0x8611: 'following error',
}
EMERGENCY_CLASSES = {  # by the high byte, else by its high digit
    0x10: 'generic error', 0x20: 'current', 0x21: 'current, input side', 0x22: 'current inside', 0x23: 'current, output side',
    0x30: 'voltage', 0x31: 'mains voltage', 0x32: 'voltage inside', 0x33: 'output voltage',
    0x40: 'temperature', 0x41: 'ambient temperature', 0x42: 'device temperature', 0x50: 'hardware', 0x60: 'software',
    0x61: 'internal software', 0x62: 'user software', 0x63: 'data set', 0x70: 'additional modules', 0x80: 'monitoring',
    0x81: 'communication', 0x82: 'protocol', 0x90: 'external error', 0xF0: 'additional functions', 0xFF: 'device specific',
}
REGISTER_BITS = {0: 'generic', 1: 'current', 2: 'voltage', 3: 'temperature', 4: 'communication', 5: 'profile', 7: 'manufacturer'}

NMT_COMMANDS = {0x01: 'start', 0x02: 'stop', 0x80: 'enter Pre-operational', 0x81: 'reset node', 0x82: 'reset communication'}
NMT_STATES = {0x04: 'Stopped', 0x05: 'Operational', 0x7F: 'Pre-operational'}

MODES = {0: 'none', 1: 'profile position', 2: 'velocity', 3: 'profile velocity', 4: 'profile torque', 6: 'homing',
         7: 'interpolated position', 8: 'cyclic position', 9: 'cyclic velocity', 10: 'cyclic torque'}
SUPPORTED_MODES = {mode - 1: name for mode, name in MODES.items() if mode}  # by the bits of 6502h
POSITION_MODE, VELOCITY_MODE = 1, 3

STATES = (  # mask and value of the status word, name
    (0x4F, 0x00, 'Not ready to switch on'),
    (0x4F, 0x40, 'Switch on disabled'),
    (0x6F, 0x21, 'Ready to switch on'),
    (0x6F, 0x23, 'Switched on'),
    (0x6F, 0x27, 'Operation enabled'),
    (0x6F, 0x07, 'Quick stop active'),
    (0x4F, 0x0F, 'Fault reaction active'),
    (0x4F, 0x08, 'Fault'),
)
STATE_BITS = 0x6F
STATUS_BITS = {4: 'voltage', 7: 'warning', 9: 'remote', 10: 'reached', 11: 'limit', 12: 'set-point ack', 13: 'following error'}
VELOCITY_STATUS_BITS = {**STATUS_BITS, 12: 'standstill', 13: 'slippage'}

REACHED = 1 << 10  # of the status word

COMMAND_BITS = 0x8F  # of the control word: the drive command is in these
HALT = 1 << 8
CONTROL_BITS = {8: 'halt'}
POSITION_CONTROL_BITS = {4: 'new set-point', 5: 'at once', 6: 'relative', 8: 'halt'}


def bits(word: int, names: dict[int, str]) -> list[str]:
    """The bits that are 1, by name, or by number where there is none."""
    return [names.get(bit, f'bit {bit}') for bit in range(word.bit_length()) if word >> bit & 1]


def drive_state(status: int) -> str:
    return next((name for mask, value, name in STATES if status & mask == value), 'no drive state')


def status_word(status: int, mode: int) -> str:
    names = VELOCITY_STATUS_BITS if mode == VELOCITY_MODE else STATUS_BITS
    others = ', '.join(bits(status & ~STATE_BITS, names))
    return f'{status:04X}h {drive_state(status)}' + (f': {others}' if others else '')


def drive_command(control: int) -> str:
    if control & 0x80:
        return 'Fault reset'
    if not control & 0x02:
        return 'Disable voltage'
    if not control & 0x04:
        return 'Quick stop'
    if not control & 0x01:
        return 'Shutdown'
    return 'Enable operation' if control & 0x08 else 'Switch on'


def control_word(control: int, mode: int) -> str:
    names = POSITION_CONTROL_BITS if mode == POSITION_MODE else CONTROL_BITS
    return f'{control:04X}h ' + ', '.join([drive_command(control)] + bits(control & ~COMMAND_BITS, names))


def error_register(register: int) -> str:
    return f'{register:02X}h' + (f" ({', '.join(bits(register, REGISTER_BITS))})" if register else '')


def emergency(code: int) -> str:
    name = EMERGENCIES.get(code) or EMERGENCY_CLASSES.get(code >> 8) or EMERGENCY_CLASSES.get(code >> 8 & 0xF0, '')
    return f'{code:04X}h {name}'.rstrip()


def abort(code: int) -> str:
    return f"{code:08X}h {ABORTS.get(code, 'unknown abort code')}"


MOST_SHOWN = 40  # bytes of a text or of data that belong to no number


def text(data: bytes) -> str:
    """A text in quotes, or its bytes where one of them is no visible character."""
    visible = data and all(0x20 <= byte < 0x7F for byte in data)
    return f"'{data[:MOST_SHOWN].decode('ascii')}'" + ('..' if len(data) > MOST_SHOWN else '') if visible else shown(data)


def shown(data: bytes) -> str:
    return data[:MOST_SHOWN].hex(' ').upper() + ('..' if len(data) > MOST_SHOWN else '') or 'nothing'


def number(value: int, size: int) -> str:
    """Decimal, and hexadecimal too where it looks different."""
    return str(value) if 0 <= value <= 9 else f'{value} ({value % (1 << 8 * size):X}h)'
