"""docs/NODE.md, the rules of the node in words, held to what it tells of: the objects to the dictionary of tests/load/table.py and to the data
sheet, refusals and events to the headers, codes, commands, drive states and the examples to the definitions, its sections to those that are cited."""
import itertools
import re
from typing import NamedTuple

PAGE = "docs/NODE.md"
OF_CODE = {"Forms by place in the code"}  # the section of document 01 that has no rule of the node
ABORTS, DRIVE_STATES, EMERGENCY, NMT, EXAMPLES = (
    "crates/rules_dictionary/specs/Aborts.antt",
    "crates/drive/specs/DriveStates.antt",
    "crates/rules_services/specs/Emergency.antt",
    "crates/rules_services/specs/Nmt.antt",
    "crates/rules/specs/Examples.antt",
)
HEADER, FEEDER_HEADER = "include/cendurak.h", "include/feeder.h"


# ---- the page


def titles_of(page):
    return re.findall(r"^## (.+)$", page, re.M)


def cells_of(line):
    return [cell.strip() for cell in line.strip().strip("|").split("|")]


def table_of(page, columns, report):
    """The rows of the table whose head begins with those columns."""
    head = "| " + " | ".join(columns) + " |"
    found = page.partition("\n" + head)[2].splitlines()[2:]
    rows = [cells_of(line) for line in itertools.takewhile(lambda line: line.startswith("|"), found)]
    report.check(rows, f"{PAGE} has no table '{' | '.join(columns)}'")
    return rows


def number(text):
    """A number of the page: hexadecimal behind an h, or decimal."""
    return int(text[:-1], 16) if text.endswith("h") else int(text)


def check_same(what, told, source, right, report):
    """Two lists, one by one."""
    for ours, theirs in itertools.zip_longest(told, right, fillvalue="nothing"):
        report.check(ours == theirs, f"{what}: {PAGE} has {ours} where {source} has {theirs}")


# ---- lists of numbers and names


class Held(NamedTuple):
    """A list that stands in a table of the page and in another file."""
    what: str
    columns: tuple
    told: object  # a row of the table as it is compared, or None where it is not
    source: str
    right: object  # the list of the source's text


def by_name(row):
    return f"{row[0]} {row[1].strip('`')}" if row[1] != "none" else None


def enum_of(name):
    """The members of a C enum but that of 0, which is no refusal."""
    def members(text):
        body = text.partition(f"enum {name} {{")[2].partition("};")[0]
        return [f"{value} {member}" for member, value in re.findall(r"^    (\w+) = (\d+)", body, re.M) if value != "0"]
    return members


def hexadecimals(pattern):
    return lambda text: [f"{int(value, 16):X}h" for value in re.findall(pattern, text, re.M)]


def first_number(row):
    return f"{number(row[0]):X}h"


def second_number(row):
    return f"{number(row[1]):X}h"


LISTS = [
    Held("refusals", ("No.", "In C", "Of"), by_name, HEADER, enum_of("cendurak_refusal_number")),
    Held("events", ("No.", "In C", "Arguments"), by_name, HEADER, enum_of("cendurak_event_number")),
    Held("the feeder's refusals", ("No.", "In C", "Given when"), by_name, FEEDER_HEADER, enum_of("feeder_refusal_number")),
    Held("abort codes", ("Code", "Given when"), first_number, ABORTS, hexadecimals(r"^abort_code \w+ = 0x([0-9A-F]{8})$")),
    Held("emergency codes", ("Code", "Cause"), first_number, EMERGENCY, hexadecimals(r"^\w+ = 0x([0-9A-F]{4})$")),
    Held("NMT commands", ("Command", "Leads to"), first_number, NMT, hexadecimals(r"eqb c 0x([0-9A-F]{2})\)")),
    Held("heartbeat bytes", ("NMT state", "Byte"), second_number, NMT, hexadecimals(r"^state_byte \w+ = 0x([0-9A-F]{2})$")),
    Held("status words", ("Drive state", "6041h"), second_number, DRIVE_STATES, hexadecimals(r"^state_word \w+ = 0x([0-9A-F]+)$")),
]


def check_list(held, page, text, report):
    told = [held.told(row) for row in table_of(page, held.columns, report)]
    check_same(held.what, [one for one in told if one is not None], held.source, held.right(text), report)


def check_lengths(page, header, report):
    """The lengths of what is lent."""
    for name, length in re.findall(r"^#define CENDURAK_(STATE|DICT|OUT)_LEN (\d+)u$", header, re.M):
        report.check(f"{length} bytes" in page, f"{PAGE} does not say '{length} bytes', which is CENDURAK_{name}_LEN")


# ---- the drive's transitions


def bare(name):
    return name.replace(" ", "").lower()


def transitions_of(text):
    """What each command makes of each state, as the definition `next` has it: by state, by command."""
    bodies = {}
    for function, parameters, command, result in re.findall(r"^(from_\w+)((?: [a-z]\w*)*) ([A-Z]\w+) = (.+)$", text, re.M):
        bodies.setdefault(function, {})[command] = parameters.split(), result
    table = {}
    for state, result in re.findall(r"^next cause (\w+) c = (.+)$", text, re.M):
        function, *arguments = result.removesuffix(" c").split()
        table[state] = {command: outcome(known, arguments) for command, known in bodies.get(function, {}).items()}
    return table


def outcome(known, arguments):
    """The state that a command leads to, with the definition's names replaced by what they were given."""
    parameters, result = known
    given = dict(zip(parameters, arguments))
    without_cause = re.fullmatch(r"cond cause \w+ (\w+)", result)
    return f"{without_cause[1]}, without a cause" if without_cause else given.get(result, result)


def check_transitions(page, text, report):
    """The rows go by the definition's states, in its order; a cell is empty where the state stays."""
    rows = table_of(page, ("Drive state", "6041h"), report)
    commands = cells_of(re.search(r"^\| Drive state \|.*$", page, re.M)[0])[2:] if rows else []
    right = transitions_of(text)
    ours = {state: row[0] for state, row in zip(right, rows)}
    for state, row in zip(right, rows):
        report.check(bare(state).startswith(bare(row[0])), f"drive states: {PAGE} has {row[0]} where {DRIVE_STATES} has {state}")
        for command, cell in zip(commands, row[2:]):
            led_to = {bare(name): result for name, result in right[state].items()}.get(bare(command), state)
            name, comma, condition = led_to.partition(",")
            wanted = "" if led_to == state else ours.get(name, name) + comma + condition
            report.check(cell == wanted, f"{row[0]}, {command}: {PAGE} has '{cell}' where {DRIVE_STATES} has '{wanted}'")


# ---- the dictionary


def places_of(cell, report):
    """'1400h-1403h:0, 1018h' as index and subindex each."""
    places = []
    for part in cell.split(", "):
        found = re.fullmatch(r"([0-9A-F]{4})h(?:-([0-9A-F]{4})h)?(?::(\d)(?:-(\d))?)?", part)
        if report.check(found, f"{PAGE} has '{part}', which names no object"):
            first, last, low, high = found.groups()
            indices = range(int(first, 16), int(last or first, 16) + 1)
            places += [(index, sub) for index in indices for sub in range(int(low or 0), int(high or low or 0) + 1)]
    return places


def is_of_pdo(index):
    return 0x1400 <= index < 0x1C00


def told_range(cell, size):
    """Least and greatest; those of the type where there is a rule in brackets or nothing."""
    return tuple(map(number, cell.split(".."))) if cell and not cell.startswith("(") else (0, 256**size - 1)


def check_objects(page, rows, sheet, report):
    """`rows` are those of tests/load/table.py, `sheet` has the objects of the data sheet."""
    told = {}
    for cells in table_of(page, ("Object", "Name", "Type"), report):
        for place in places_of(cells[0], report):
            report.check(place not in told, f"{PAGE} has {spelt(place)} twice")
            told[place] = cells
    for place in sorted(rows.keys() | told.keys()):
        known = report.check(place in rows, f"{PAGE} has {spelt(place)}, which is no entry")
        if report.check(place in told, f"{PAGE} does not have {spelt(place)}") and known:
            check_object(place, told[place], rows[place], sheet[place], report)
    length = sum(row.size for row in rows.values())
    report.check(f"{len(rows)} entries" in page and f"{length} bytes" in page, f"{PAGE} does not say '{len(rows)} entries' and '{length} bytes'")


def spelt(place):
    return f"{place[0]:04X}h:{place[1]}"


def told_default(cell, size):
    """As the dictionary holds it; what stands in brackets is left to the table of PDOs."""
    value, plus, _ = cell.partition("+N")
    return cell if cell.startswith("(") else f"{number(value) % 256**size:X}h" + plus


def check_object(place, cells, row, entry, report):
    _, name, kind, access, mappable, default, limits = cells
    default = told_default(default, row.size)
    of_pdo = is_of_pdo(place[0])
    columns = [
        ("name", name, name if of_pdo else entry.name),
        ("type", kind, f"{'i' if entry.signed else 'u'}{8 * row.size}"),
        ("access", access, row.access),
        ("map", mappable or "nothing", row.mappable or "nothing"),
        ("default", default, default if of_pdo and default.startswith("(") else f"{row.default:X}h" + ("+N" if row.counts_from_node else "")),
        ("range", told_range(limits, row.size), (row.least, row.greatest)),
    ]
    for column, ours, right in columns:
        report.check(ours == right, f"{spelt(place)}: {PAGE} has the {column} {ours}, and {right} is right")


def check_pdos(page, pdos, rows, report):
    """The defaults of the PDOs: identifier and mapping, each object with its own length."""
    right = []
    for pdo in pdos:
        words = [rows[pdo.mapping, k].default for k in range(1, rows[pdo.mapping, 0].default + 1)]
        lengths = [word == (word >> 16) * 65536 + 8 * rows[word >> 16, 0].size for word in words]
        report.check(all(lengths), f"{pdo.direction}PDO {pdo.number + 1} does not map each object with its own length")
        objects = ", ".join(f"{word >> 16:04X}h" for word in words)
        identifier = f"{rows[pdo.communication, 1].default:08X}h+N"
        right.append(f"{pdo.direction}PDO {pdo.number + 1} {pdo.communication:04X}h {pdo.mapping:04X}h {identifier} {objects}")
    told = [" ".join(row) for row in table_of(page, ("PDO", "Parameters", "Mapping"), report)]
    check_same("PDOs by default", told, "tests/load/table.py", right, report)


# ---- the examples


DEFINITION = re.compile(r"^(?:abbrev|unfoldable) pub (\w+) :.*\n(?:unfolding .*\n)?\1((?: \w+)*) =((?:\n?.*\S.*)+?)(?=\n\n|\n*\Z)", re.M)
TOKEN = re.compile(r"0x[0-9A-F]+|\d+|\[\]|\+\+|[()∷]|\w+")


def spelt_frame(identifier, data):
    return " ".join([f"{identifier:03X}"] + [f"{byte:02X}" for byte in data])


def spelt_event(event, arguments):
    return f"event {event}" + (": " if arguments else "") + " ".join(f"{byte:02X}" for byte in arguments)


CALLS = {
    "power_up_call": lambda node: f"power-up {node}",
    "frame_call": spelt_frame,
    "event_call": spelt_event,
    "frame": spelt_frame,
    "line": lambda call, refusal, word, frames: f"{call} | {'; '.join(frames)} | {word:04X}h" + (f" refused {refusal}" if refusal else ""),
}


class Scripts:
    """The definitions of scripts, evaluated: numbers, names, application, lists with ∷ and ++."""

    def __init__(self, text):
        code = re.sub(r"^--.*\n", "", text, flags=re.M)
        self.definitions = {name: (parameters.split(), TOKEN.findall(body)) for name, parameters, body in DEFINITION.findall(code)}

    def value(self, name, arguments=(), names=None):
        if names and name in names:
            return names[name]
        if name in CALLS:
            return CALLS[name](*arguments)
        parameters, tokens = self.definitions[name]
        return self.expression(list(tokens), dict(zip(parameters, arguments)))

    def expression(self, tokens, names):
        head = self.application(tokens, names)
        operator = tokens.pop(0) if tokens and tokens[0] in ("∷", "++") else None
        if operator is None:
            return head
        tail = self.expression(tokens, names)
        return [head] + tail if operator == "∷" else head + tail

    def application(self, tokens, names):
        function, arguments = tokens.pop(0), []
        if function == "(" or function == "[]" or function[0].isdigit():
            return self.operand(function, tokens, names)
        while tokens and tokens[0] not in ("∷", "++", ")"):
            arguments.append(self.operand(tokens.pop(0), tokens, names))
        return self.value(function, arguments, names)

    def operand(self, token, tokens, names):
        if token == "(":
            inner = self.expression(tokens, names)
            tokens.pop(0)
            return inner
        if token == "[]":
            return []
        return int(token, 0) if token[0].isdigit() else self.value(token, (), names)


def check_examples(page, text, report):
    """Each example of the page is the script of the definitions, line by line."""
    told, now = {}, None
    for example, call, sent, word in table_of(page, ("Example", "In", "Out"), report):
        if example:
            now, _, base = example.removesuffix(")").partition(" (")
            told[now] = list(told.get(base, []))
        told[now].append(f"{call} | {sent} | {word}")
    scripts = Scripts(text)
    right = {name.removeprefix("example"): scripts.value(name) for name in scripts.definitions if re.fullmatch(r"example\d+", name)}
    check_same("the examples", list(told), EXAMPLES, list(right), report)
    for example in [example for example in told if example in right]:
        check_same(f"example {example}", told[example], EXAMPLES, right[example], report)


# ---- its sections


def check_sections(page, rules, report):
    """Every section of document 01, and every ticket, that docs/RULES.md goes through is on the page."""
    tickets = {cells_of(row)[0].partition("]")[0].strip("["): cells_of(row)[1] for row in re.findall(r"^\| \[\d+\].*$", page, re.M)}
    for title in titles_of(rules):
        ticket = re.fullmatch(r"Ticket (\d+): (.+)", title)
        if not ticket:
            report.check(title in OF_CODE or title in titles_of(page), f"docs/RULES.md has a section '{title}', and {PAGE} has none of that name")
            continue
        asked = tickets.get(ticket[1], "")
        report.check(bare(asked) == bare(ticket[2]), f"docs/RULES.md has ticket {ticket[1]}, '{ticket[2]}', and {PAGE} has '{asked}'")
        report.check(re.search(rf"\([^()]*\bticket {ticket[1]}\b", page), f"{PAGE} marks nothing as of ticket {ticket[1]}")


def check_cited(name, text, titles, report):
    """A section of document 01 that is cited can be looked up on the page."""
    for title in dict.fromkeys(re.findall(r"[Dd]ocument 01, '([^'\n]+)'", text)):
        report.check(title in titles, f"{name} cites '{title}' of document 01, and {PAGE} has no section of that name")
