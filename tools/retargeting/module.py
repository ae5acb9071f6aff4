"""The library's LLVM module as text: what is changed in it for another target, and what it must not hold for the change to be the only one."""
import re

LAYOUT, TRIPLE, ATTRIBUTES = 'target datalayout = ', 'target triple = ', 'attributes #'

# The attributes that name x86-64's processor and its way to probe the stack, with the step of that.
OF_X86_64 = (' "probe-stack"="inline-asm"', ' "stack-probe-size"="3072"', ' "target-cpu"="x86-64-v2"')

# What a line of code must not have, and the sentence that says so.
FORBIDDEN = [
    (re.compile(r'x86|inttoptr|ptrtoint|addrspace|\bi128\b|fp80|\basm\b'), 'has what only x86-64 has, or what hangs on the width of a pointer'),
    (re.compile(r'getelementptr (?!(?:inbounds |nuw |nusw )*i8,)'), 'counts a place in something else than bytes'),
    (re.compile(r'@llvm\.mem\w*\..*\bi64 %'), 'copies or fills a length that is not a constant'),
    (re.compile(r'\bcall\b[^@"]*%[\w.]+\('), 'calls by a pointer, so that no bound of the stack can be told'),
    (re.compile(r'\balloca\b[^,]*, i\d+ %'), 'takes an amount of stack that is not a constant'),
]

EXPORTED = re.compile(r'^define (?!internal )')
NARROW_RESULT = re.compile(r'^define (?:noundef |zeroext |signext |dso_local )*i(?:1|8|16) @')
STRANGE_PARAMETER = re.compile(r'\bi1 |\bfloat\b|\bdouble\b')


def retargeted(text, layout, triple):
    """The text with another data layout and triple, and without x86-64's three attributes."""
    def line_for_target(line):
        if line.startswith(LAYOUT):
            return LAYOUT + layout
        if line.startswith(TRIPLE):
            return TRIPLE + triple
        if line.startswith(ATTRIBUTES):
            for attribute in OF_X86_64:
                line = line.replace(attribute, '')
        return line

    return '\n'.join(map(line_for_target, text.split('\n')))


def changes_more(old, new):
    """Sentences: where the new text differs from the old one by anything but lines of the three kinds, one of layout and triple each, and of
    the attributes nothing but the three of x86-64."""
    before, after = old.split('\n'), new.split('\n')
    if len(before) != len(after):
        return ['lines were added or taken away']
    wrong = []
    for number, (line, other) in enumerate(zip(before, after), 1):
        kind = next((kind for kind in (LAYOUT, TRIPLE, ATTRIBUTES) if line.startswith(kind) and other.startswith(kind)), None)
        if line != other and (kind is None or kind == ATTRIBUTES and retargeted(line, '', '') != other):
            wrong.append(f'line {number} was changed, which is none of data layout, triple and attributes')
    for kind in (LAYOUT, TRIPLE):
        if sum(line.startswith(kind) for line in after) != 1:
            wrong.append(f'there is not one line of {kind[7:-3]}')
    return wrong


def cannot_move(text):
    """Sentences: what makes the module one for x86-64 only, or its calls ones that another target's C would not understand."""
    wrong = []
    for number, line in enumerate(text.split('\n'), 1):
        if line.startswith((LAYOUT, TRIPLE, ';')):
            continue
        bare = re.sub(r'@"[^"]*"', '@name', line)
        wrong += [f'line {number} {sentence}' for pattern, sentence in FORBIDDEN if pattern.search(bare)]
        if EXPORTED.match(line) and NARROW_RESULT.match(line):
            wrong.append(f'line {number} exports a result narrower than 32 bits, which Arm does not extend: it has to be u32')
        if EXPORTED.match(line) and STRANGE_PARAMETER.search(line):
            wrong.append(f'line {number} exports a bool or a float, which is not tried on another target')
    return wrong


def exports_of(text):
    """The names of the functions that C calls."""
    return [re.search(r'@"?([\w:.]+)"?\(', line)[1] for line in text.split('\n') if EXPORTED.match(line)]
