"""The controllers, and the words by which clang compiles for each."""
from typing import List, NamedTuple

from . import Refused

# Of the kit's own words for x86-64: a section for each function, and a trap where the module says that no way leads. And one more: loops whose
# number of turns is not known are not unrolled. They have eight turns at the most here; it would cost a fifth of the flash, and save nothing.
ALWAYS = ['--no-default-config', '-ffunction-sections', '-fdata-sections', '-mllvm', '-trap-unreachable', '-mllvm', '-no-trap-after-noreturn',
          '-mllvm', '-unroll-runtime=false', '-Werror']

LEVELS = ('-O2', '-O3', '-Os')


class Target(NamedTuple):
    back_end: str       # as `clang --print-targets` has it
    triple: str
    words: List[str]    # the core, and how its C calls pass what they pass
    aligned: List[str]  # for no unaligned access; empty where the core has none
    floats: List[str]   # to stand beside C that passes floats in registers; empty where the core has none


class Build(NamedTuple):
    """How the module is compiled: for which target, how hard, and with which loops, accesses and calls."""
    name: str
    level: str = LEVELS[0]
    no_unroll: bool = False
    aligned: bool = False
    hard_float: bool = False

    @property
    def target(self):
        return TARGETS[self.name]

    def words(self):
        """clang's words for it."""
        if self.hard_float and not self.target.floats:
            raise Refused(f'{self.name} has no registers for floats')
        return [*ALWAYS, f'--target={self.target.triple}', *self.target.words, self.level, *(['-fno-unroll-loops'] if self.no_unroll else []),
                *(self.target.aligned if self.aligned else []), *(self.target.floats if self.hard_float else [])]

    def folder(self):
        """Where it is written: the target's name, and what is not usual behind it."""
        level = self.level if self.level != LEVELS[0] else ''
        marks = {'-no-unroll': self.no_unroll, '-aligned': self.aligned, '-hard-float': self.hard_float}
        return self.name + level + ''.join(mark for mark, is_asked in marks.items() if is_asked)


def of_arm(triple, core, is_small=False):
    """A core of Arm's. A small one has neither unaligned access nor registers for floats."""
    return Target('thumb', triple, [f'-mcpu={core}', '-mfloat-abi=soft'], [] if is_small else ['-mno-unaligned-access'],
                  [] if is_small else ['-mfloat-abi=hard'])


TARGETS = {
    'cortex-m0plus': of_arm('thumbv6m-none-eabi', 'cortex-m0plus', is_small=True),
    'cortex-m4': of_arm('thumbv7em-none-eabi', 'cortex-m4'),
    'cortex-m7': of_arm('thumbv7em-none-eabi', 'cortex-m7'),
    'cortex-m33': of_arm('thumbv8m.main-none-eabi', 'cortex-m33'),
    'rv32imac': Target('riscv32', 'riscv32-unknown-none-elf', ['-march=rv32imac', '-mabi=ilp32'], [], []),
}
