"""What tools/controller does: the proved library's LLVM module, compiled for a controller.

  targets   the controllers, and the words by which clang compiles for each
  kit       the kit's programs; the library built, and the module that the back end hands to clang kept
  module    the module as text: what may be changed in it, and what it must not hold
  objects   what stands in a compiled object: functions, their code and stack, what they call, what they need
"""


class Refused(Exception):
    """A check that failed, in a sentence."""
