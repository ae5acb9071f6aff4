#!/usr/bin/env python3
"""wrong_modules: modules and objects that tools/controller must refuse, each with the right sentence, and right ones that it must take. The
last line is 'N passed, M failed'; a failure is the exit status."""
import pathlib
import struct
import sys

ROOT = pathlib.Path(__file__).resolve().parent.parent.parent
sys.dont_write_bytecode = True
sys.path[:0] = [str(ROOT / "tests"), str(ROOT / "tools")]

from report import Report
from retargeting import Refused
from retargeting.module import cannot_move, changes_more, exports_of, retargeted
from retargeting.objects import Object, deepest_of, frames_of

MODULE = """\
; ModuleID = 'x86.bc'
target datalayout = "e-p:64:64"
target triple = "x86_64-unknown-linux-gnu"

define internal i16 @"a::float"(ptr noundef %a0, i1 noundef zeroext %a1) #0 {
  %1 = alloca [16 x i8], align 8
  %2 = getelementptr inbounds nuw i8, ptr %1, i64 8
  call void @llvm.memmove.p0.p0.i64(ptr %1, ptr %2, i64 8, i1 false)
  %3 = call i16 @"a::asm"(ptr %1)
  ret i16 %3
}

define noundef i32 @exported(ptr noundef %a0, i64 noundef %a1, i8 noundef %a2) #0 {
  ret i32 0
}

attributes #0 = { nounwind "probe-stack"="inline-asm" "stack-probe-size"="3072" "target-cpu"="x86-64-v2" }
"""
MOVED = MODULE.replace("e-p:64:64", "e-p:32:32").replace("x86_64-unknown-linux-gnu", "thumbv7em-unknown-none-eabi").replace(
    ' "probe-stack"="inline-asm" "stack-probe-size"="3072" "target-cpu"="x86-64-v2"', "")

# A line in place of another, and what must be said of it.
X86 = "has what only x86-64 has, or what hangs on the width of a pointer"
HOLDS = [
    ("  ret i32 0", "  %2 = ptrtoint ptr %a0 to i64", f"line 14 {X86}"),
    ("  ret i32 0", "  %2 = inttoptr i64 %a1 to ptr", f"line 14 {X86}"),
    ("  ret i32 0", '  call void asm sideeffect "nop", ""()', f"line 14 {X86}"),
    ("  ret i32 0", "  %2 = call i32 @llvm.x86.sse2.pmovmskb.128(<16 x i8> %1)", f"line 14 {X86}"),
    ("  ret i32 0", "  %2 = zext i64 %a1 to i128", f"line 14 {X86}"),
    ("nuw i8, ptr %1", "nuw ptr, ptr %1", "line 7 counts a place in something else than bytes"),
    ("nuw i8, ptr %1", "nuw [4 x i8], ptr %1", "line 7 counts a place in something else than bytes"),
    ("ptr %2, i64 8, i1", "ptr %2, i64 %a1, i1", "line 8 copies or fills a length that is not a constant"),
    ('@"a::asm"(', "%a0(", "line 9 calls by a pointer, so that no bound of the stack can be told"),
    ("alloca [16 x i8],", "alloca i8, i64 %n,", "line 6 takes an amount of stack that is not a constant"),
    ("noundef i32 @exported", "noundef zeroext i8 @exported",
     "line 13 exports a result narrower than 32 bits, which Arm does not extend: it has to be u32"),
    ("i8 noundef %a2", "i1 noundef zeroext %a2", "line 13 exports a bool or a float, which is not tried on another target"),
    ("i8 noundef %a2", "double noundef %a2", "line 13 exports a bool or a float, which is not tried on another target"),
]
CHANGES = [
    ("  ret i32 0", "  ret i32 1", "line 14 was changed, which is none of data layout, triple and attributes"),
    ("  ret i32 0", "  ret i32 0\n", "lines were added or taken away"),
    ("{ nounwind }", "{ nounwind noreturn }", "line 17 was changed, which is none of data layout, triple and attributes"),
    ("target triple = ", "target triples = ", "line 3 was changed, which is none of data layout, triple and attributes"),
]


def check_modules(report):
    report.check(retargeted(MODULE, '"e-p:32:32"', '"thumbv7em-unknown-none-eabi"') == MOVED, "the three kinds of lines are not changed as they must be")
    report.check(not changes_more(MODULE, MOVED), f"the right change is refused: {changes_more(MODULE, MOVED)}")
    report.check(not cannot_move(MOVED), f"a right module is refused: {cannot_move(MOVED)}")
    report.check(exports_of(MOVED) == ["exported"], f"the exports are not {exports_of(MOVED)}")
    for old, new, sentence in HOLDS:
        said = cannot_move(MOVED.replace(old, new, 1))
        report.check(said == [sentence], f"a module with '{new}' must be refused with '{sentence}', not with {said}")
    for old, new, sentence in CHANGES:
        said = changes_more(MODULE, MOVED.replace(old, new, 1))
        report.check(sentence in said, f"a change to '{new}' must be refused with '{sentence}', not with {said}")


# ---- stack


def refusal_of(asked, *arguments):
    """The sentence by which it is refused; what it answers where it is not."""
    try:
        return asked(*arguments)
    except Refused as refused:
        return str(refused)


STACKS = [
    (frames_of, ("x.ll:a::b\t16\tstatic\nx.ll:c\t8\tstatic\n", {"a::b": 1, "c": 1}), {"a::b": 16, "c": 8}),
    (frames_of, ("x.ll:a\t16\tdynamic\n", {"a": 1}), "a takes an amount of stack that is not fixed"),
    (frames_of, ("x.ll:a\t16\tstatic\n", {"a": 1, "b": 1}), "clang does not tell the stack of b"),
    (deepest_of, ({"a": 1, "b": 20, "c": 300, "d": 4000}, {"a": {"b", "c", "memcpy"}, "b": {"c"}, "c": set(), "d": {"b"}}),
     {"a": 321, "b": 320, "c": 300, "d": 4320}),
    (deepest_of, ({"a": 1, "b": 2}, {"a": {"b"}, "b": {"a"}}), "a calls itself, through a and b: no bound of the stack can be told"),
    (Object, (b"\x7fELF\x02\x01" + bytes(58),), "the object is not one of 32 bits, low byte first"),
]


def check_stacks(report):
    for asked, arguments, answer in STACKS:
        said = refusal_of(asked, *arguments)
        report.check(said == answer, f"{asked.__name__} must answer {answer!r}, not {said!r}")


# ---- an object: two functions in sections of their own, the first of which names the second, itself by its section, and memcpy


def object_of():
    names = b"\0.text.f\0.rel.text.f\0.text.g\0.symtab\0.strtab\0f\0g\0memcpy\0"
    place = {name: names.index(b"\0" + name + b"\0") + 1 for name in (b".text.f", b".rel.text.f", b".text.g", b".symtab", b".strtab", b"f", b"g", b"memcpy")}
    symbols = [(0, 0, 0, 0, 0, 0), (0, 0, 0, 3, 0, 1), (place[b"f"], 1, 12, 0x12, 0, 1), (place[b"g"], 1, 6, 0x02, 0, 3), (place[b"memcpy"], 0, 0, 0x10, 0, 0)]
    table = b"".join(struct.pack("<IIIBBH", *row) for row in symbols)
    named = b"".join(struct.pack("<II", at, symbol << 8 | 10) for at, symbol in ((0, 3), (4, 4), (8, 1)))
    parts, at = [], 52
    for part in (bytes(12), named, bytes(6), table, names):
        parts.append((at, len(part)))
        at += len(part)
    rows = [(0,) * 10,
            (place[b".text.f"], 1, 6, 0, *parts[0], 0, 0, 4, 0), (place[b".rel.text.f"], 9, 0, 0, *parts[1], 4, 1, 4, 8),
            (place[b".text.g"], 1, 6, 0, *parts[2], 0, 0, 4, 0), (place[b".symtab"], 2, 0, 0, *parts[3], 5, 3, 4, 16),
            (place[b".strtab"], 3, 0, 0, *parts[4], 0, 0, 1, 0)]
    head = b"\x7fELF\x01\x01" + bytes(10) + struct.pack("<HHIIIIIHHHHHH", 1, 40, 1, 0, 0, at, 0, 52, 0, 0, 40, len(rows), 5)
    return head + bytes(12) + named + bytes(6) + table + names + b"".join(struct.pack("<10I", *row) for row in rows)


def check_object(report):
    found = Object(object_of())
    report.check(found.code_of() == {"f": 12, "g": 6}, f"the functions are not {found.code_of()}")
    report.check(found.calls() == {"f": {"g", "memcpy"}, "g": set()}, f"the calls are not {found.calls()}")
    report.check(found.needs() == ["memcpy"], f"the needs are not {found.needs()}")
    report.check(found.bytes_of(".text") == 18, f".text has not {found.bytes_of('.text')} bytes")


def main():
    report = Report()
    check_modules(report)
    check_stacks(report)
    check_object(report)
    for sentence in report.failures:
        print("FAIL", sentence)
    print(f"{report.passed} passed, {len(report.failures)} failed")
    return 1 if report.failures else 0


sys.exit(main())
