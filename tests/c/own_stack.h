/*
 * A stack of the program's own, to run a function on, for x86-64 and for Arm's controllers. Why: what lies below a function's frame there is
 * known to be unused, so it can be painted and looked at; and it lies at the same place whatever the environment of the program is, so that
 * copies of the C library, which take more or fewer steps by the alignment of what they copy, take the same number each time. How far below
 * its top the function starts is the program's to say, for a firmware's stack has one alignment or another.
 */
#ifndef OWN_STACK_H
#define OWN_STACK_H

#include <stdint.h>

enum { OWN_STACK_BYTES = 65536 };

static _Alignas(4096) uint8_t own_stack[OWN_STACK_BYTES];

/* Calls f with the stack pointer at top. The old one waits in a register that f keeps for its caller. */
void call_on_stack(void (*f)(void), uint8_t *top);
#ifdef __arm__
__asm__(".text\n"
        ".thumb_func\n"
        "call_on_stack:\n\t"
        "push {r4, lr}\n\t"
        "mov r4, sp\n\t"
        "mov sp, r1\n\t"
        "blx r0\n\t"
        "mov sp, r4\n\t"
        "pop {r4, pc}\n");
#else
__asm__(".text\n"
        "call_on_stack:\n\t"
        "pushq %rbx\n\t"
        "movq %rsp, %rbx\n\t"
        "movq %rsi, %rsp\n\t"
        "callq *%rdi\n\t"
        "movq %rbx, %rsp\n\t"
        "popq %rbx\n\t"
        "retq\n");
#endif

static inline void on_own_stack(void (*f)(void), uint32_t below)
{
    call_on_stack(f, own_stack + OWN_STACK_BYTES - below);
}

#endif
