/*
 * The emulated board: a Cortex-M4 (QEMU's mps2-an386) with newlib, which speaks to the emulator for input, output and exit status.
 *
 * It starts the C library, with two things set that a product may set too. Nothing can be read or written in the first 4 KB, so that a null
 * pointer is never followed unnoticed. And with TRAP_UNALIGNED an access to a half-word or a word that is not aligned stops the program.
 * Whatever fault stops it, its cause is printed, and the status is 70.
 */
#include <stdint.h>
#include <stdio.h>

enum { NO_ACCESS_OF_4_KB = 1 << 28 | 11 << 1 | 1, PROTECTION_ON_WITH_DEFAULTS = 5, UNALIGN_TRP = 1 << 3, FLOATS_ON = 0xF << 20, FAULT_STATUS = 70 };

/* Registers of the core, with the names that Arm gives them. */
static volatile uint32_t *const configuration = (void *)0xE000ED14;      /* CCR */
static volatile uint32_t *const fault_status = (void *)0xE000ED28;       /* CFSR */
#ifdef __ARM_FP
static volatile uint32_t *const coprocessor_access = (void *)0xE000ED88; /* CPACR */
#endif
static struct {
    volatile uint32_t control, number, base, attributes; /* of the memory protection unit */
} *const protection = (void *)0xE000ED94;

extern uint32_t stack_top;
void _start(void);

/* ---- calls of the emulator (semihosting) */

enum { WRITE0 = 0x04, EXIT_EXTENDED = 0x20, APPLICATION_EXIT = 0x20026 };

static void ask_emulator(uint32_t call, const void *argument)
{
    register uint32_t r0 __asm__("r0") = call;
    register const void *r1 __asm__("r1") = argument;

    __asm__ volatile("bkpt 0xab" : "+r"(r0) : "r"(r1) : "memory");
}

static void stop(void)
{
    static const uint32_t status[2] = {APPLICATION_EXIT, FAULT_STATUS};
    uint32_t cause = *fault_status;
    const char *name = cause & 1 << 24 ? "unaligned access" : cause & 0xFF ? "access that the protection forbids" : "fault";

    ask_emulator(WRITE0, "board: ");
    ask_emulator(WRITE0, name);
    ask_emulator(WRITE0, "\n");
    for (;;)
        ask_emulator(EXIT_EXTENDED, status);
}

/* ---- start */

static void reset(void)
{
    protection->number = 0;
    protection->base = 0;
    protection->attributes = NO_ACCESS_OF_4_KB;
    protection->control = PROTECTION_ON_WITH_DEFAULTS;
#ifdef TRAP_UNALIGNED
    *configuration |= UNALIGN_TRP;
#else
    *configuration &= ~(uint32_t)UNALIGN_TRP;
#endif
#ifdef __ARM_FP
    *coprocessor_access |= FLOATS_ON;
#endif
    __asm__ volatile("dsb\n\tisb");
    _start();
}

__attribute__((section(".vectors"), used)) static const void *const vectors[16] = {&stack_top, reset, stop, stop, stop, stop, stop};

/* What newlib's start calls for C++. */
void _init(void)
{
}

void _fini(void)
{
}
