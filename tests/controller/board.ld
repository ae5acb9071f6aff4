/* The memory of the emulated board. Behind the vectors the first 4 KB hold nothing: tests/controller/board.c forbids them. */
MEMORY
{
    ROM (rx) : ORIGIN = 0, LENGTH = 4M
    RAM (rwx) : ORIGIN = 0x20000000, LENGTH = 4M
}

ENTRY(_start)

SECTIONS
{
    .vectors : { KEEP(*(.vectors)) . = 4096; } > ROM
    .text : { *(.text*) *(.rodata*) KEEP(*(.init)) KEEP(*(.fini)) *(.init_array*) *(.fini_array*) } > ROM
    .ARM.extab : { *(.ARM.extab*) } > ROM
    .ARM.exidx : { __exidx_start = .; *(.ARM.exidx*) __exidx_end = .; } > ROM
    .data : { *(.data*) . = ALIGN(8); } > RAM
    .bss : { __bss_start__ = .; *(.bss*) *(COMMON) . = ALIGN(8); __bss_end__ = .; } > RAM
    end = .;
    __end__ = .;
    stack_top = ORIGIN(RAM) + LENGTH(RAM);
    __stack = stack_top;
    PROVIDE(__init_array_start = 0);
    PROVIDE(__init_array_end = 0);
}
