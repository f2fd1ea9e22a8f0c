/* The emulator's board mps2-an505, as its Cortex-M33 finds it after reset: vectors and code at 0x10000000, RAM at 0x38000000. The names
   with underscores are those that newlib's start-up asks for. */
MEMORY
{
    code (rx) : ORIGIN = 0x10000000, LENGTH = 4M
    ram (rw) : ORIGIN = 0x38000000, LENGTH = 4M
}

ENTRY(_start)

SECTIONS
{
    .text : { KEEP(*(.vectors)) *(.text .text.*) KEEP(*(.init)) KEEP(*(.fini)) *(.rodata .rodata.*) } >code
    .ARM.exidx : { __exidx_start = .; *(.ARM.exidx*) __exidx_end = .; } >code
    .init_array :
    {
        __preinit_array_start = .; KEEP(*(.preinit_array)) __preinit_array_end = .;
        __init_array_start = .; KEEP(*(.init_array*)) __init_array_end = .;
        __fini_array_start = .; KEEP(*(.fini_array*)) __fini_array_end = .;
    } >code
    .data : { *(.data .data.*) } >ram
    .bss (NOLOAD) : { __bss_start__ = .; *(.bss .bss.*) *(COMMON) __bss_end__ = .; } >ram
    end = .;
    __end__ = .;
    __stack = ORIGIN(ram) + LENGTH(ram);
}
