/* The card's memory: 64 KiB of ROM from 0 on, 64 KiB of RAM above it. Variables start as zeros, which start.S sees to. */
OUTPUT_ARCH(m68k)
SECTIONS
{
    .rom 0 : { *(.vectors) *(.text .text.*) *(.rodata .rodata.*) }
    .data : { *(.data .data.*) }
    .bss 0x10000 (NOLOAD) : { bss_start = .; *(.bss .bss.* COMMON) bss_end = .; }
    stack = 0x20000;
    /DISCARD/ : { *(.comment) *(.note*) *(.eh_frame) }
}
ASSERT(SIZEOF(.data) == 0, "variables with an initial value have no place in ROM")
