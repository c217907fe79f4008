/*
 * A routine without a C library: its code to read and execute, its constants
 * to read, and its variables to read and write. It needs no gp.
 */
ENTRY(decode_digit)

PHDRS
{
    code PT_LOAD FLAGS(5);
    constants PT_LOAD FLAGS(4);
    variables PT_LOAD FLAGS(6);
}

SECTIONS
{
    .text 0x00010000 : { *(.text .text.*) } :code
    .rodata 0x00020000 : { *(.rodata .rodata.* .srodata .srodata.*) } :constants
    . = 0x00030000;
    .data : { *(.data .data.* .sdata .sdata.*) } :variables
    .bss : { *(.bss .bss.* .sbss .sbss.* COMMON) } :variables
    /DISCARD/ : { *(.comment .riscv.attributes) }
}
