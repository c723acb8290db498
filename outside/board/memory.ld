/* The memory of QEMU's boards mps2-an385, with a Cortex-M3, and mps2-an386, with a Cortex-M4F. */
MEMORY {
    CODE (rx) : ORIGIN = 0x00000000, LENGTH = 4M
    RAM (rwx) : ORIGIN = 0x20000000, LENGTH = 4M
}
ENTRY(reset)
SECTIONS {
    .text : { KEEP(*(.vectors)) *(.text .text.*) *(.init .fini) *(.rodata .rodata.*) } >CODE
    .ARM.exidx : { *(.ARM.exidx*) } >CODE
    .data : { *(.data .data.*) } >RAM
    .bss : { *(.bss .bss.*) *(COMMON) } >RAM
    end = .;
    stack_low = ORIGIN(RAM) + LENGTH(RAM) - 1M;
    stack_top = ORIGIN(RAM) + LENGTH(RAM);
}
