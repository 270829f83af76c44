/* The memory of Arm's MPS2 boards with a Cortex-M3 (AN385) or a Cortex-M4 (AN386): code from 0, data from 0x20000000. */
MEMORY
{
    code (rx) : ORIGIN = 0x00000000, LENGTH = 4M
    ram (rwx) : ORIGIN = 0x20000000, LENGTH = 4M
}
SECTIONS
{
    .text : { KEEP(*(.vectors)) *(.text .text.*) *(.rodata .rodata.*) . = ALIGN(8); } >code
    .ARM.exidx : { *(.ARM.exidx .ARM.exidx.*) } >code
    .data : { . = ALIGN(8); data_start = .; *(.data .data.*) . = ALIGN(8); data_end = .; } >ram AT>code
    data_kept = LOADADDR(.data);
    .bss (NOLOAD) : { . = ALIGN(8); bss_start = .; *(.bss .bss.* COMMON) . = ALIGN(8); bss_end = .; } >ram
    heap_start = .;
    stack_top = ORIGIN(ram) + LENGTH(ram);
    heap_end = stack_top - 64K;
}
