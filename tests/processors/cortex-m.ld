/* Code from `code` on, which begins with the vectors; the rest from `data` on, where QEMU puts it: nothing has to be copied. */
ENTRY(reset)
SECTIONS
{
    . = code;
    .text : { KEEP(*(.vectors)) *(.text .text.*) *(.rodata .rodata.*) *(.init) *(.fini) }
    .ARM.exidx : { __exidx_start = .; *(.ARM.exidx*) __exidx_end = .; }
    .init_array : { __init_array_start = .; KEEP(*(.init_array*)) __init_array_end = .; }
    . = data;
    .data : { *(.data .data.*) }
    .bss : { bss_start = .; *(.bss .bss.*) *(COMMON) . = ALIGN(8); bss_end = .; }
    end = .;
    __end__ = .;
    . = . + 0x20000;
    __heap_limit = .;
    __HeapLimit = .;
    . = . + 0x10000;
    stack_top = .;
    __stack = .;
}
