/* MPS2's SSRAM for code, and its PSRAM, where the card in memory has room (AN386, as AN385, section 2). */
ENTRY(reset)
SECTIONS
{
    . = 0;
    .text : { KEEP(*(.vectors)) *(.text .text.*) *(.rodata .rodata.*) }
    .ARM.exidx : { *(.ARM.exidx*) . = ALIGN(4); }
    data_from = .;
    . = 0x21000000;
    .data : AT(data_from) { data_start = .; *(.data .data.*) . = ALIGN(4); data_end = .; }
    .bss : { bss_start = .; *(.bss .bss.*) *(COMMON) . = ALIGN(8); bss_end = .; }
    . = . + 0x8000;
    stack_top = .;
}
