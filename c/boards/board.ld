/* The whole program from `base` on, which the build tells, and a stack of 64 KiB after it. */
ENTRY(start)
SECTIONS
{
    . = base;
    .text : { KEEP(*(.multiboot)) KEEP(*(.text.start)) *(.text .text.*) }
    .rodata : { *(.rodata .rodata.*) }
    .data : { *(.data .data.* .sdata .sdata.*) }
    . = ALIGN(16);
    .bss : { bss_start = .; *(.sbss .sbss.* .bss .bss.*) *(COMMON) . = ALIGN(16); bss_end = .; . = . + 0x10000; stack_top = .; }
    /DISCARD/ : { *(.note*) *(.comment) *(.eh_frame*) *(.ARM.exidx* .ARM.extab*) }
}
