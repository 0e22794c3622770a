/* Where a program for aarch64 begins, at any exception level, with the MMU off: the first processor makes a stack and clears .bss, and
   the others sleep. An access that isn't aligned is a fault, as on all memory while the MMU is off. Any fault ends the program. */
        .section .text.start, "ax"
        .globl start
start:
        mrs x0, mpidr_el1
        and x0, x0, #0xff
        cbz x0, 1f
0:      wfe
        b 0b
1:      ldr x0, =stack_top
        mov sp, x0
        ldr x1, =vectors
        mrs x0, CurrentEL
        lsr x0, x0, #2
        cmp x0, #2
        b.eq 2f
        b.hi 3f
        msr vbar_el1, x1
        mrs x0, sctlr_el1
        orr x0, x0, #2
        msr sctlr_el1, x0
        b 4f
2:      msr vbar_el2, x1
        mrs x0, sctlr_el2
        orr x0, x0, #2
        msr sctlr_el2, x0
        b 4f
3:      msr vbar_el3, x1
        mrs x0, sctlr_el3
        orr x0, x0, #2
        msr sctlr_el3, x0
4:      isb
        ldr x0, =bss_start
        ldr x1, =bss_end
5:      cmp x0, x1
        b.hs 6f
        str xzr, [x0], #8
        b 5b
6:      bl main

        .balign 2048
vectors:
        .rept 16
        .balign 128
        b fault
        .endr
