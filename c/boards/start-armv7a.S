/* Where a program for ARMv7-A begins, with the MMU off: the first processor makes a stack and clears .bss, and the others sleep. An
   access that isn't aligned is a fault, as on all memory while the MMU is off. Any fault ends the program. */
        .section .text.start, "ax"
        .globl start
        .arm
start:
        mrc p15, 0, r0, c0, c0, 5
        ands r0, r0, #0xff
        beq 1f
0:      wfi
        b 0b
1:      ldr sp, =stack_top
        ldr r0, =vectors
        mcr p15, 0, r0, c12, c0, 0
        mrc p15, 0, r0, c1, c0, 0
        orr r0, r0, #2
        mcr p15, 0, r0, c1, c0, 0
        isb
        ldr r0, =bss_start
        ldr r1, =bss_end
        mov r2, #0
2:      cmp r0, r1
        bhs 3f
        str r2, [r0], #4
        b 2b
3:      bl main

        .balign 32
vectors:
        .rept 8
        b 4f
        .endr
4:      ldr sp, =stack_top
        bl fault
