/* Where a program for RISC-V begins, of 64 or 32 bits, in machine mode: the first hart makes a stack and clears .bss, and the others
   sleep. Any fault ends the program. */
        .option arch, +zicsr
        .section .text.start, "ax"
        .globl start
start:
        csrr t0, mhartid
        bnez t0, 3f
        la sp, stack_top
        la t0, 4f
        csrw mtvec, t0
        la t0, bss_start
        la t1, bss_end
1:      bgeu t0, t1, 2f
        sw zero, 0(t0)
        addi t0, t0, 4
        j 1b
2:      call main
3:      wfi
        j 3b

        .balign 4
4:      la sp, stack_top
        call fault
