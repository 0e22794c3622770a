/* Where QEMU's -kernel begins (multiboot, 32 bits, paging off): the first 4 GiB are mapped as they are, and main is called in 64 bits. */
        .set MAGIC, 0x1badb002
        .set FLAGS, 0
        .section .multiboot, "a"
        .align 4
        .long MAGIC, FLAGS, -(MAGIC + FLAGS)

        .section .text.start, "ax"
        .code32
        .globl start
start:
        cli
        mov $stack_top, %esp
        /* four tables of 512 pages of 2 MiB each */
        mov $pages, %edi
        mov $0x83, %eax
        xor %ecx, %ecx
1:      mov %eax, (%edi, %ecx, 8)
        movl $0, 4(%edi, %ecx, 8)
        add $0x200000, %eax
        inc %ecx
        cmp $2048, %ecx
        jne 1b
        mov $directories, %edi
        mov $(pages + 3), %eax
        xor %ecx, %ecx
2:      mov %eax, (%edi, %ecx, 8)
        add $0x1000, %eax
        inc %ecx
        cmp $4, %ecx
        jne 2b
        movl $(directories + 3), root
        mov $root, %eax
        mov %eax, %cr3
        /* physical address extension, and SSE */
        mov %cr4, %eax
        or $0x620, %eax
        mov %eax, %cr4
        /* long mode */
        mov $0xc0000080, %ecx
        rdmsr
        or $0x100, %eax
        wrmsr
        mov %cr0, %eax
        and $~4, %eax
        or $0x80000002, %eax
        mov %eax, %cr0
        lgdt descriptors
        ljmp $8, $long_mode

        .code64
long_mode:
        mov $16, %eax
        mov %eax, %ds
        mov %eax, %es
        mov %eax, %ss
        mov $stack_top, %rsp
        call main
3:      hlt
        jmp 3b

        .section .rodata
        .align 8
segments:
        .quad 0, 0x00af9a000000ffff, 0x00cf92000000ffff
descriptors:
        .word descriptors - segments - 1
        .quad segments

        .section .bss
        .align 4096
root:   .skip 4096
directories:
        .skip 4096
pages:  .skip 4 * 4096
