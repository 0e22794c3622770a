/* Before each file of the library for Arm: no number of it is a floating one, and no enum that its callers see is less than four bytes
   wide (kelifandro.h). The linker is told so, and then takes the library into programs of either floating-point interface and of either
   size of enums ("ELF for the Arm Architecture": Tag_ABI_FP_number_model, Tag_ABI_enum_size). */
#ifndef __ASSEMBLER__
__asm__(".eabi_attribute 23, 0\n\t.eabi_attribute 26, 3");
#endif
