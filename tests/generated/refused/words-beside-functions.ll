module asm "nop" ; refused
