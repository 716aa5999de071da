# Where a program of C begins. The machine starts it with its entry in register 12, and zeros in RAM.

    .text
    .globl text_start
text_start:
    .globl _start
_start:
0:  addis   2, 12, .TOC.-0b@ha      # what register 2 has to be for code in C
    addi    2, 2, .TOC.-0b@l
    lis     1, 0xf0                 # the stack grows down from 15 MiB
    bl      show_all
    nop
1:  b       1b                      # show_all stops the machine, so this is not reached

    .data
    .globl data_start
data_start:
