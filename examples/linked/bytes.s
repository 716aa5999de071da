# Shows its own code, data and zeros on the console, byte by byte, and stops the machine. No stack is used.

    .text
    .globl text_start
text_start:
    .globl _start
_start:
    lis     31, 0x1000              # the console at 10000000, and behind it at 10001000 what stops the machine
0:  addis   2, 12, .TOC.-text_start@ha
    addi    2, 2, .TOC.-text_start@l
    addis   3, 2, text_start@toc@ha
    addi    3, 3, text_start@toc@l
    addis   4, 2, _etext@toc@ha
    addi    4, 4, _etext@toc@l
    bl      show
    addis   3, 2, data_start@toc@ha
    addi    3, 3, data_start@toc@l
    addis   4, 2, _edata@toc@ha
    addi    4, 4, _edata@toc@l
    bl      show
    addis   3, 2, __bss_start@toc@ha
    addi    3, 3, __bss_start@toc@l
    addis   4, 2, _end@toc@ha
    addi    4, 4, _end@toc@l
    bl      show
    stb     3, 0x1000(31)

# Shows the bytes from the address in register 3 up to that in register 4.
show:
    cmpld   3, 4
    beqlr
    lbz     5, 0(3)
    stb     5, 0(31)
    addi    3, 3, 1
    b       show

    .data
    .globl data_start
data_start:
    .ascii  "hello, from the data\n"

    .bss
    .space  64
