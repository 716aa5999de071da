# The tables of a guest. Partition 1 has a radix tree of two levels, which leads the guest's first 2 MiB to the page at 200000.
# Comments have hexadecimal addresses, and bit 0 is the highest of a doubleword.

.equ table, 0x20000                     # the partition table: its address is a multiple of its size, 4 KiB
.equ page, 0x200000                     # the page, at a multiple of 2 MiB

.equ radix, 0x8000000000000000          # of a partition's entry, bit 0: its tables are a radix tree
.equ bits39, 0x2000000000000000         # of a partition's entry, bits 1:2 and 56:58 joined are 8: addresses have 31 + 8 bits

.equ valid, 0x8000000000000000          # of an entry of the tree, bit 0: the entry is valid
.equ leaf, 0x4000000000000000           # of an entry of the tree, bit 1: it gives a page; else it gives the next table
.equ used, 0x180                        # of a leaf, bits 55 and 56: the page was referenced and changed
.equ rights, 7                          # of a leaf, bits 60:63: not privileged; read; read and write; execute

.seg 0x10000
start:  addis r4,0,table@ha             # register 4 = the address of the partition table
        addi r4,r4,table@l
        mtspr 464,r4                    # PTCR: the table is there; its low five bits are 0, which is a table of 2^12 bytes
stay:   b stay

.seg table
        .space 16                       # partition 0: nothing
        .bedword radix+bits39+root+9    # partition 1: 39 bits, of which the root, with 2^9 entries, takes 9
        .bedword 0                      # partition 1 has no process table

.seg table+0x1000
root:   .bedword valid+second+9         # addresses 0 to 3FFFFFFF: the second table, which has 2^9 entries and takes 9 bits more
        .space root+4096-.              # the other 511 entries are not valid

.seg table+0x2000
second: .bedword valid+leaf+page+used+rights    # addresses 0 to 1FFFFF: 39 - 9 - 9 = 21 bits are left, so a page of 2 MiB
        .space second+4096-.            # the other 511 entries are not valid

.entry start
