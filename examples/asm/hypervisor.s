# A small hypervisor. It tells the processor where the tables are and which partition runs, enters a guest, shows the byte that the
# guest hands over by a system call, and stops the machine. Comments have hexadecimal addresses.

.equ console, 0x10000000                # a byte that is stored here is shown
.equ control, 0x10001000                # a store here stops the machine
.equ table, 0x20000                     # the partition table
.equ page, 0x200000                     # the page of the guest, at a multiple of 2 MiB
.equ radix, 0x8000000000000000          # bit 0 of a partition's entry: its tables are a radix tree

# The hypervisor begins here, with relocation off.
.seg 0x10000
start:  addis r4,0,table@ha             # PTCR, 464: the partition table
        addi r4,r4,table@l
        mtspr 464,r4
        addi r4,0,1                     # LPIDR, 319: partition 1
        mtspr 319,r4
        addi r4,0,guest-page            # HSRR0, 314: where the guest begins, in its own addresses
        mtspr 314,r4
        addis r4,0,state@ha             # HSRR1, 315: the guest's machine state
        ld r4,state@l(r4)
        mtspr 315,r4
        hrfid                           # enters the guest
        .align 8
state:  .dword 0x8000000000001001       # SF, ME and LE are 1; HV, IR and DR are 0

# A system call of level 1 goes on here, in hypervisor state.
.seg 0xc00
called: addis r5,0,console@ha
        stb r3,console@l(r5)            # shows the low byte of register 3
        addis r5,0,control@ha
        stb r3,control@l(r5)            # stops the machine
        b .

# The partition table: partition 1 has 31 bits of addresses, of which its root takes 10.
.seg table
        .space 16                       # partition 0: nothing
        .bedword radix+root+10          # partition 1: its root has 2^10 entries
        .bedword 0                      # it has no process table

# The root. Its first entry is a leaf, which leaves 21 bits: a page of 2 MiB.
.seg table+0x2000
root:   .bedword page+0xc000000000000187        # valid, a leaf; referenced and changed; read, write and execute
        .space root+8192-.              # the other 1,023 entries are not valid

# The guest. Its address 0 is the page's first byte, so it begins at 100.
.seg page+0x100
guest:  addi r3,0,71                    # the letter G
        sc 1                            # asks the hypervisor
        b .

.entry start
