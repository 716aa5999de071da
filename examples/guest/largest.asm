# A guest behind the largest trees: 52 bits of addresses, four levels in either tree, pages of 4 KiB. Its first instruction is fetched
# through 36 words of tables. Written by tools/fixture.py. README.md goes through it. Addresses in comments are hexadecimal.

.equ valid, 0x8000000000000000          # of a tree's entry, bit 0: the entry is valid
.equ leaf, 0x4000000000000000           # of a tree's entry, bit 1: it gives a page; else it gives the next table
.equ page, valid+leaf+0x187             # a leaf: referenced and changed; read, read and write, execute
.equ radix, 0x8000000000000000          # of a partition's entry, bit 0: its tables are a radix tree
.equ wide, 0x40000000000000a0           # of an entry with a root, bits 1:2 and 56:58: the tree has 21 + 31 = 52 bits

# The start, in hypervisor state and with relocation off.
.seg 0x10000
start:  addis r4,0,2                    # register 4 = 20000, the partition table
        mtspr 464,r4                    # PTCR: the table is there; its low five bits are 0, which is a table of 2^12 bytes
        addi r4,0,1
        mtspr 319,r4                    # LPIDR: partition 1, which is guest 1
        mtspr 48,r4                     # PIDR: process 1
        addis r22,0,4096                # register 22 = 10000000: a byte that is stored there is shown
        addi r24,0,2048                 # register 24 = 800: for tlbie, bits 52:53 are 2, all of a partition
        addi r5,0,20480                 # register 5 = 5000
        mtspr 314,r5                    # HSRR0: a guest begins at its address 5000
        addis r6,0,-32768               # register 6 = FFFFFFFF80000000
        rldicr r6,r6,32,31              # register 6 = 8000000000000000
        ori r6,r6,4147                  # register 6 = 8000000000001033
        mtspr 315,r6                    # HSRR1: SF, ME, IR, DR, RI and LE are 1; HV and PR are 0
        addis r7,0,592                  # register 7 = 2500000
        ori r7,r7,1024                  # register 7 = 2500400
        mtspr 318,r7                    # LPCR: as at reset, and GTSE, bit 53, is 1: guests may use tlbie for their own tables
        hrfid                           # goes on at HSRR0 with the machine state of HSRR1: in guest 1

# Partition 1. Only what the guest needs is written; all other entries are zeros, which is not valid.
.seg 0x20010
        .bedword radix+wide+0x400000+13 # 52 bits of addresses, of which the root at 400000, with 2^13 entries, takes 13
        .bedword 0                      # the process table is at the guest's address 0, in 2^12 bytes

# Its tree. Each table's first entry leads to the next, so the guest has the addresses 0 to 1FFFFF.
.seg 0x400000
        .bedword valid+0x410000+9       # level 1, 39 bits are left: the table at 410000, which has 2^9 entries
.seg 0x410000
        .bedword valid+0x411000+9       # level 2, 30 bits are left: the table at 411000
.seg 0x411000
        .bedword valid+0x412000+9       # level 3, 21 bits are left: the table at 412000
.seg 0x412000
last:   .bedword page+0x500000          # level 4, 12 bits are left: the guest's addresses 0 to FFF are the page at 500000
        .space last+0x28-.
        .bedword page+0x505000          # 5000: the code
        .space last+0x80-.
        .bedword page+0x510000          # 10000: the root of the process
        .space last+0x100-.
        .bedword page+0x520000          # 20000, 21000 and 22000: its tables of level 2, 3 and 4
        .bedword page+0x521000
        .bedword page+0x522000

# The guest's own tables. The addresses that they name are the guest's.
.seg 0x500010
        .bedword wide+0x10000+13        # process 1: 52 bits of addresses, of which the root at 10000, with 2^13 entries, takes 13
        .bedword 0
.seg 0x510000
        .bedword valid+0x20000+9        # level 1: the table at 20000, which has 2^9 entries
.seg 0x520000
        .bedword valid+0x21000+9        # level 2: the table at 21000
.seg 0x521000
        .bedword valid+0x22000+9        # level 3: the table at 22000
.seg 0x522028
        .bedword page+0x5000            # level 4, entry 5: the address 5000 is the guest's page at 5000

# The guest's code, at its address 5000.
.seg 0x505000
        b .                             # for ever

.entry start
