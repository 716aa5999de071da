# The hypervisor of examples/generated, whose guest 1 loads a doubleword twice. Written by tools/fixture.py. README.md goes through it.

# A hypervisor that runs two guests in turn. Each guest counts in its own memory and then calls the hypervisor, which shows a byte on the
# console and goes on with the other guest. Both guests use the same addresses, and each has its own memory behind them.
# README.md goes through it. Addresses in comments are hexadecimal, and bit 0 is the highest of a doubleword.

.equ table, 0x20000                     # the partition table: its address is a multiple of its size, 4 KiB
.equ first, 0x100000                    # where what belongs to guest 1 begins
.equ second, 0x200000                   # and to guest 2

.equ radix, 0x8000000000000000          # of a partition's entry, bit 0: its tables are a radix tree
.equ valid, 0x8000000000000000          # of a tree's entry, bit 0: the entry is valid
.equ leaf, 0x4000000000000000           # of a tree's entry, bit 1: it gives a page; else it gives the next table
.equ used, 0x180                        # of a leaf, bits 55 and 56: the page was referenced and changed
.equ rights, 7                          # of a leaf, bits 60:63: not privileged; read; read and write; execute
.equ page, valid+leaf+used+rights       # a leaf, to which the address of its page is added

# The handler. A guest's call of level 1 goes on here, in hypervisor state and with relocation off. Registers 20, 21, 22 and 24 are the
# hypervisor's; the guests leave them alone.
.seg 0xc00
called: mfspr r20,319                   # LPIDR: the number of the guest that called
        sync 2                          # all stores so far, those into tables too, are done before the next instruction
        tlbie r24,r20,0,0,1             # drops what is kept of the leaves of this partition's tree; register 24 says: of all its pages
        eieio                           # the tlbie comes before what follows,
        tlbsync                         # and has reached all threads
        sync 2                          # when this one ends
        addi r21,r21,1                  # counts the calls
        stb r21,0(r22)                  # shows the low byte of the count
        xori r20,r20,3                  # 1 becomes 2, and 2 becomes 1
        mtspr 319,r20                   # LPIDR: the other guest
        rfid                            # to the instruction behind the call, as that guest

# The start, in hypervisor state and with relocation off.
.seg 0x10000
start:  addis r4,0,2                    # register 4 = 20000, the partition table
        mtspr 464,r4                    # PTCR: the table is there; its low five bits are 0, which is a table of 2^12 bytes
        addi r4,0,1
        mtspr 319,r4                    # LPIDR: partition 1, which is guest 1
        mtspr 48,r4                     # PIDR: process 1
        addis r22,0,4096                # register 22 = 10000000: a byte that is stored there is shown
        addi r24,0,2048                 # register 24 = 800: for tlbie, bits 52:53 are 2, all of a partition
        addi r5,0,20480                 # register 5 = 5000
        mtspr 314,r5                    # HSRR0: a guest begins at its address 5000
        addis r6,0,-32768               # register 6 = FFFFFFFF80000000
        rldicr r6,r6,32,31              # register 6 = 8000000000000000
        ori r6,r6,4147                  # register 6 = 8000000000001033
        mtspr 315,r6                    # HSRR1: SF, ME, IR, DR, RI and LE are 1; HV and PR are 0
        addis r7,0,592                  # register 7 = 2500000
        ori r7,r7,1024                  # register 7 = 2500400
        mtspr 318,r7                    # LPCR: as at reset, and GTSE, bit 53, is 1: guests may use tlbie for their own tables
        hrfid                           # goes on at HSRR0 with the machine state of HSRR1: in guest 1

# The partition table: an entry of two doublewords for each partition. The second one says where its process table is: at the guest's
# address 0, in 2^12 bytes.
.seg table
        .bedword 0                      # partition 0, the hypervisor's: nothing
        .bedword 0
        .bedword radix+first+10         # partition 1: 31 bits of addresses, of which the root at 100000, with 2^10 entries, takes 10
        .bedword 0
        .bedword radix+second+10        # partition 2: the same, with the root at 200000
        .bedword 0

# The tree of guest 1: it leads the addresses of the guest to real ones. The root takes the highest 10 of 31 bits, and the table behind
# it the next 9, so 12 are left: pages of 4 KiB.
.equ home1, first+0x10000               # the guest's address 0 is the real address 110000

.seg first
root1:  .bedword valid+pages1+9         # addresses 0 to 1FFFFF: the table at 102000, which has 2^9 entries
        .space root1+8192-.             # the other 1,023 entries are not valid

# The table behind it: the 128 pages of the guest, one behind another.
pages1: .bedword page+home1+0x00000     # the guest's addresses 0 to FFF: the page at 110000
        .bedword page+home1+0x01000     # 1000 to 1FFF: the page at 111000, and so on
        .bedword page+home1+0x02000
        .bedword page+home1+0x03000
        .bedword page+home1+0x04000
        .bedword page+home1+0x05000
        .bedword page+home1+0x06000
        .bedword page+home1+0x07000
        .bedword page+home1+0x08000
        .bedword page+home1+0x09000
        .bedword page+home1+0x0a000
        .bedword page+home1+0x0b000
        .bedword page+home1+0x0c000
        .bedword page+home1+0x0d000
        .bedword page+home1+0x0e000
        .bedword page+home1+0x0f000
        .bedword page+home1+0x10000     # 10000: the page in which the guest counts
        .bedword page+home1+0x11000
        .bedword page+home1+0x12000
        .bedword page+home1+0x13000
        .bedword page+home1+0x14000
        .bedword page+home1+0x15000
        .bedword page+home1+0x16000
        .bedword page+home1+0x17000
        .bedword page+home1+0x18000
        .bedword page+home1+0x19000
        .bedword page+home1+0x1a000
        .bedword page+home1+0x1b000
        .bedword page+home1+0x1c000
        .bedword page+home1+0x1d000
        .bedword page+home1+0x1e000
        .bedword page+home1+0x1f000
        .bedword page+home1+0x20000
        .bedword page+home1+0x21000
        .bedword page+home1+0x22000
        .bedword page+home1+0x23000
        .bedword page+home1+0x24000
        .bedword page+home1+0x25000
        .bedword page+home1+0x26000
        .bedword page+home1+0x27000
        .bedword page+home1+0x28000
        .bedword page+home1+0x29000
        .bedword page+home1+0x2a000
        .bedword page+home1+0x2b000
        .bedword page+home1+0x2c000
        .bedword page+home1+0x2d000
        .bedword page+home1+0x2e000
        .bedword page+home1+0x2f000
        .bedword page+home1+0x30000
        .bedword page+home1+0x31000
        .bedword page+home1+0x32000
        .bedword page+home1+0x33000
        .bedword page+home1+0x34000
        .bedword page+home1+0x35000
        .bedword page+home1+0x36000
        .bedword page+home1+0x37000
        .bedword page+home1+0x38000
        .bedword page+home1+0x39000
        .bedword page+home1+0x3a000
        .bedword page+home1+0x3b000
        .bedword page+home1+0x3c000
        .bedword page+home1+0x3d000
        .bedword page+home1+0x3e000
        .bedword page+home1+0x3f000
        .bedword page+home1+0x40000
        .bedword page+home1+0x41000
        .bedword page+home1+0x42000
        .bedword page+home1+0x43000
        .bedword page+home1+0x44000
        .bedword page+home1+0x45000
        .bedword page+home1+0x46000
        .bedword page+home1+0x47000
        .bedword page+home1+0x48000
        .bedword page+home1+0x49000
        .bedword page+home1+0x4a000
        .bedword page+home1+0x4b000
        .bedword page+home1+0x4c000
        .bedword page+home1+0x4d000
        .bedword page+home1+0x4e000
        .bedword page+home1+0x4f000
        .bedword page+home1+0x50000
        .bedword page+home1+0x51000
        .bedword page+home1+0x52000
        .bedword page+home1+0x53000
        .bedword page+home1+0x54000
        .bedword page+home1+0x55000
        .bedword page+home1+0x56000
        .bedword page+home1+0x57000
        .bedword page+home1+0x58000
        .bedword page+home1+0x59000
        .bedword page+home1+0x5a000
        .bedword page+home1+0x5b000
        .bedword page+home1+0x5c000
        .bedword page+home1+0x5d000
        .bedword page+home1+0x5e000
        .bedword page+home1+0x5f000
        .bedword page+home1+0x60000
        .bedword page+home1+0x61000
        .bedword page+home1+0x62000
        .bedword page+home1+0x63000
        .bedword page+home1+0x64000
        .bedword page+home1+0x65000
        .bedword page+home1+0x66000
        .bedword page+home1+0x67000
        .bedword page+home1+0x68000
        .bedword page+home1+0x69000
        .bedword page+home1+0x6a000
        .bedword page+home1+0x6b000
        .bedword page+home1+0x6c000
        .bedword page+home1+0x6d000
        .bedword page+home1+0x6e000
        .bedword page+home1+0x6f000
        .bedword page+home1+0x70000
        .bedword page+home1+0x71000
        .bedword page+home1+0x72000
        .bedword page+home1+0x73000
        .bedword page+home1+0x74000
        .bedword page+home1+0x75000
        .bedword page+home1+0x76000
        .bedword page+home1+0x77000
        .bedword page+home1+0x78000
        .bedword page+home1+0x79000
        .bedword page+home1+0x7a000
        .bedword page+home1+0x7b000
        .bedword page+home1+0x7c000
        .bedword page+home1+0x7d000
        .bedword page+home1+0x7e000
        .bedword page+home1+0x7f000     # the guest's addresses 7F000 to 7FFFF: the page at 18F000
        .space pages1+4096-.            # the other 384 entries are not valid

# Pages 0 to 5 of guest 1: its own tables and its code. The addresses that its tables name are its own, which begin with 0 here.
.seg home1
proc1:  .bedword 0                      # the process table, two doublewords for each process: process 0 has no tables
        .bedword 0
        .bedword top1-proc1+10          # process 1: 31 bits of addresses, of which the root at 2000, with 2^10 entries, takes 10
        .space proc1+8192-.             # its second doubleword, which is 0; and no other process has tables

top1:   .bedword valid+low1-proc1+9     # addresses 0 to 1FFFFF: the table at 4000, which has 2^9 entries
        .space top1+8192-.              # the other 1,023 entries are not valid

# The guest's table of pages: each of 128 pages at the same address, so the process sees what the guest sees.
low1:   .bedword page+0x00000           # addresses 0 to FFF: the guest's page at 0
        .bedword page+0x01000           # 1000 to 1FFF: the page at 1000, and so on
        .bedword page+0x02000
        .bedword page+0x03000
        .bedword page+0x04000
        .bedword page+0x05000           # 5000: the code
        .bedword page+0x06000
        .bedword page+0x07000
        .bedword page+0x08000
        .bedword page+0x09000
        .bedword page+0x0a000
        .bedword page+0x0b000
        .bedword page+0x0c000
        .bedword page+0x0d000
        .bedword page+0x0e000
        .bedword page+0x0f000
        .bedword page+0x10000           # 10000: the page in which the guest counts
        .bedword page+0x11000
        .bedword page+0x12000
        .bedword page+0x13000
        .bedword page+0x14000
        .bedword page+0x15000
        .bedword page+0x16000
        .bedword page+0x17000
        .bedword page+0x18000
        .bedword page+0x19000
        .bedword page+0x1a000
        .bedword page+0x1b000
        .bedword page+0x1c000
        .bedword page+0x1d000
        .bedword page+0x1e000
        .bedword page+0x1f000
        .bedword page+0x20000
        .bedword page+0x21000
        .bedword page+0x22000
        .bedword page+0x23000
        .bedword page+0x24000
        .bedword page+0x25000
        .bedword page+0x26000
        .bedword page+0x27000
        .bedword page+0x28000
        .bedword page+0x29000
        .bedword page+0x2a000
        .bedword page+0x2b000
        .bedword page+0x2c000
        .bedword page+0x2d000
        .bedword page+0x2e000
        .bedword page+0x2f000
        .bedword page+0x30000
        .bedword page+0x31000
        .bedword page+0x32000
        .bedword page+0x33000
        .bedword page+0x34000
        .bedword page+0x35000
        .bedword page+0x36000
        .bedword page+0x37000
        .bedword page+0x38000
        .bedword page+0x39000
        .bedword page+0x3a000
        .bedword page+0x3b000
        .bedword page+0x3c000
        .bedword page+0x3d000
        .bedword page+0x3e000
        .bedword page+0x3f000
        .bedword page+0x40000
        .bedword page+0x41000
        .bedword page+0x42000
        .bedword page+0x43000
        .bedword page+0x44000
        .bedword page+0x45000
        .bedword page+0x46000
        .bedword page+0x47000
        .bedword page+0x48000
        .bedword page+0x49000
        .bedword page+0x4a000
        .bedword page+0x4b000
        .bedword page+0x4c000
        .bedword page+0x4d000
        .bedword page+0x4e000
        .bedword page+0x4f000
        .bedword page+0x50000
        .bedword page+0x51000
        .bedword page+0x52000
        .bedword page+0x53000
        .bedword page+0x54000
        .bedword page+0x55000
        .bedword page+0x56000
        .bedword page+0x57000
        .bedword page+0x58000
        .bedword page+0x59000
        .bedword page+0x5a000
        .bedword page+0x5b000
        .bedword page+0x5c000
        .bedword page+0x5d000
        .bedword page+0x5e000
        .bedword page+0x5f000
        .bedword page+0x60000
        .bedword page+0x61000
        .bedword page+0x62000
        .bedword page+0x63000
        .bedword page+0x64000
        .bedword page+0x65000
        .bedword page+0x66000
        .bedword page+0x67000
        .bedword page+0x68000
        .bedword page+0x69000
        .bedword page+0x6a000
        .bedword page+0x6b000
        .bedword page+0x6c000
        .bedword page+0x6d000
        .bedword page+0x6e000
        .bedword page+0x6f000
        .bedword page+0x70000
        .bedword page+0x71000
        .bedword page+0x72000
        .bedword page+0x73000
        .bedword page+0x74000
        .bedword page+0x75000
        .bedword page+0x76000
        .bedword page+0x77000
        .bedword page+0x78000
        .bedword page+0x79000
        .bedword page+0x7a000
        .bedword page+0x7b000
        .bedword page+0x7c000
        .bedword page+0x7d000
        .bedword page+0x7e000
        .bedword page+0x7f000           # 7F000 to 7FFFF: the page at 7F000
        .space low1+4096-.              # the other 384 entries are not valid

# The code of guest 1, at its address 5000. Register 12 is 10000 since the reset.
count1: ld r7,0(r12)                    # the doubleword at the guest's address 10000, which is 11
        ld r7,0(r12)                    # and once more
        .space count1+4096-.            # the rest of the page

# The tree of guest 2: it leads the addresses of the guest to real ones. The root takes the highest 10 of 31 bits, and the table behind
# it the next 9, so 12 are left: pages of 4 KiB.
.equ home2, second+0x10000              # the guest's address 0 is the real address 210000

.seg second
root2:  .bedword valid+pages2+9         # addresses 0 to 1FFFFF: the table at 202000, which has 2^9 entries
        .space root2+8192-.             # the other 1,023 entries are not valid

# The table behind it: the 128 pages of the guest, one behind another.
pages2: .bedword page+home2+0x00000     # the guest's addresses 0 to FFF: the page at 210000
        .bedword page+home2+0x01000     # 1000 to 1FFF: the page at 211000, and so on
        .bedword page+home2+0x02000
        .bedword page+home2+0x03000
        .bedword page+home2+0x04000
        .bedword page+home2+0x05000
        .bedword page+home2+0x06000
        .bedword page+home2+0x07000
        .bedword page+home2+0x08000
        .bedword page+home2+0x09000
        .bedword page+home2+0x0a000
        .bedword page+home2+0x0b000
        .bedword page+home2+0x0c000
        .bedword page+home2+0x0d000
        .bedword page+home2+0x0e000
        .bedword page+home2+0x0f000
        .bedword page+home2+0x10000     # 10000: the page in which the guest counts
        .bedword page+home2+0x11000
        .bedword page+home2+0x12000
        .bedword page+home2+0x13000
        .bedword page+home2+0x14000
        .bedword page+home2+0x15000
        .bedword page+home2+0x16000
        .bedword page+home2+0x17000
        .bedword page+home2+0x18000
        .bedword page+home2+0x19000
        .bedword page+home2+0x1a000
        .bedword page+home2+0x1b000
        .bedword page+home2+0x1c000
        .bedword page+home2+0x1d000
        .bedword page+home2+0x1e000
        .bedword page+home2+0x1f000
        .bedword page+home2+0x20000
        .bedword page+home2+0x21000
        .bedword page+home2+0x22000
        .bedword page+home2+0x23000
        .bedword page+home2+0x24000
        .bedword page+home2+0x25000
        .bedword page+home2+0x26000
        .bedword page+home2+0x27000
        .bedword page+home2+0x28000
        .bedword page+home2+0x29000
        .bedword page+home2+0x2a000
        .bedword page+home2+0x2b000
        .bedword page+home2+0x2c000
        .bedword page+home2+0x2d000
        .bedword page+home2+0x2e000
        .bedword page+home2+0x2f000
        .bedword page+home2+0x30000
        .bedword page+home2+0x31000
        .bedword page+home2+0x32000
        .bedword page+home2+0x33000
        .bedword page+home2+0x34000
        .bedword page+home2+0x35000
        .bedword page+home2+0x36000
        .bedword page+home2+0x37000
        .bedword page+home2+0x38000
        .bedword page+home2+0x39000
        .bedword page+home2+0x3a000
        .bedword page+home2+0x3b000
        .bedword page+home2+0x3c000
        .bedword page+home2+0x3d000
        .bedword page+home2+0x3e000
        .bedword page+home2+0x3f000
        .bedword page+home2+0x40000
        .bedword page+home2+0x41000
        .bedword page+home2+0x42000
        .bedword page+home2+0x43000
        .bedword page+home2+0x44000
        .bedword page+home2+0x45000
        .bedword page+home2+0x46000
        .bedword page+home2+0x47000
        .bedword page+home2+0x48000
        .bedword page+home2+0x49000
        .bedword page+home2+0x4a000
        .bedword page+home2+0x4b000
        .bedword page+home2+0x4c000
        .bedword page+home2+0x4d000
        .bedword page+home2+0x4e000
        .bedword page+home2+0x4f000
        .bedword page+home2+0x50000
        .bedword page+home2+0x51000
        .bedword page+home2+0x52000
        .bedword page+home2+0x53000
        .bedword page+home2+0x54000
        .bedword page+home2+0x55000
        .bedword page+home2+0x56000
        .bedword page+home2+0x57000
        .bedword page+home2+0x58000
        .bedword page+home2+0x59000
        .bedword page+home2+0x5a000
        .bedword page+home2+0x5b000
        .bedword page+home2+0x5c000
        .bedword page+home2+0x5d000
        .bedword page+home2+0x5e000
        .bedword page+home2+0x5f000
        .bedword page+home2+0x60000
        .bedword page+home2+0x61000
        .bedword page+home2+0x62000
        .bedword page+home2+0x63000
        .bedword page+home2+0x64000
        .bedword page+home2+0x65000
        .bedword page+home2+0x66000
        .bedword page+home2+0x67000
        .bedword page+home2+0x68000
        .bedword page+home2+0x69000
        .bedword page+home2+0x6a000
        .bedword page+home2+0x6b000
        .bedword page+home2+0x6c000
        .bedword page+home2+0x6d000
        .bedword page+home2+0x6e000
        .bedword page+home2+0x6f000
        .bedword page+home2+0x70000
        .bedword page+home2+0x71000
        .bedword page+home2+0x72000
        .bedword page+home2+0x73000
        .bedword page+home2+0x74000
        .bedword page+home2+0x75000
        .bedword page+home2+0x76000
        .bedword page+home2+0x77000
        .bedword page+home2+0x78000
        .bedword page+home2+0x79000
        .bedword page+home2+0x7a000
        .bedword page+home2+0x7b000
        .bedword page+home2+0x7c000
        .bedword page+home2+0x7d000
        .bedword page+home2+0x7e000
        .bedword page+home2+0x7f000     # the guest's addresses 7F000 to 7FFFF: the page at 28F000
        .space pages2+4096-.            # the other 384 entries are not valid

# Pages 0 to 5 of guest 2: its own tables and its code. The addresses that its tables name are its own, which begin with 0 here.
.seg home2
proc2:  .bedword 0                      # the process table, two doublewords for each process: process 0 has no tables
        .bedword 0
        .bedword top2-proc2+10          # process 1: 31 bits of addresses, of which the root at 2000, with 2^10 entries, takes 10
        .space proc2+8192-.             # its second doubleword, which is 0; and no other process has tables

top2:   .bedword valid+low2-proc2+9     # addresses 0 to 1FFFFF: the table at 4000, which has 2^9 entries
        .space top2+8192-.              # the other 1,023 entries are not valid

# The guest's table of pages: each of 128 pages at the same address, so the process sees what the guest sees.
low2:   .bedword page+0x00000           # addresses 0 to FFF: the guest's page at 0
        .bedword page+0x01000           # 1000 to 1FFF: the page at 1000, and so on
        .bedword page+0x02000
        .bedword page+0x03000
        .bedword page+0x04000
        .bedword page+0x05000           # 5000: the code
        .bedword page+0x06000
        .bedword page+0x07000
        .bedword page+0x08000
        .bedword page+0x09000
        .bedword page+0x0a000
        .bedword page+0x0b000
        .bedword page+0x0c000
        .bedword page+0x0d000
        .bedword page+0x0e000
        .bedword page+0x0f000
        .bedword page+0x10000           # 10000: the page in which the guest counts
        .bedword page+0x11000
        .bedword page+0x12000
        .bedword page+0x13000
        .bedword page+0x14000
        .bedword page+0x15000
        .bedword page+0x16000
        .bedword page+0x17000
        .bedword page+0x18000
        .bedword page+0x19000
        .bedword page+0x1a000
        .bedword page+0x1b000
        .bedword page+0x1c000
        .bedword page+0x1d000
        .bedword page+0x1e000
        .bedword page+0x1f000
        .bedword page+0x20000
        .bedword page+0x21000
        .bedword page+0x22000
        .bedword page+0x23000
        .bedword page+0x24000
        .bedword page+0x25000
        .bedword page+0x26000
        .bedword page+0x27000
        .bedword page+0x28000
        .bedword page+0x29000
        .bedword page+0x2a000
        .bedword page+0x2b000
        .bedword page+0x2c000
        .bedword page+0x2d000
        .bedword page+0x2e000
        .bedword page+0x2f000
        .bedword page+0x30000
        .bedword page+0x31000
        .bedword page+0x32000
        .bedword page+0x33000
        .bedword page+0x34000
        .bedword page+0x35000
        .bedword page+0x36000
        .bedword page+0x37000
        .bedword page+0x38000
        .bedword page+0x39000
        .bedword page+0x3a000
        .bedword page+0x3b000
        .bedword page+0x3c000
        .bedword page+0x3d000
        .bedword page+0x3e000
        .bedword page+0x3f000
        .bedword page+0x40000
        .bedword page+0x41000
        .bedword page+0x42000
        .bedword page+0x43000
        .bedword page+0x44000
        .bedword page+0x45000
        .bedword page+0x46000
        .bedword page+0x47000
        .bedword page+0x48000
        .bedword page+0x49000
        .bedword page+0x4a000
        .bedword page+0x4b000
        .bedword page+0x4c000
        .bedword page+0x4d000
        .bedword page+0x4e000
        .bedword page+0x4f000
        .bedword page+0x50000
        .bedword page+0x51000
        .bedword page+0x52000
        .bedword page+0x53000
        .bedword page+0x54000
        .bedword page+0x55000
        .bedword page+0x56000
        .bedword page+0x57000
        .bedword page+0x58000
        .bedword page+0x59000
        .bedword page+0x5a000
        .bedword page+0x5b000
        .bedword page+0x5c000
        .bedword page+0x5d000
        .bedword page+0x5e000
        .bedword page+0x5f000
        .bedword page+0x60000
        .bedword page+0x61000
        .bedword page+0x62000
        .bedword page+0x63000
        .bedword page+0x64000
        .bedword page+0x65000
        .bedword page+0x66000
        .bedword page+0x67000
        .bedword page+0x68000
        .bedword page+0x69000
        .bedword page+0x6a000
        .bedword page+0x6b000
        .bedword page+0x6c000
        .bedword page+0x6d000
        .bedword page+0x6e000
        .bedword page+0x6f000
        .bedword page+0x70000
        .bedword page+0x71000
        .bedword page+0x72000
        .bedword page+0x73000
        .bedword page+0x74000
        .bedword page+0x75000
        .bedword page+0x76000
        .bedword page+0x77000
        .bedword page+0x78000
        .bedword page+0x79000
        .bedword page+0x7a000
        .bedword page+0x7b000
        .bedword page+0x7c000
        .bedword page+0x7d000
        .bedword page+0x7e000
        .bedword page+0x7f000           # 7F000 to 7FFFF: the page at 7F000
        .space low2+4096-.              # the other 384 entries are not valid

# The code of guest 2, at its address 5000. Guest 2 begins at its branch, the address behind guest 1's first call.
count2: addis r6,0,1                    # register 6 = 10000: page 16, behind the pages of the tables and the code
        ori r6,r6,0
        ld r7,0(r6)                     # the doubleword there becomes 1 more
        addi r7,r7,1
        std r7,0(r6)
        sc 1                            # calls the hypervisor
        b count2                        # where the guest goes on when its turn comes again
        .space count2+4096-.            # the rest of the page

# Two doublewords of guest 1, in its pages at 10000 and 11000.
.seg 0x120000
        .dword 0x11
.seg 0x121000
        .dword 0x22

.entry start
