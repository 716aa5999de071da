# A sum, and a loop on the spot.
.seg 0x10000
e:  addi r3,0,1
    add r4,r3,r3
    b .+0
.entry e
