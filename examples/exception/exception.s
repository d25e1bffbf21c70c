# Loads a word from 0x02000000, where nothing lies.
        .globl  fault
fault:
        lis     r4, 0x200
        lwz     r5, 0(r4)
