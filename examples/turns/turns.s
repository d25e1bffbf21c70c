# count(place): adds 1 to the word at a place, over and over.
        .globl  count
count:
        lwz     r5, 0(r3)
        addi    r5, r5, 1
        stw     r5, 0(r3)
        b       count
