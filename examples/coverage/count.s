# count(n): 1 + 2 + .. + n, by a loop; -1 if that is 0.
        .globl  count
count:
        li      r4, 0
again:
        add     r4, r4, r3
        addi    r3, r3, -1
        cmpwi   0, r3, 0
        bc      4, 2, again
        cmpwi   0, r4, 0
        bc      4, 2, done
        li      r4, -1
done:
        mr      r3, r4
        blr
