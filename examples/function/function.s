# sum(n): the sum of the numbers from 1 to n.
        .globl  sum
sum:
        li      r5, 0
next:   add     r5, r5, r3
        addic.  r3, r3, -1
        bc      4, 2, next      # while r3 isn't 0
        mr      r3, r5
        blr
