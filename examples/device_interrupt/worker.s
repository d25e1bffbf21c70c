# worker(s): takes the semaphore again and again, and adds 1 to the counter in slot 2 each time.
        .globl  worker
worker:
        mr      r31, r3
        lis     r30, semTake@ha
        addi    r30, r30, semTake@l
next:   mtspr   9, r30         # CTR
        mr      r3, r31
        li      r4, -1          # no end of the wait
        bcctrl  20, 0
        lis     r5, 0xe000
        li      r6, 1
        stw     r6, 0x2000(r5)
        b       next
