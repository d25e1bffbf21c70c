# server(requests, answers): squares each word of one queue into the other.
        .globl  server
server:
        mr      r30, r3
        mr      r31, r4
next:   mr      r3, r30
        lis     r4, word@ha
        addi    r4, r4, word@l
        li      r5, 4
        li      r6, -1          # no end of the wait
        bla     msgQReceive
        lis     r4, word@ha
        lwz     r5, word@l(r4)
        mullw   r5, r5, r5
        stw     r5, word@l(r4)
        mr      r3, r31
        addi    r4, r4, word@l
        li      r5, 4
        li      r6, -1
        li      r7, 0           # not urgent
        bla     msgQSend
        b       next

        .data
word:   .long   0
