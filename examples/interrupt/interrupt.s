# Never returns.
        .globl  forever
forever:
        b       forever
