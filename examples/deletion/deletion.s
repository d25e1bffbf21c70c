# A task that is safe from deletion for two ticks, and then suspends itself.
        .globl  guarded
guarded:
        bla     taskSafe
        li      r3, 2
        bla     taskDelay
        bla     taskUnsafe
        bla     taskSuspend     # r3 is 0, which is this task
