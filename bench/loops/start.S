# A static program for Linux that calls LOOP with ROUNDS and ends with status 0.
        .globl  _start
_start: lis     1, stack_end@ha
        addi    1, 1, stack_end@l
        lis     3, ROUNDS@ha
        addi    3, 3, ROUNDS@l
        bl      LOOP
        li      0, 1
        li      3, 0
        sc
        .bss
        .balign 16
        .space  65536
stack_end:
        .space  64
        .section .note.GNU-stack, "", @progbits
