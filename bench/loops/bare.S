# A bare image for the board ref405ep: calls LOOP with ROUNDS, writes a byte to the serial port, and resets the system.
        .globl  _start
_start: lis     1, stack_end@ha
        addi    1, 1, stack_end@l
        lis     3, ROUNDS@ha
        addi    3, 3, ROUNDS@l
        bl      LOOP
        lis     4, 0xef60
        ori     4, 4, 0x0300
        li      3, 0x2e
        stb     3, 0(4)
        # the 405's debug control register 0, SPR 0x3f2: system reset
        lis     3, 0x3000
        .long   0x7c600000 | (0x3f2 & 0x1f) << 16 | (0x3f2 >> 5) << 11 | 467 << 1
1:      b       1b
        .bss
        .balign 16
        .space  65536
stack_end:
        .space  64
        .section .note.GNU-stack, "", @progbits
