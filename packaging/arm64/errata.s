// Both sequences of instructions that a Cortex-A53 may execute wrongly (a Raspberry Pi 3 or Zero 2 W has one). packaging/arm64/build links this file
// to see that the linker mends each by a veneer, as it has to in the program.
        .text
        .globl  _start
        .type   _start, %function
// 835769: a multiplication of 64 bits with an addition, right after a load or a store.
_start:
        ldr     x1, [x0]
        madd    x2, x3, x4, x5
        ret

// 843419: an adrp in one of the last two words of a page of 4 KB, then a load or a store, then one that takes the address. The datum lies more than
// 1 MiB away, because for a nearer one the linker can do without a veneer.
        .balign 4096
        .space  4088
        .globl  at_page_end
        .type   at_page_end, %function
at_page_end:
        adrp    x0, datum
        ldr     x1, [x1]
        ldr     x0, [x0, :lo12:datum]
        ret

        .bss
        .space  2097152
        .balign 8
datum:  .quad   0
