| Vectors and start. The 68332 takes the stack pointer and the first address from vectors 0 and 1.
    .section .vectors, "a"
    .long   stack
    .long   start
    .org    4 * 0x40
    .long   serial          | QIVR with bit 0 clear
    .long   queue           | QIVR with bit 0 set

    .text
start:
    lea     bss_start, %a0
0:  cmp.l   #bss_end, %a0
    jcc     1f
    clr.b   (%a0)+
    jra     0b
1:  jmp     main
