# Input: two keys of 32 bytes. It writes the number at the first, and one more, to the second.
    addi s1, a0, 32
    addi a1, sp, -64
    addi a2, x0, 64
    ecall
    lw t0, -64(sp)
    addi t0, t0, 1
    sw t0, -64(sp)
    addi a7, x0, 1
    addi a2, x0, 4
    addi a0, s1, 0
    addi a1, sp, -64
    ecall
    addi a7, x0, 3
    addi a1, x0, 0
    ecall
