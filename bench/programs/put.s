# Input: a key of 32 bytes. It writes the number 1 at it.
    addi t0, x0, 1
    sw t0, -64(sp)
    addi a1, sp, -64
    addi a2, x0, 4
    addi a7, x0, 1
    ecall
    addi a7, x0, 3
    addi a1, x0, 0
    ecall
