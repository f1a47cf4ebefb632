# Input: two keys of 32 bytes. It takes one from the number at the first and adds one to that at the second.
    addi s0, a0, 0
    addi s1, a0, 32
    addi a1, sp, -64
    addi a2, x0, 64
    ecall
    lw t0, -64(sp)
    addi t0, t0, -1
    sw t0, -64(sp)
    addi a0, s1, 0
    addi a1, sp, -128
    ecall
    lw t0, -128(sp)
    addi t0, t0, 1
    sw t0, -128(sp)
    addi a7, x0, 1
    addi a2, x0, 4
    addi a0, s0, 0
    addi a1, sp, -64
    ecall
    addi a0, s1, 0
    addi a1, sp, -128
    ecall
    addi a7, x0, 3
    addi a1, x0, 0
    ecall
