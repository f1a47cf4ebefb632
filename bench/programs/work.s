# Input: a key of 32 bytes and a number of rounds. It mixes a word so many times and writes it to the key.
    lw t0, 32(a0)
    addi t1, x0, 0
round:
    add t1, t1, t0
    slli t2, t1, 3
    xor t1, t1, t2
    addi t0, t0, -1
    bne t0, x0, round
    sw t1, -4(sp)
    addi a1, sp, -4
    addi a2, x0, 4
    addi a7, x0, 1
    ecall
    addi a7, x0, 3
    addi a1, x0, 0
    ecall
