# Input: a key of 32 bytes. It removes it.
    addi a7, x0, 2
    ecall
    addi a7, x0, 3
    addi a1, x0, 0
    ecall
