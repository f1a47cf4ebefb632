# Input: a key of 32 bytes, a number of rounds and one of reads. It counts the rounds down, and then reads the key so often.
  lw t0,32(a0)
  lw s1,36(a0)
  add s0,a0,x0
  lui a1,0x10f        # a buffer below the stack
  addi a2,x0,64
  addi a7,x0,0        # READ
round:
  addi t0,t0,-1
  bne t0,x0,round
again:
  add a0,s0,x0
  ecall
  addi s1,s1,-1
  bne s1,x0,again
  addi a7,x0,3        # RETURN, with an empty output
  addi a1,x0,0
  ecall
