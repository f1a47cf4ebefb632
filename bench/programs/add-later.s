# Input: a key of 32 bytes and a number of rounds. It counts them down, and then adds one to the number at the key.
  lw t0,32(a0)
round:
  addi t0,t0,-1
  bne t0,x0,round
  addi a1,x0,1
  addi a2,x0,0
  addi a7,x0,5        # ADD
  ecall
  addi a7,x0,3        # RETURN, with an empty output
  addi a1,x0,0
  ecall
