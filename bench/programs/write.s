# Writes keys: as many as the first word of the input says. A key is the second word and a number, and zeros.
  lw s0,0(a0)
  lw s1,4(a0)
  addi sp,sp,-64
  sw s1,0(sp)
  addi a1,sp,32
  addi a2,x0,4
  addi a7,x0,1        # WRITE
next:
  sw s0,4(sp)
  addi a0,sp,0
  ecall
  addi s0,s0,-1
  bne s0,x0,next
  addi a7,x0,3        # RETURN, with an empty output
  addi a1,x0,0
  ecall
