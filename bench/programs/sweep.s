# Adds one to keys: as many as the first word of the input says, from the number of the second word on.
  lw s0,0(a0)
  lw s1,4(a0)
  addi sp,sp,-64
  addi a1,x0,1
  addi a2,x0,0
  addi a7,x0,5        # ADD
next:
  sw s1,0(sp)
  addi a0,sp,0
  ecall
  addi s1,s1,1
  addi s0,s0,-1
  bne s0,x0,next
  addi a7,x0,3        # RETURN, with an empty output
  addi a1,x0,0
  ecall
