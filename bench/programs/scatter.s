# Input: how many keys, a number, and a storage call, ADD or REMOVE. It makes the call at so many keys, drawn at random from the
# number on.
  lw s0,0(a0)
  lw s3,4(a0)
  lw a7,8(a0)
  lui t0,0x196
  addi s4,t0,0x60d    # 1664525
  lui t0,0x3c6ef
  addi s5,t0,0x35f    # 1013904223
  addi sp,sp,-64
  addi a1,x0,1
  addi a2,x0,0
  addi a0,sp,0
again:
  mul s3,s3,s4        # the next number, modulo 2^32
  add s3,s3,s5
  sw s3,0(sp)
  ecall
  addi s0,s0,-1
  bne s0,x0,again
  addi a7,x0,3        # RETURN, with an empty output
  ecall
