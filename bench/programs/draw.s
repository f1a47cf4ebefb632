# Input: a mask and a number. Reads keys drawn at random, until the gas is used up: n below 2^20, then -n as far as the mask says,
# each of 64 bits, and zeros. With a mask of ones all of them have one hash.
  lw s2,0(a0)
  lw s3,4(a0)
  lui t0,0x196
  addi s4,t0,0x60d    # 1664525
  lui t0,0x3c6ef
  addi s5,t0,0x35f    # 1013904223
  addi sp,sp,-64
  addi a1,sp,-64
  addi a2,x0,64
  addi a7,x0,0        # READ
again:
  mul s3,s3,s4        # the next number, modulo 2^32
  add s3,s3,s5
  srli t0,s3,12
  sub t1,x0,t0
  and t1,t1,s2
  srai t2,t1,31
  sw t0,0(sp)
  sw t1,8(sp)
  sw t2,12(sp)
  addi a0,sp,0
  ecall
  jal x0,again
