# Calls of the storage for each of 257 keys, by the words of the input: the number, a1, a2 and a0. Then it returns.
  mv s0,a0
  li s1,257
again:
  lw a7,0(s0)
  lw a1,4(s0)
  lw a2,8(s0)
  lw a0,12(s0)
  sw s1,0(a0)
  ecall
  addi s1,s1,-1
  bne s1,x0,again
  li a7,3
  li a1,0
  ecall
