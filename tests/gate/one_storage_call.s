# A call of the storage by the words of the input: its number, a1, a2 and a0. Then it returns.
  mv s0,a0
  lw a7,0(s0)
  lw a1,4(s0)
  lw a2,8(s0)
  lw a0,12(s0)
  ecall
  li a7,3
  li a1,0
  ecall
