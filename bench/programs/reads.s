# Reads the key that is the call's input, again and again, until the gas is used up.
  addi a7,x0,0        # READ
  lui a3,0x10f        # a buffer below the stack
  add s0,a0,x0        # the key
again:
  add a0,s0,x0
  add a1,a3,x0
  addi a2,x0,64
  ecall
  jal x0,again
