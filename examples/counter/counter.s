# Counts up the key that is the call's input: a value of four bytes, the lowest first.
  addi a1,sp,-64      # a buffer of 64 bytes below the stack pointer
  addi a2,x0,64
  mv s0,a0            # the key
  ecall               # READ
  lw t0,-64(sp)       # 0 if the key is absent, since the buffer is zero
  addi t0,t0,1
  sw t0,-64(sp)
  mv a0,s0
  addi a2,x0,4
  addi a7,x0,1        # WRITE
  ecall
  addi a7,x0,3        # RETURN
  addi a1,x0,0
  ecall
