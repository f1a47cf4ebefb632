# Returns its input: a0 has its address, a1 its length.
  addi a7,x0,3    # RETURN
  ecall
