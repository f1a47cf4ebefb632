# Input: entries of 40 bytes, each a number of a storage call, a count and a key. It makes these calls in order, and then returns nothing.
# WRITE: the value is as many bytes as the count says, from the entry on; RETURN and REVERT give these bytes. READ: the count is the
# capacity. ADD: the count is the amount, with its sign. s2 gathers what READ answers: s2 * 31 + a0 + the first byte of the buffer.
  addi s0,a0,0
  add s1,a0,a1
next:
  bgeu s0,s1,done
  lw a7,0(s0)
  lw t0,4(s0)
  addi a0,s0,8
  addi a1,s0,0
  addi a2,t0,0
  bne a7,x0,other
  addi a1,sp,-256       # READ
other:
  addi t1,x0,5
  bne a7,t1,short
  addi a1,t0,0          # ADD
  srai a2,t0,31
short:
  addi t1,x0,3
  blt a7,t1,make
  addi t1,x0,4
  blt t1,a7,make
  addi a0,s0,0          # RETURN and REVERT
  addi a1,t0,0
make:
  ecall
  bne a7,x0,after
  slli t2,s2,5
  sub s2,t2,s2
  add s2,s2,a0
  lbu t2,-256(sp)
  add s2,s2,t2
after:
  addi s0,s0,40
  jal x0,next
done:
  addi a1,x0,0
  addi a7,x0,3
  ecall
