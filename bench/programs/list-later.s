# Input: a number of rounds, one of times, and a list: the number of a storage call, READ or ADD, and a key of 32 bytes, again and again.
# It counts the rounds down, and then makes the calls of the list so many times.
  lw t0,0(a0)
  lw s1,4(a0)
  addi s2,a0,8        # the list
  add s3,a0,a1        # its end
  li a1,0x10f000      # a READ has 64 bytes below the stack; an ADD adds these two numbers as one
  addi a2,x0,64
round:
  addi t0,t0,-1
  bne t0,x0,round
again:
  add s0,s2,x0
next:
  lw a7,0(s0)
  addi a0,s0,4
  ecall
  addi s0,s0,36
  bne s0,s3,next
  addi s1,s1,-1
  bne s1,x0,again
  addi a7,x0,3        # RETURN, with an empty output
  addi a1,x0,0
  ecall
