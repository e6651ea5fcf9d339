# Both harts come here. The machine ends when both have run body().
.option norelax
.section .text.start
.globl _start
_start:
  li t0, 0x6000
  csrs mstatus, t0              # floating point on
  csrr s0, mhartid
  la sp, stacks
  addi t0, s0, 1
  slli t0, t0, 12
  add sp, sp, t0
  # A software interrupt is pending but never taken: so wfi hands over to the other hart, and comes back.
  csrw mie, 8
  li t0, 0x2000000
  slli t1, s0, 2
  add t0, t0, t1
  li t1, 1
  sw t1, (t0)
  mv a0, s0
  call body
  la t0, done
  li t1, 1
  amoadd.w.aqrl zero, t1, (t0)
1: wfi
  la t0, done
  lw t1, (t0)
  li t2, 2
  bne t1, t2, 1b
  bnez s0, 2f
  li t0, 0x100000
  li t1, 0x5555
  sw t1, (t0)                   # the machine ends
2: wfi
  j 2b

.bss
.align 12
stacks: .space 2 * 4096
.align 6
done: .word 0
