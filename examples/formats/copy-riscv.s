# The program of spike.txt: copies three numbers, and counts them in memory. For 64-bit RISC-V.
#
#     riscv64-linux-gnu-gcc -march=rv64imac -mabi=lp64 -nostdlib -static -Wl,--no-relax,-Ttext=0x80000000,-Tdata=0x80001000 \
#         -o copy-riscv copy-riscv.s
        .globl  _start
_start: lla     a0, numbers
        lla     a1, copies
        lla     a2, count
        li      a3, 3
        li      a4, 1
next:   lw      a5, (a0)                # a load
        sw      a5, (a1)                # a store
        amoadd.w zero, a4, (a2)         # a load and a store
        addi    a0, a0, 4
        addi    a1, a1, 4
        addi    a3, a3, -1
        bnez    a3, next
        li      a7, 93
        li      a0, 0
        ecall

        .data
numbers: .word  1, 2, 3
copies: .word   0, 0, 0
count:  .word   0
