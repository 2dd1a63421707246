# The program of the samples: copies three numbers, adds them up, and counts them in memory. For x86-64 and Linux. It has a stack
# of its own, so that its addresses are the same under each tool.
#
#     gcc -nostdlib -static -no-pie -o copy copy.s
        .globl  _start
_start: mov     $stack, %esp
        movl    $0, sum         # a store, by an instruction of 11 bytes
        mov     $numbers, %esi
        mov     $copies, %edi
        prefetcht0 (%rsi)
        mov     $3, %ecx
        xor     %eax, %eax
next:   add     (%rsi), %eax    # a load
        movsl                   # a load and a store
        incl    count           # a modify
        dec     %ecx
        jnz     next
        call    keep            # a store
        mov     $60, %eax
        xor     %edi, %edi
        syscall
keep:   mov     %eax, sum       # a store
        ret                     # a load

        .data
numbers: .long  1, 2, 3
copies: .long   0, 0, 0
count:  .long   0
sum:    .long   0
        .space  16
stack:
