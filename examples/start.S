# Stands under a C program: gives it a stack, calls main, and ends the thread with what main answers.
# It asks by ecall alone, with the number of the call in a7.

        .globl _start, exit, call
_start: la      sp, stack_end
        call    main                # its answer in a0 is the argument of exit
exit:   li      a7, 0               # call 0: the end, with a0 as the code
        ecall

call:   mv      a7, a1              # unsigned call(unsigned a0, unsigned number): any of the thread calls
        ecall
        ret

        .bss
        .balign 16
        .space  4096                # the stack; a greater one takes more frames
stack_end:
