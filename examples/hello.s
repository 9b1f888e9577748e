# Prints one line that it computes: the sum of a table of numbers of each size and sign, a factorial, and
# the quotient and the remainder of a division.
#
# It runs on the board of `dromajo run --image`: it begins at the first byte of the memory, and a byte
# that is stored at 0x10000000 goes to the console. At its end it jumps to itself.

        .text
        .globl  _start
_start:
        la      sp, stack_end
        la      s0, calls           # the routines' addresses

        la      a0, sum_text
        ld      t0, 0(s0)
        jalr    t0                  # put_text
        jal     sum_numbers
        ld      t0, 8(s0)
        jalr    t0                  # put_number

        la      a0, factorial_text
        ld      t0, 0(s0)
        jalr    t0
        li      a0, 20
        ld      t0, 16(s0)
        jalr    t0                  # factorial
        mv      s1, a0
        ld      t0, 8(s0)
        jalr    t0

        la      a0, quotient_text
        ld      t0, 0(s0)
        jalr    t0
        la      t1, divisor
        lw      s2, 0(t1)           # -1000000007
        div     a0, s1, s2
        ld      t0, 8(s0)
        jalr    t0

        la      a0, remainder_text
        ld      t0, 0(s0)
        jalr    t0
        rem     a0, s1, s2
        ld      t0, 8(s0)
        jalr    t0

        la      a0, line_end
        ld      t0, 0(s0)
        jalr    t0
stop:   j       stop

# a0: the sum of the numbers of the table, each loaded with its size, and with its sign and without
sum_numbers:
        la      t1, numbers
        lb      a0, 0(t1)
        lbu     t2, 0(t1)
        add     a0, a0, t2
        lh      t2, 2(t1)
        add     a0, a0, t2
        lhu     t2, 2(t1)
        add     a0, a0, t2
        lw      t2, 4(t1)
        add     a0, a0, t2
        lwu     t2, 4(t1)
        sub     a0, a0, t2
        ld      t2, 8(t1)
        add     a0, a0, t2
        ret

# a0: the factorial of a0, which is 1 to 20
factorial:
        li      t1, 1
again:  mul     t1, t1, a0
        addi    a0, a0, -1
        bnez    a0, again
        mv      a0, t1
        ret

# Writes the bytes from a0 on, up to a zero byte.
put_text:
        lui     t1, 0x10000
next:   lbu     t2, 0(a0)
        beqz    t2, done
        sb      t2, 0(t1)
        addi    a0, a0, 1
        j       next
done:   ret

# Writes a0 as a signed number in decimal: its digits, the last one first, go to the stack.
put_number:
        lui     t1, 0x10000
        bgez    a0, digits
        li      t2, '-'
        sb      t2, 0(t1)
        neg     a0, a0
digits: mv      t3, sp
        li      t4, 10
digit:  remu    t2, a0, t4
        divu    a0, a0, t4
        addi    t2, t2, '0'
        addi    t3, t3, -1
        sb      t2, 0(t3)
        bnez    a0, digit
write:  lbu     t2, 0(t3)
        sb      t2, 0(t1)
        addi    t3, t3, 1
        bltu    t3, sp, write
        ret

        .balign 8
calls:  .dword  put_text, put_number, factorial
numbers:
        .byte   -100, 0
        .half   -3000
        .word   -2000000000
        .dword  -4000000000000000000
divisor:
        .word   -1000000007
sum_text:
        .asciz  "sum "
factorial_text:
        .asciz  ", 20! = "
quotient_text:
        .asciz  " = -1000000007 * "
remainder_text:
        .asciz  " + "
line_end:
        .asciz  "\n"

        .balign 16
stack:  .space  64
stack_end:
