# Counts traps in machine mode and in supervisor mode, by their cause.
#
# Machine mode delegates one cause, the breakpoint, to supervisor mode and then enters user mode. The user
# makes twelve calls, and a breakpoint after every second one. Machine mode answers a call by `mret`.
# Supervisor mode answers a breakpoint: it makes a call of its own, which machine mode answers, and goes
# back by `sret`. A last call of the user with 1 in a7 has the counts printed.
#
# It runs on the board of `dromajo run --image`; at its end it jumps to itself.

        .equ    CONSOLE, 0x10000000
        .equ    BREAKPOINT, 3       # causes of traps
        .equ    USER_CALL, 8
        .equ    SUPERVISOR_CALL, 9
        .equ    MPP, 3 << 11        # the mode that mret goes to

        .text
        .globl  _start
_start:
        la      t0, machine_trap
        csrw    mtvec, t0
        la      t0, supervisor_trap
        csrw    stvec, t0
        li      t0, 1 << BREAKPOINT
        csrw    medeleg, t0
        la      t0, machine_counts  # each mode finds its counts in its scratch register
        csrw    mscratch, t0
        la      t0, supervisor_counts
        csrw    sscratch, t0

        la      t0, user
        csrw    mepc, t0
        li      t0, MPP
        csrc    mstatus, t0         # mret goes to user mode
        mret

# User mode. The handlers change t0 and t1 alone.
user:
        li      a7, 0
        li      s0, 12
user_loop:
        ecall
        andi    t2, s0, 1
        beqz    t2, even
        .option push
        .option norvc
        ebreak
        .option pop
even:   addi    s0, s0, -1
        bnez    s0, user_loop
        li      a7, 1
        ecall                       # does not come back

# Supervisor mode: counts the trap, makes a call, and goes on after the trapped instruction, of four bytes.
        .balign 4
supervisor_trap:
        csrr    t1, sscratch
        csrr    t0, scause
        slli    t0, t0, 3
        add     t1, t1, t0
        ld      t0, 0(t1)
        addi    t0, t0, 1
        sd      t0, 0(t1)
        ecall
        csrr    t0, sepc
        addi    t0, t0, 4
        csrw    sepc, t0
        sret

# Machine mode: counts the trap, and goes on after the trapped instruction, of four bytes, or prints.
        .balign 4
machine_trap:
        csrr    t1, mscratch
        csrr    t0, mcause
        slli    t0, t0, 3
        add     t1, t1, t0
        ld      t0, 0(t1)
        addi    t0, t0, 1
        sd      t0, 0(t1)
        bnez    a7, report
        csrr    t0, mepc
        addi    t0, t0, 4
        csrw    mepc, t0
        mret

report:
        la      s0, machine_counts
        la      s1, supervisor_counts

        la      a0, user_calls_text
        jal     put_text
        ld      a0, 8 * USER_CALL(s0)
        jal     put_number
        la      a0, supervisor_calls_text
        jal     put_text
        ld      a0, 8 * SUPERVISOR_CALL(s0)
        jal     put_number
        la      a0, machine_breakpoints_text
        jal     put_text
        ld      a0, 8 * BREAKPOINT(s0)
        jal     put_number
        la      a0, supervisor_breakpoints_text
        jal     put_text
        ld      a0, 8 * BREAKPOINT(s1)
        jal     put_number
stop:   j       stop

# Writes the bytes from a0 on, up to a zero byte.
put_text:
        li      t1, CONSOLE
next:   lbu     t0, 0(a0)
        beqz    t0, done
        sb      t0, 0(t1)
        addi    a0, a0, 1
        j       next
done:   ret

# Writes a0, which is at most 99, in decimal and ends the line.
put_number:
        li      t1, CONSOLE
        li      t2, 10
        divu    t0, a0, t2
        beqz    t0, units
        addi    t0, t0, '0'
        sb      t0, 0(t1)
units:  remu    t0, a0, t2
        addi    t0, t0, '0'
        sb      t0, 0(t1)
        sb      t2, 0(t1)           # ten is the byte of a line's end
        ret

user_calls_text:
        .asciz  "machine mode: calls from user mode "
supervisor_calls_text:
        .asciz  "machine mode: calls from supervisor mode "
machine_breakpoints_text:
        .asciz  "machine mode: breakpoints "
supervisor_breakpoints_text:
        .asciz  "supervisor mode: breakpoints "

# Beyond the image, where memory is zero: a count for each of the causes 0 to 15.
        .bss
        .balign 8
machine_counts:
        .space  8 * 16
supervisor_counts:
        .space  8 * 16
