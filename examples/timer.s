# Takes five timer interrupts, with a line for each, and writes each byte of the input back as it comes.
#
# The timer is that of the core-local interruptor and ticks once in a turn. A byte of the input comes as
# an external interrupt: the platform-level interrupt controller names its source when the interrupt is
# claimed, and is told when it was served. Machine mode's interrupts are vectored, and they may use every
# register, since the program only waits beside them.
#
# It runs on the board of `dromajo run --image`; after the fifth timer interrupt it jumps to itself.

        .equ    MTIMECMP, 0x02004000        # of hart 0
        .equ    MTIME, 0x0200bff8
        .equ    INTERVAL, 20                # ticks between two timer interrupts

        .equ    PRIORITY, 0x0c000004        # of source 1, the console's input
        .equ    ENABLE, 0x0c002000          # of context 0, which is machine mode of hart 0
        .equ    CLAIM, 0x0c200004           # of context 0; to complete, the source is stored there
        .equ    INPUT_SOURCE, 1

        .equ    CONSOLE, 0x10000000
        .equ    STATUS, 4                   # bit 0: a byte waits
        .equ    CONTROL, 8                  # bit 0: the input is an interrupt source

        .equ    MIE, 1 << 3                 # of mstatus
        .equ    TIMER_AND_EXTERNAL, 1 << 7 | 1 << 11

        .text
        .globl  _start
_start:
        la      t0, vectors + 1             # 1: vectored
        csrw    mtvec, t0
        li      s0, 0                       # timer interrupts so far
        li      s1, CONSOLE

        li      t0, PRIORITY
        li      t1, 1
        sw      t1, 0(t0)
        li      t0, ENABLE
        li      t1, 1 << INPUT_SOURCE
        sw      t1, 0(t0)
        li      t1, 1
        sw      t1, CONTROL(s1)

        li      t0, MTIME
        ld      t1, 0(t0)
        addi    t1, t1, INTERVAL
        li      t0, MTIMECMP
        sd      t1, 0(t0)

        li      t0, TIMER_AND_EXTERNAL
        csrw    mie, t0
        csrsi   mstatus, MIE
wait:   wfi
        j       wait

# The timer is due: sets the next time, and prints a line.
timer:
        li      t0, MTIMECMP
        ld      t1, 0(t0)
        addi    t1, t1, INTERVAL
        sd      t1, 0(t0)
        la      a0, tick_text
        jal     put_text
        addi    s0, s0, 1
        addi    t0, s0, '0'
        sb      t0, 0(s1)
        li      t0, '\n'
        sb      t0, 0(s1)
        li      t0, 5
        beq     s0, t0, end
        mret
end:    la      a0, end_text
        jal     put_text
stop:   j       stop

# A source is due: claims it, writes back all bytes that wait, and completes it.
external:
        li      t0, CLAIM
        lw      t1, 0(t0)
        li      t2, INPUT_SOURCE
        bne     t1, t2, served
byte:   lw      t3, STATUS(s1)
        andi    t3, t3, 1
        beqz    t3, served
        lbu     t3, 0(s1)
        sb      t3, 0(s1)
        j       byte
served: sw      t1, 0(t0)
        mret

# Writes the bytes from a0 on, up to a zero byte.
put_text:
        lbu     t0, 0(a0)
        beqz    t0, done
        sb      t0, 0(s1)
        addi    a0, a0, 1
        j       put_text
done:   ret

# Where interrupts go: four bytes for each cause, 7 for the timer and 11 for an external source.
        .balign 4
        .option norvc
vectors:
        .rept   7
        j       stop
        .endr
        j       timer
        .rept   3
        j       stop
        .endr
        j       external

tick_text:
        .asciz  "tick "
end_text:
        .asciz  "end\n"
