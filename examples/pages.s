# Runs supervisor mode and user mode under Sv39 page tables that it builds, and prints the cause and the
# address of a fetch, a load and a store that the tables forbid.
#
# The image stands in the first page of memory, and its tables and data in the pages after it. Virtual
# addresses, each mapped by a path of three tables:
#
#     0x40000000  the image, for the user to read and fetch
#     0x40001000  the data, for the user to read
#     0x80000000  the image, for the supervisor to read and fetch
#     0x80001000  the data, for the supervisor to read and write
#     0x80002000  the console, for the supervisor to read and write
#
# It runs on the board of `dromajo run --image`; at its end it jumps to itself.

        .equ    IMAGE, 0x80000000
        .equ    DATA, 0x80001000
        .equ    CONSOLE, 0x10000000
        .equ    CONSOLE_PAGE, 0x80002000    # the console under the tables

        .equ    ROOT, 0x80004000            # the tables, a page each
        .equ    USER_MIDDLE, 0x80005000
        .equ    USER_LEAVES, 0x80006000
        .equ    SUPERVISOR_MIDDLE, 0x80007000
        .equ    SUPERVISOR_LEAVES, 0x80008000

        .equ    POINTER, 0x01               # bits of an entry: V
        .equ    USER_CODE, 0x5b             # V R X U A
        .equ    USER_READ, 0x53             # V R U A
        .equ    SUPERVISOR_CODE, 0x4b       # V R X A
        .equ    SUPERVISOR_DATA, 0xc7       # V R W A D

        .equ    FETCH_FAULT, 12             # causes of traps
        .equ    USER_CALL, 8
        .equ    DELEGATED, 1 << 8 | 1 << 12 | 1 << 13 | 1 << 15

        .equ    MPP, 3 << 11                # the modes that mret and sret go to
        .equ    MPP_SUPERVISOR, 1 << 11
        .equ    SPP, 1 << 8

        .text
        .globl  _start

# Writes an entry of a table: its bits 53:10 are the number of the page.
        .macro  entry table, number, page, bits
        li      t0, \table + 8 * \number
        li      t1, \page / 4096 * 1024 + \bits
        sd      t1, 0(t0)
        .endm

# Machine mode: builds the tables and enters supervisor mode.
_start:
        entry   ROOT, 1, USER_MIDDLE, POINTER
        entry   USER_MIDDLE, 0, USER_LEAVES, POINTER
        entry   USER_LEAVES, 0, IMAGE, USER_CODE
        entry   USER_LEAVES, 1, DATA, USER_READ
        entry   ROOT, 2, SUPERVISOR_MIDDLE, POINTER
        entry   SUPERVISOR_MIDDLE, 0, SUPERVISOR_LEAVES, POINTER
        entry   SUPERVISOR_LEAVES, 0, IMAGE, SUPERVISOR_CODE
        entry   SUPERVISOR_LEAVES, 1, DATA, SUPERVISOR_DATA
        entry   SUPERVISOR_LEAVES, 2, CONSOLE, SUPERVISOR_DATA
        li      t0, 8 << 60 | ROOT / 4096   # Sv39 with this root
        csrw    satp, t0
        sfence.vma

        li      t0, DELEGATED
        csrw    medeleg, t0
        la      t0, supervisor_trap
        csrw    stvec, t0
        la      t0, supervisor
        csrw    mepc, t0
        li      t0, MPP
        csrc    mstatus, t0
        li      t0, MPP_SUPERVISOR
        csrs    mstatus, t0
        mret

# Supervisor mode: writes a number for the user to read, says so, and enters user mode.
supervisor:
        li      t0, DATA
        li      t1, 42
        sw      t1, 0x10(t0)
        la      a0, begin_text
        jal     put_text
        la      t0, user
        li      t1, 0x40000000 - IMAGE      # where the user sees it
        add     t0, t0, t1
        csrw    sepc, t0
        li      t0, SPP
        csrc    sstatus, t0
        sret

# User mode. The handler changes a0, a1 and t0 to t3.
        .option push
        .option norvc
user:
        li      s0, 0x40001000
        addi    t4, s0, 0x2bc
        jalr    t4                  # the data are not for fetching
        li      t4, DATA
        lb      t5, 0x235(t4)       # the supervisor's address is not for the user
        sw      zero, 0x10(s0)      # the user may only read here
        lw      a2, 0x10(s0)
        ecall                       # does not come back
        .option pop

# Supervisor mode, after a trap: prints a fault and goes on after it; after a call prints a2 and ends.
        .balign 4
supervisor_trap:
        csrr    t0, scause
        li      t1, USER_CALL
        beq     t0, t1, end
        mv      s1, ra
        la      a0, cause_text
        jal     put_text
        csrr    a0, scause
        jal     put_two_digits
        la      a0, address_text
        jal     put_text
        csrr    a0, stval
        jal     put_word
        mv      ra, s1
        csrr    t0, scause
        li      t1, FETCH_FAULT
        beq     t0, t1, back_from_jump
        csrr    t0, sepc            # after the load or the store, which has four bytes
        addi    t0, t0, 4
        csrw    sepc, t0
        sret
back_from_jump:
        csrw    sepc, ra            # after the jump
        sret

end:    la      a0, end_text
        jal     put_text
        mv      a0, a2
        jal     put_two_digits
        li      t0, '\n'
        sb      t0, 0(t1)
stop:   j       stop

# Writes the bytes from a0 on, up to a zero byte.
put_text:
        li      t1, CONSOLE_PAGE
next:   lbu     t0, 0(a0)
        beqz    t0, done
        sb      t0, 0(t1)
        addi    a0, a0, 1
        j       next
done:   ret

# Writes a0, which is at most 99, in two decimal digits; t1 is the console afterwards.
put_two_digits:
        li      t1, CONSOLE_PAGE
        li      t2, 10
        divu    t0, a0, t2
        addi    t0, t0, '0'
        sb      t0, 0(t1)
        remu    t0, a0, t2
        addi    t0, t0, '0'
        sb      t0, 0(t1)
        ret

# Writes a0 in sixteen hexadecimal digits and ends the line.
put_word:
        li      t1, CONSOLE_PAGE
        li      t2, 60              # the place of the digit's lowest bit
        li      t3, 10
digit:  srl     t0, a0, t2
        andi    t0, t0, 15
        blt     t0, t3, decimal
        addi    t0, t0, 'a' - '0' - 10
decimal:
        addi    t0, t0, '0'
        sb      t0, 0(t1)
        addi    t2, t2, -4
        bgez    t2, digit
        sb      t3, 0(t1)           # ten is the byte of a line's end
        ret

begin_text:
        .asciz  "supervisor mode under Sv39\n"
cause_text:
        .asciz  "cause "
address_text:
        .asciz  " address "
end_text:
        .asciz  "user mode read "
