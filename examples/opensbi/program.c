/* A supervisor-mode program without a library, which the firmware starts at its first byte on one hart, with the
   hart's number and the device tree's address. It prints by calls of the firmware (SBI), has it start the other hart,
   and ends by its system reset. */

struct answer {
    long error, value;
};

/* The numbers of the extensions that are called. */
enum { PUT_BYTE = 1, BASE = 0x10, HART_STATE = 0x48534d, SYSTEM_RESET = 0x53525354 };

static struct answer call(long extension, long function, long a, long b, long c)
{
    register long a0 asm("a0") = a;
    register long a1 asm("a1") = b;
    register long a2 asm("a2") = c;
    register long a6 asm("a6") = function;
    register long a7 asm("a7") = extension;
    asm volatile("ecall" : "+r"(a0), "+r"(a1) : "r"(a2), "r"(a6), "r"(a7) : "memory");
    return (struct answer){a0, a1};
}

static void text(const char *from)
{
    while (*from)
        call(PUT_BYTE, 0, *from++, 0, 0);
}

static void hexadecimal(unsigned long value)
{
    if (value >= 16)
        hexadecimal(value >> 4);
    call(PUT_BYTE, 0, "0123456789abcdef"[value & 15], 0, 0);
}

/* Each hart begins here, the second with the number of the first where the tree's address was. */
asm(".section .start, \"ax\"\n"
    ".globl _start, _second\n"
    "_start:\n"
    "    la sp, stacks + 4096\n"
    "    j first\n"
    "_second:\n"
    "    la sp, stacks + 8192\n"
    "    j second\n"
    ".text");
char stacks[2][4096] __attribute__((aligned(16)));
extern char _second[];

static volatile int ready;

_Noreturn void second(long hart, long from)
{
    text("supervisor mode on hart ");
    hexadecimal(hart);
    text(", started by hart ");
    hexadecimal(from);
    text("\n");
    ready = 1;
    for (;;)
        asm volatile("wfi");
}

_Noreturn void first(long hart, unsigned long tree)
{
    text("supervisor mode on hart ");
    hexadecimal(hart);
    text(", tree at 0x");
    hexadecimal(tree);
    text(", SBI implementation ");
    hexadecimal(call(BASE, 1, 0, 0, 0).value);
    text(" version 0x");
    hexadecimal(call(BASE, 2, 0, 0, 0).value);
    text("\n");
    call(HART_STATE, 0, hart ^ 1, (long)_second, hart);
    while (!ready)
        ;
    text("both harts ran, the end\n");
    call(SYSTEM_RESET, 0, 0, 0, 0);
    for (;;)
        ;
}
