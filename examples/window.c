// The start of a C program on the bare board, and its output and end through the host window, for picolibc.

#include <stdint.h>
#include <stdio.h>
#include <stdlib.h>
#include <unistd.h>

// The host window: the simulator finds it by this symbol, looks at it after each turn, and clears a word
// that it served.
volatile uint64_t tohost __attribute__((aligned(8)));

#define SEND ((uint64_t)0x0101 << 48)

// Memory is zero where the program's file has no bytes, so the start has the stack and the pointers to set.
__asm__(".section .text.start, \"ax\"\n"
        ".globl _start\n"
        "_start:\n"
        ".option push\n"
        ".option norelax\n"
        "    la   gp, __global_pointer$\n"
        ".option pop\n"
        "    la   sp, stack_top\n"
        "    la   tp, thread_start\n"
        "    call main\n"
        "    tail exit\n");

static void say(uint64_t word)
{
    while (tohost != 0)
        ;
    tohost = word;
}

static int put(char byte, FILE *file)
{
    (void)file;
    say(SEND | (unsigned char)byte);
    return (unsigned char)byte;
}

static FILE window = FDEV_SETUP_STREAM(put, NULL, NULL, _FDEV_SETUP_WRITE);
FILE *const stdout = &window;

// Ends the run with this code.
void _exit(int code)
{
    say((uint64_t)(unsigned)code << 1 | 1);
    for (;;)
        ;
}
