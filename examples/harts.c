// Four harts that share a counter under a lock, and then wake each other by inter-hart interrupts: a
// program for `dromajo run --config`, without a C library.
//
//     riscv64-unknown-elf-gcc -O2 -march=rv64imac_zicsr -mabi=lp64 -mcmodel=medany -ffreestanding -nostdlib \
//         -Wl,-n,-Ttext=0x80000000 -o harts.elf harts.c
//
// harts.json runs it.

typedef unsigned char u8;
typedef unsigned int u32;
typedef unsigned long u64;

#define HARTS 4
#define ROUNDS 250

// The host window: the simulator finds it by this symbol.
volatile u64 tohost __attribute__((aligned(8)));

static volatile u8 *const console = (volatile u8 *)0x10000000;
static volatile u32 *const msip = (volatile u32 *)0x2000000;

static u32 lock;
static u64 counter;
static u64 arrived;

__asm__(".section .text.start, \"ax\"\n"
        ".globl _start\n"
        "_start:\n"
        ".option push\n"
        ".option norelax\n"
        "    la   gp, __global_pointer$\n"
        ".option pop\n"
        "    csrr a0, mhartid\n"
        "    la   sp, stacks\n"
        "    addi t0, a0, 1\n"
        "    slli t0, t0, 10\n"
        "    add  sp, sp, t0\n"
        "    j    run\n");

u8 stacks[HARTS << 10] __attribute__((aligned(16)));

static void print(const char *text)
{
    while (*text)
        *console = *text++;
}

static void print_number(u64 n)
{
    char digits[20];
    int count = 0;
    do {
        digits[count++] = '0' + n % 10;
        n /= 10;
    } while (n);
    while (count)
        *console = digits[--count];
}

static void acquire(void)
{
    while (__atomic_exchange_n(&lock, 1, __ATOMIC_ACQUIRE))
        ;
}

static void release(void)
{
    __atomic_store_n(&lock, 0, __ATOMIC_RELEASE);
}

static u64 hart_number(void)
{
    u64 hart;
    __asm__ volatile("csrr %0, mhartid" : "=r"(hart));
    return hart;
}

// A software interrupt: each hart says so and wakes the next; the first ends the program when it is its turn again.
__attribute__((interrupt("machine"), aligned(4))) static void on_interrupt(void)
{
    u64 hart = hart_number();
    msip[hart] = 0;
    if (hart == 0) {
        print("all woke, the counter is ");
        print_number(counter);
        print("\n");
        tohost = 1;
        for (;;)
            ;
    }
    print("hart ");
    print_number(hart);
    print(" woke\n");
    msip[(hart + 1) % HARTS] = 1;
}

void run(u64 hart)
{
    for (int i = 0; i < ROUNDS; i++) {
        acquire();
        counter += hart + 1;
        release();
    }
    __asm__ volatile("csrw mtvec, %0" ::"r"(on_interrupt));
    __asm__ volatile("csrw mie, %0" ::"r"(8));
    __atomic_fetch_add(&arrived, 1, __ATOMIC_ACQ_REL);
    if (hart == 0) {
        while (__atomic_load_n(&arrived, __ATOMIC_ACQUIRE) != HARTS)
            ;
        msip[1] = 1;
    }
    __asm__ volatile("csrsi mstatus, 8");
    for (;;)
        __asm__ volatile("wfi");
}
