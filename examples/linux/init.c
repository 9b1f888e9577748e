/* The one program of the system, without a C library. It maps memory, writes and sums it; starts one child for
   each hart, which pins itself there and counts the steps that its numbers take to one; waits for them, and powers
   off. It prints by kernel messages. */

typedef unsigned long word;

enum { OPENAT = 56, WRITE = 64, EXIT = 93, SCHED_SETAFFINITY = 122, SCHED_GETAFFINITY = 123, REBOOT = 142,
       GETCPU = 168, CLONE = 220, MMAP = 222, WAIT4 = 260 };

static long call(long number, word a, word b, word c, word d, word e, word f)
{
    register word a0 asm("a0") = a;
    register word a1 asm("a1") = b;
    register word a2 asm("a2") = c;
    register word a3 asm("a3") = d;
    register word a4 asm("a4") = e;
    register word a5 asm("a5") = f;
    register long a7 asm("a7") = number;
    asm volatile("ecall" : "+r"(a0) : "r"(a1), "r"(a2), "r"(a3), "r"(a4), "r"(a5), "r"(a7) : "memory");
    return (long)a0;
}

#define CALL(number, a, b, c, d) call(number, (word)(a), (word)(b), (word)(c), (word)(d), 0, 0)

/* A line is made whole, since each write is one message. */
static long messages;
static char line[128];
static word length;

static void text(const char *from)
{
    while (*from)
        line[length++] = *from++;
}

static void number(word value)
{
    if (value >= 10)
        number(value / 10);
    line[length++] = (char)('0' + value % 10);
}

static void end_line(void)
{
    line[length++] = '\n';
    CALL(WRITE, messages, line, length, 0);
    length = 0;
}

static void power_off(void)
{
    CALL(REBOOT, 0xfee1dead, 672274793, 0x4321fedc, 0);
    for (;;)
        ;
}

static void *map(word bytes, int shared)
{
    long at = call(MMAP, 0, bytes, 3 /* read and write */, 0x20 /* anonymous */ | (shared ? 1 : 2), (word)-1, 0);
    if (at < 0 && at > -4096) {
        text("init: no memory");
        end_line();
        power_off();
    }
    return (void *)at;
}

static word sum(void)
{
    enum { COUNT = 1 << 17 };
    word *numbers = map(COUNT * sizeof *numbers, 0);
    for (word i = 0; i < COUNT; i++)
        numbers[i] = i * i;
    word total = 0;
    for (word i = 0; i < COUNT; i++)
        total += numbers[i];
    return total;
}

/* How many steps the numbers from `from` up to `to`, without it and without 0, take to one, in all. A step halves an
   even number and makes 3n + 1 of an odd one. */
static word steps_to_one(word from, word to)
{
    word steps = 0;
    for (word n = from ? from : 1; n < to; n++)
        for (word at = n; at != 1; steps++)
            at = at % 2 ? 3 * at + 1 : at / 2;
    return steps;
}

/* What a child leaves in the page that it shares with its parent. */
struct result {
    unsigned hart;
    word steps;
};

enum { MOST = 8, SHARE = 1000 };

static void child(int hart, struct result *result)
{
    word mask = 1ul << hart;
    CALL(SCHED_SETAFFINITY, 0, sizeof mask, &mask, 0);
    result->steps = steps_to_one((word)hart * SHARE, (word)(hart + 1) * SHARE);
    CALL(GETCPU, &result->hart, 0, 0, 0);
    CALL(EXIT, hart, 0, 0, 0);
}

void _start(void)
{
    messages = CALL(OPENAT, -100, "/dev/kmsg", 1 /* to write */, 0);
    text("init: the first program runs");
    end_line();

    text("init: the squares of the numbers below 131072 sum up to ");
    number(sum());
    end_line();

    word mask = 0;
    CALL(SCHED_GETAFFINITY, 0, sizeof mask, &mask, 0);
    struct result *results = map(4096, 1);
    long children[MOST];
    int harts = 0;
    for (; harts < MOST && mask >> harts & 1; harts++) {
        children[harts] = CALL(CLONE, 17 /* SIGCHLD: a fork */, 0, 0, 0);
        if (children[harts] == 0)
            child(harts, &results[harts]);
    }

    word total = 0;
    for (int i = 0; i < harts; i++) {
        int status = -1;
        CALL(WAIT4, children[i], &status, 0, 0);
        text("init: child ");
        number((word)i);
        text(" ended with ");
        number((word)(status >> 8 & 255));
        text(" on hart ");
        number(results[i].hart);
        text(", ");
        number(results[i].steps);
        text(" steps from ");
        number((word)i * SHARE);
        end_line();
        total += results[i].steps;
    }
    text("init: ");
    number(total);
    text(" steps to one of the numbers below ");
    number((word)harts * SHARE);
    text(", powering off");
    end_line();
    power_off();
}
