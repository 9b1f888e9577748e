// Prints five tables that it computes: the words of a text by how often they come, lucky numbers, the longest
// Collatz sequences, partitions of numbers, and queens on a board; then the CRC-32 of these tables.
//
// It is ordinary C and prints by printf. On a machine with a system, `cc -O2 tables.c` prints the same bytes.
// window.c gives it a start and an output on the bare board.

#include <ctype.h>
#include <inttypes.h>
#include <stdarg.h>
#include <stdio.h>
#include <stdlib.h>
#include <string.h>

// The CRC-32 of the bytes so far, as in IEEE 802.3: reflected, with the polynomial 0x04c11db7.
static uint32_t crc_add(uint32_t crc, const char *bytes, size_t count)
{
    crc = ~crc;
    for (size_t i = 0; i < count; i++) {
        crc ^= (unsigned char)bytes[i];
        for (int bit = 0; bit < 8; bit++)
            crc = crc & 1 ? crc >> 1 ^ 0xedb88320u : crc >> 1;
    }
    return ~crc;
}

static uint32_t printed_crc;
static unsigned printed_bytes;

// Prints a line and adds it to the CRC.
__attribute__((format(printf, 1, 2))) static void line(const char *format, ...)
{
    char text[128];
    va_list arguments;
    va_start(arguments, format);
    int length = vsnprintf(text, sizeof text, format, arguments);
    va_end(arguments);
    printed_crc = crc_add(printed_crc, text, (size_t)length);
    printed_bytes += (unsigned)length;
    printf("%s", text);
}

// Words of a text, counted in a table with open addressing.

#define SLOTS 64
#define LONGEST_WORD 15

struct word {
    char text[LONGEST_WORD + 1];
    unsigned count;
};

static const char *const text =
    "A hart fetches a word, decodes the word and carries out what the word says. When the word is none that the "
    "hart knows, or when it may not do what the word says, the hart takes a trap: it keeps the place of the word, "
    "and goes to a handler. The handler mends what can be mended, and the hart goes back to the word.";

static unsigned hash(const char *word)
{
    unsigned h = 2166136261u;
    while (*word)
        h = (h ^ (unsigned char)*word++) * 16777619u;
    return h;
}

static void count_word(struct word *table, const char *word)
{
    unsigned slot = hash(word) % SLOTS;
    while (table[slot].count != 0 && strcmp(table[slot].text, word) != 0)
        slot = (slot + 1) % SLOTS;
    strcpy(table[slot].text, word);
    table[slot].count++;
}

// The more frequent word first, else in the order of the alphabet.
static int by_count(const void *a, const void *b)
{
    const struct word *left = a, *right = b;
    if (left->count != right->count)
        return left->count < right->count ? 1 : -1;
    return strcmp(left->text, right->text);
}

static void words(void)
{
    static struct word table[SLOTS];
    char word[LONGEST_WORD + 1];
    unsigned length = 0, total = 0;
    for (const char *c = text;; c++) {
        if (isalpha((unsigned char)*c) && length < LONGEST_WORD) {
            word[length++] = (char)tolower((unsigned char)*c);
        } else if (length != 0) {
            word[length] = '\0';
            count_word(table, word);
            total++;
            length = 0;
        }
        if (*c == '\0')
            break;
    }
    qsort(table, SLOTS, sizeof table[0], by_count);
    line("%-10s %5s %8s\n", "word", "times", "of 1000");
    for (unsigned i = 0; i < 10; i++)
        line("%-10s %5u %8u\n", table[i].text, table[i].count, table[i].count * 1000 / total);
    line("%u words in all\n\n", total);
}

// Lucky numbers: of the odd numbers, each number in turn strikes out those at the multiples of itself.

#define LUCKY_BELOW 10000

static void lucky(void)
{
    static unsigned left[LUCKY_BELOW / 2];
    unsigned count = 0;
    for (unsigned n = 1; n < LUCKY_BELOW; n += 2)
        left[count++] = n;
    for (unsigned i = 1; i < count && left[i] <= count; i++) {
        unsigned every = left[i], kept = 0;
        for (unsigned j = 0; j < count; j++)
            if ((j + 1) % every != 0)
                left[kept++] = left[j];
        count = kept;
    }
    line("lucky numbers\n");
    for (unsigned i = 0; i < 24; i++)
        line("%4u%s", left[i], i % 8 == 7 ? "\n" : "");
    for (unsigned below = 10; below <= LUCKY_BELOW; below *= 10) {
        unsigned found = 0;
        while (found < count && left[found] < below)
            found++;
        line("below %-6u %5u\n", below, found);
    }
    line("\n");
}

// The longest Collatz sequences, put in order by a heap.

#define STARTS 20000

struct sequence {
    uint32_t start, steps;
    uint64_t peak;
};

// Whether a comes after b in the order that the heap makes: the shorter one, else the one with the larger start.
static int after(const struct sequence *a, const struct sequence *b)
{
    return a->steps != b->steps ? a->steps < b->steps : a->start > b->start;
}

static void sift(struct sequence *heap, size_t root, size_t count)
{
    for (;;) {
        size_t top = root, child = 2 * root + 1;
        if (child < count && after(&heap[child], &heap[top]))
            top = child;
        if (child + 1 < count && after(&heap[child + 1], &heap[top]))
            top = child + 1;
        if (top == root)
            return;
        struct sequence kept = heap[root];
        heap[root] = heap[top];
        heap[top] = kept;
        root = top;
    }
}

static void heap_sort(struct sequence *heap, size_t count)
{
    for (size_t root = count / 2; root-- > 0;)
        sift(heap, root, count);
    for (size_t last = count; last-- > 1;) {
        struct sequence kept = heap[0];
        heap[0] = heap[last];
        heap[last] = kept;
        sift(heap, 0, last);
    }
}

static void collatz(void)
{
    struct sequence *all = calloc(STARTS, sizeof *all);
    if (all == NULL) {
        line("no memory\n");
        exit(1);
    }
    for (uint32_t start = 1; start <= STARTS; start++) {
        struct sequence *sequence = &all[start - 1];
        sequence->start = start;
        for (uint64_t n = start; n != 1; sequence->steps++) {
            if (n > sequence->peak)
                sequence->peak = n;
            n = n % 2 == 0 ? n / 2 : 3 * n + 1;
        }
    }
    heap_sort(all, STARTS);
    line("%8s %6s %12s\n", "start", "steps", "peak");
    for (unsigned i = 0; i < 8; i++)
        line("%8" PRIu32 " %6" PRIu32 " %12" PRIu64 "\n", all[i].start, all[i].steps, all[i].peak);
    line("\n");
    free(all);
}

// In how many ways a number is a sum of positive numbers, whatever their order.

#define PARTITIONS_TO 400

static void partitions(void)
{
    static uint64_t ways[PARTITIONS_TO + 1];
    ways[0] = 1;
    for (unsigned part = 1; part <= PARTITIONS_TO; part++)
        for (unsigned n = part; n <= PARTITIONS_TO; n++)
            ways[n] += ways[n - part];
    line("partitions\n");
    for (unsigned n = 50; n <= PARTITIONS_TO; n += 50)
        line("%4u %20" PRIu64 " %016" PRIx64 "\n", n, ways[n], ways[n]);
    line("\n");
}

// In how many ways queens stand on a board with none in reach of another, row by row.
static unsigned queens(unsigned board, unsigned columns, unsigned falling, unsigned rising)
{
    if (columns == board)
        return 1;
    unsigned ways = 0;
    for (unsigned open = board & ~(columns | falling | rising); open != 0; open &= open - 1) {
        unsigned place = open & -open;
        ways += queens(board, columns | place, (falling | place) << 1, (rising | place) >> 1);
    }
    return ways;
}

int main(void)
{
    words();
    lucky();
    collatz();
    partitions();
    for (unsigned size = 4; size <= 9; size++)
        line("%u queens: %3u\n", size, queens((1u << size) - 1, 0, 0, 0));
    printf("\n%u bytes, CRC-32 %08" PRIx32 "\n", printed_bytes, printed_crc);
    return crc_add(0, "123456789", 9) == 0xcbf43926u ? 0 : 1;
}
