/* The root of numbers at the ends of the range, of squares and their neighbours, and of numbers by chance, each held against
 * what a root is: r·r is not above x, and (r + 1)·(r + 1) is. */
#include <inttypes.h>
#include <stdint.h>
#include <stdio.h>

uint64_t whole_root(uint64_t x);

enum { SQUARES = 1 << 20, CHANCES = 1000000 };
#define LARGEST_ROOT UINT64_C(4294967295)

static uint64_t compared, differences;

/* (r + 1)·(r + 1) may have 65 bits; r·r + 2·r is one less, and x is above it exactly where x - r·r is above 2·r. */
static int is_root(uint64_t x, uint64_t r)
{
    return r <= LARGEST_ROOT && r * r <= x && x - r * r <= 2 * r;
}

static void look_at(uint64_t x)
{
    uint64_t r = whole_root(x);

    compared++;
    if (!is_root(x, r) && ++differences <= 5)
        printf("root of %" PRIu64 ": got %" PRIu64 "\n", x, r);
}

/* A square and its two neighbours; 0 less 1 is the greatest number. */
static void look_around(uint64_t r)
{
    look_at(r * r - 1);
    look_at(r * r);
    look_at(r * r + 1);
}

static void report(const char *what)
{
    printf("%s: %" PRIu64 " compared, %" PRIu64 " differences\n", what, compared, differences);
    compared = 0;
}

static uint64_t chance(void)
{
    static uint64_t state = UINT64_C(88172645463325252);

    state ^= state << 13;
    state ^= state >> 7;
    state ^= state << 17;
    return state;
}

int main(void)
{
    look_at(0);
    look_at(1);
    look_at(UINT64_MAX);
    for (int k = 1; k < 64; k++) {
        look_at((UINT64_C(1) << k) - 1);
        look_at(UINT64_C(1) << k);
        look_at((UINT64_C(1) << k) + 1);
    }
    report("0, 1, 2^64 - 1, and powers of two with their neighbours");
    for (uint64_t r = 0; r < SQUARES; r++) {
        look_around(r);
        look_around(LARGEST_ROOT - r);
    }
    report("squares at both ends, with their neighbours");
    for (int i = 0; i < CHANCES; i++)
        look_at(chance());
    report("any numbers");
    for (int i = 0; i < CHANCES; i++)
        look_at(chance() >> i % 64);
    report("numbers of any length");
    for (int i = 0; i < CHANCES; i++)
        look_around(chance() >> 32);
    report("any squares, with their neighbours");
    return differences == 0 ? 0 : 1;
}
