#include "random.h"

static uint64_t state;

void random_seed(uint64_t seed)
{
    state = seed;
}

/* Steele, Lea and Flood's splitmix64: any seed will do, zero included. */
static uint64_t next(void)
{
    uint64_t z = state += 0x9e3779b97f4a7c15;
    z = (z ^ (z >> 30)) * 0xbf58476d1ce4e5b9;
    z = (z ^ (z >> 27)) * 0x94d049bb133111eb;
    return z ^ (z >> 31);
}

size_t below(size_t limit)
{
    return next() % limit;
}

bool chance(unsigned percent)
{
    return below(100) < percent;
}

void shuffle(uint16_t *order, size_t n)
{
    for (size_t i = 0; i < n; i++) {
        size_t j = below(i + 1);
        order[i] = order[j];
        order[j] = i;
    }
}

/* Powers of two above a valid number show a number that is cut to 8, 16 or 32 bits before it is checked. */
const size_t wild_numbers[] = {
    0, 1, 2, 3, 4, 5, 6, 7, 8, 9, 62, 63, 64, 65, 127, 128, 255, 256, 257, 1023, 1024, 8191, 8192, 32767, 32768,
    65535, 65536, 65537, 65538, 65599, 65600, 1u << 24, (size_t)1 << 31, ((size_t)1 << 32) - 1, (size_t)1 << 32,
    ((size_t)1 << 32) + 1, ((size_t)1 << 32) + 2, ((size_t)1 << 32) + 63, (size_t)1 << 48, ((size_t)1 << 48) + 1,
    SIZE_MAX / 2, SIZE_MAX / 2 + 1, SIZE_MAX / 2 + 2, SIZE_MAX - 64, SIZE_MAX - 63, SIZE_MAX - 8, SIZE_MAX - 1, SIZE_MAX,
};

const size_t wild_count = sizeof wild_numbers / sizeof *wild_numbers;

size_t wild_number(void)
{
    return wild_numbers[below(wild_count)];
}
