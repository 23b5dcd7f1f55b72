#include "random.h"

#include <string.h>

static uint64_t state;

void random_start(uint64_t seed)
{
    state = seed;
}

/* splitmix64 */
uint64_t random_word(void)
{
    uint64_t z = state += UINT64_C(0x9e3779b97f4a7c15);
    z = (z ^ (z >> 30)) * UINT64_C(0xbf58476d1ce4e5b9);
    z = (z ^ (z >> 27)) * UINT64_C(0x94d049bb133111eb);
    return z ^ (z >> 31);
}

size_t below(size_t n)
{
    return (size_t)(random_word() % n);
}

int percent(size_t n)
{
    return below(100) < n;
}

void random_bytes(uint8_t *to, size_t n)
{
    while (n > 0) {
        uint64_t w = random_word();
        size_t k = n < sizeof w ? n : sizeof w;
        memcpy(to, &w, k);
        to += k;
        n -= k;
    }
}
