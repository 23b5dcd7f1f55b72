/* Reading and writing the longest line: the proved code beside a plain C reader and writer of the same checks. */
#include <stddef.h>
#include <stdint.h>
#include <stdio.h>
#include <string.h>
#include <time.h>

struct flat {
    uint8_t found, kind, sender, n, m;
    uint16_t mask;
    uint32_t view, ballot, proven_ballot;
    uint64_t words[64];
};

/* the proved code */
extern struct flat frame_bench_read(const uint8_t *line, size_t length, uint16_t kinds);
extern size_t frame_bench_write(struct flat frame, uint8_t *out, size_t room);

/* plain C */
enum { HEADER = 36, LONGEST = 1061 };

/* which of sender, view, ballot, proven ballot, mask, n, m a kind uses */
static const uint8_t uses[11][7] = {
    {0, 0, 0, 0, 0, 0, 0}, {1, 1, 1, 0, 0, 0, 0}, {1, 1, 1, 0, 0, 0, 0}, {1, 0, 1, 1, 1, 1, 1}, {1, 0, 1, 0, 0, 1, 0}, {1, 1, 1, 0, 0, 1, 0},
    {1, 1, 1, 0, 0, 1, 0}, {1, 0, 1, 0, 1, 1, 0}, {1, 1, 0, 0, 0, 0, 0}, {1, 1, 0, 0, 1, 0, 0}, {1, 1, 0, 0, 1, 0, 0},
};

static uint8_t value_of[256];

static int number(const uint8_t *digits, int width, uint64_t *x)
{
    uint64_t v = 0;
    for (int i = 0; i < 2 * width; i++) {
        uint8_t d = value_of[digits[i]];
        if (d > 15)
            return 0;
        v = v << 4 | d;
    }
    *x = v;
    return 1;
}

static int proper(const struct flat *f)
{
    if (f->kind < 1 || f->kind > 10 || f->n > 32 || f->m > 32)
        return 0;
    const uint8_t *u = uses[f->kind];
    return (u[1] || !f->view) && (u[2] || !f->ballot) && (u[3] || !f->proven_ballot) && (u[4] || !f->mask) && (u[5] || !f->n) && (u[6] || !f->m);
}

__attribute__((noinline)) static int plain_read(const uint8_t *line, size_t length, uint16_t kinds, struct flat *f)
{
    static const int widths[8] = {1, 1, 4, 4, 4, 2, 1, 1};
    uint64_t h[8];
    memset(f, 0, sizeof *f);
    if (length < HEADER + 1)
        return 0;
    const uint8_t *at = line;
    for (int k = 0; k < 8; at += 2 * widths[k], k++)
        if (!number(at, widths[k], &h[k]))
            return 0;
    struct flat g = {1, h[0], h[1], h[6], h[7], h[5], h[2], h[3], h[4], {0}};
    if (!proper(&g) || !(kinds >> g.kind & 1))
        return 0;
    size_t count = g.n + g.m;
    if (length != HEADER + 16 * count + 1 || line[length - 1] != '\n')
        return 0;
    for (size_t k = 0; k < count; k++)
        if (!number(line + HEADER + 16 * k, 8, &g.words[k]))
            return 0;
    *f = g;
    return 1;
}

static void put(uint8_t *out, int width, uint64_t x)
{
    static const char digits[] = "0123456789abcdef";
    for (int i = 2 * width - 1; i >= 0; i--) {
        out[i] = digits[x & 15];
        x >>= 4;
    }
}

__attribute__((noinline)) static size_t plain_write(const struct flat *f, uint8_t *out, size_t room)
{
    size_t count = f->n + f->m;
    if (!proper(f))
        return 0;
    for (size_t k = count; k < 64; k++)
        if (f->words[k])
            return 0;
    size_t length = HEADER + 16 * count + 1;
    if (room < length)
        return 0;
    put(out, 1, f->kind);
    put(out + 2, 1, f->sender);
    put(out + 4, 4, f->view);
    put(out + 12, 4, f->ballot);
    put(out + 20, 4, f->proven_ballot);
    put(out + 28, 2, f->mask);
    put(out + 32, 1, f->n);
    put(out + 34, 1, f->m);
    for (size_t k = 0; k < count; k++)
        put(out + HEADER + 16 * k, 8, f->words[k]);
    out[length - 1] = '\n';
    return length;
}

static int same(const struct flat *f, const struct flat *g)
{
    return f->found == g->found && f->kind == g->kind && f->sender == g->sender && f->n == g->n && f->m == g->m && f->mask == g->mask && f->view == g->view
        && f->ballot == g->ballot && f->proven_ballot == g->proven_ballot && !memcmp(f->words, g->words, sizeof f->words);
}

static double now(void)
{
    struct timespec t;
    clock_gettime(CLOCK_MONOTONIC, &t);
    return t.tv_sec * 1e9 + t.tv_nsec;
}

/* the fastest of many rounds, in nanoseconds a call */
#define BEST(best, call)                                                                                                                                       \
    do {                                                                                                                                                       \
        best = 1e18;                                                                                                                                           \
        for (int round = 0; round < 200; round++) {                                                                                                            \
            double began = now();                                                                                                                              \
            for (int i = 0; i < 1000; i++) {                                                                                                                   \
                call;                                                                                                                                          \
                __asm__ volatile("" ::: "memory");                                                                                                             \
            }                                                                                                                                                  \
            double took = (now() - began) / 1000;                                                                                                              \
            if (took < best)                                                                                                                                   \
                best = took;                                                                                                                                   \
        }                                                                                                                                                      \
    } while (0)

int main(void)
{
    static struct flat f, g, h;
    static uint8_t line[LONGEST], out[LONGEST];
    double proved, plain;
    memset(value_of, 255, sizeof value_of);
    for (int d = 0; d < 16; d++)
        value_of[(uint8_t) "0123456789abcdef"[d]] = d;
    f = (struct flat){1, 3, 2, 32, 32, 7, 0, 9, 8, {0}};
    for (int k = 0; k < 64; k++)
        f.words[k] = 0x0123456789abcdefu * (2 * k + 1);
    size_t length = plain_write(&f, line, sizeof line);
    g = frame_bench_read(line, length, 0xffff);
    if (length != LONGEST || !plain_read(line, length, 0xffff, &h) || !same(&g, &h) || frame_bench_write(g, out, sizeof out) != length
        || memcmp(line, out, length)) {
        puts("the two differ");
        return 1;
    }
    BEST(proved, g = frame_bench_read(line, length, 0xffff));
    BEST(plain, plain_read(line, length, 0xffff, &h));
    printf("read:  proved %.0f ns, plain C %.0f ns, ratio %.2f\n", proved, plain, proved / plain);
    BEST(proved, frame_bench_write(f, out, sizeof out));
    BEST(plain, plain_write(&f, out, sizeof out));
    printf("write: proved %.0f ns, plain C %.0f ns, ratio %.2f\n", proved, plain, proved / plain);
    return 0;
}
