#include "lines.h"

#include "random.h"

#include <stdlib.h>
#include <string.h>

static const char digits[] = "0123456789abcdef";

/* Proposers 1 to 4 with twelve serials each are more commands than a history holds. */
enum { PROPOSERS = 4, SERIALS = 12 };

/* A proposer's command by its serial: all kinds, few slots. */
static uint64_t command(uint64_t proposer, uint64_t serial)
{
    uint64_t kind = 1 + serial % 3, slot = proposer * serial % 5;
    uint64_t argument = kind == 3 ? serial : 0;
    return proposer << 56 | kind << 48 | serial << 32 | slot << 16 | argument;
}

static int rising(const void *a, const void *b)
{
    uint64_t x = *(const uint64_t *)a, y = *(const uint64_t *)b;
    return (x > y) - (x < y);
}

/* Rising order is canonical. Often these are the first commands; now and then one has another slot. */
size_t some_commands(uint64_t *to, uint64_t proposer)
{
    size_t n = 0, share = percent(50) ? 100 : percent(80) ? 1 + below(12) : below(100);
    size_t most = share < 100 ? SPECKLEEWE_MOST_COMMANDS : 1 + below(percent(90) ? 8 : SPECKLEEWE_MOST_COMMANDS);
    for (uint64_t p = 1; p <= PROPOSERS; p++)
        for (uint64_t s = 1; s <= SERIALS; s++)
            if ((proposer == 0 || p == proposer) && n < most && percent(share))
                to[n++] = command(p, s) ^ (below(500) ? 0 : UINT64_C(0x70000));
    if (n == 0)
        to[n++] = command(proposer ? proposer : 1, 1 + below(SERIALS));
    qsort(to, n, sizeof *to, rising);
    return n;
}

/* Appends a number of this many bytes. */
static void put(struct line *to, uint64_t number, int bytes)
{
    for (int i = 8 * bytes - 4; i >= 0; i -= 4)
        to->text[to->length++] = (uint8_t)digits[number >> i & 15];
}

/* A mask of sites, often of a quorum. */
static uint64_t some_mask(speckleewe_roster roster)
{
    uint64_t all = (UINT64_C(1) << (roster.n < 16 ? roster.n : 16)) - 1;
    uint64_t mask = percent(40) ? all : all & (random_word() | random_word());
    return percent(95) ? mask : random_word() & 0xffff;
}

/* The kinds that use a field, as bits. */
enum {
    LED = K(P1A) | K(FAST) | K(P2A),
    VIEWED = LED | K(VERIFY) | K(SUSPICION) | K(VIEWCHANGE) | K(LEADER),
    BALLOTED = LED | K(P1B) | K(PROPOSE) | K(VERIFY) | K(P2B),
    MASKED = K(P2B) | K(VIEWCHANGE) | K(LEADER),
    LISTED = K(PROPOSE) | K(P2A) | K(VERIFY) | K(P2B)
};

/* The header of a frame; a P1B with a proven history has its ballot and mask. */
static void put_header(struct line *to, int kind, speckleewe_roster roster, uint32_t view, uint32_t ballot, size_t n, size_t m)
{
    unsigned bit = 1u << kind;
    int proven = kind == SPECKLEEWE_KIND_P1B && n > 0;
    size_t sites = roster.n ? roster.n : 1;
    size_t sender = bit & LED && percent(90) ? view % sites : below(sites);
    put(to, (uint64_t)kind, 1);
    put(to, percent(98) ? sender : below(256), 1);
    put(to, bit & VIEWED ? view + (kind == SPECKLEEWE_KIND_VIEWCHANGE) : 0, 4);
    put(to, bit & BALLOTED ? ballot : 0, 4);
    put(to, proven ? ballot : 0, 4);
    put(to, bit & MASKED || proven ? some_mask(roster) : 0, 2);
    put(to, n, 1);
    put(to, m, 1);
}

void random_frame(struct line *to, unsigned kinds, speckleewe_roster roster, uint32_t view, uint32_t ballot)
{
    uint64_t lists[2][SPECKLEEWE_MOST_COMMANDS];
    size_t counts[2] = {0, 0};
    int kind;
    do
        kind = 1 + (int)below(10);
    while (kinds && !(kinds >> kind & 1));
    uint64_t proposer = kind == SPECKLEEWE_KIND_PROPOSE ? 1 + below(PROPOSERS) : 0;
    if ((1u << kind & LISTED) || (kind == SPECKLEEWE_KIND_P1B && percent(60)))
        counts[0] = some_commands(lists[0], proposer);
    if (kind == SPECKLEEWE_KIND_P1B && percent(90))
        counts[1] = some_commands(lists[1], 0);
    if (percent(5))
        view += 1 + (uint32_t)below(3);
    if (percent(10))
        ballot = percent(98) ? ballot + 1 : (uint32_t)random_word();
    to->length = 0;
    put_header(to, kind, roster, view, ballot, counts[0], counts[1]);
    if (proposer)
        to->text[3] = (uint8_t)digits[proposer];
    for (int list = 0; list < 2; list++)
        for (size_t i = 0; i < counts[list]; i++)
            put(to, lists[list][i], 8);
    to->text[to->length++] = '\n';
}

/* A command is written over the next one, or the two change places. */
static void disorder(struct line *l)
{
    uint8_t spare[16], *at;
    if (l->length < 36 + 32)
        return;
    at = l->text + 36 + 16 * below((l->length - 36 - 16) / 16);
    memcpy(spare, at + 16, 16);
    memcpy(at + 16, at, 16);
    if (percent(50))
        memcpy(at, spare, 16);
}

/* One place of a line changes. */
static void damage_once(struct line *l)
{
    if (l->length < 2)
        random_line(l);
    if (l->length < 2)
        return;
    size_t at = below(l->length);
    switch (below(10)) {
    case 0: l->text[at] ^= (uint8_t)(1u << below(8)); break;
    case 1: l->text[at] = (uint8_t)random_word(); break;
    case 2: l->length = at; break;
    case 3:
        if (l->length + 1 < LINE_ROOM)
            l->text[l->length++] = (uint8_t)digits[below(16)];
        break;
    case 4:
    case 5: disorder(l); break;
    case 6: l->text[at] = (uint8_t)(l->text[at] & ~0x20u); break;
    default: /* a digit of the header, mostly */
        at = below(l->length - 1 < 36 || percent(60) ? l->length - 1 : 36);
        l->text[at] = (uint8_t)digits[below(16)];
    }
}

void damage(struct line *line)
{
    for (size_t times = 1 + below(3); times > 0; times--)
        damage_once(line);
}

void random_line(struct line *to)
{
    to->length = percent(50) ? below(80) : below(LINE_ROOM);
    random_bytes(to->text, to->length);
    if (percent(50))
        for (size_t i = 0; i < to->length; i++)
            to->text[i] = (uint8_t)digits[to->text[i] & 15];
    if (to->length && percent(50))
        to->text[to->length - 1] = '\n';
}
