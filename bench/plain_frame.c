/* Frames in plain C: reading a line and writing one. */
#include "plain.h"

enum { HEADER = 36, COMMAND_DIGITS = 16 }; /* in characters */

/* The fields that a kind may use besides the sender. */
enum { VIEW = 1, BALLOT = 2, PROVEN_BALLOT = 4, MASK = 8, COUNT_N = 16, COUNT_M = 32 };

static const uint8_t uses[] = {
    [P1A] = VIEW | BALLOT,
    [FAST] = VIEW | BALLOT,
    [P1B] = BALLOT | PROVEN_BALLOT | MASK | COUNT_N | COUNT_M,
    [PROPOSE] = BALLOT | COUNT_N,
    [P2A] = VIEW | BALLOT | COUNT_N,
    [VERIFY] = VIEW | BALLOT | COUNT_N,
    [P2B] = BALLOT | MASK | COUNT_N,
    [SUSPICION] = VIEW,
    [VIEWCHANGE] = VIEW | MASK,
    [LEADER] = VIEW | MASK,
};

/* One more than the value of each lower-case hex digit, and 0 for all else. */
static const uint8_t digit[256] = {
    ['0'] = 1, ['1'] = 2, ['2'] = 3, ['3'] = 4, ['4'] = 5, ['5'] = 6, ['6'] = 7, ['7'] = 8,
    ['8'] = 9, ['9'] = 10, ['a'] = 11, ['b'] = 12, ['c'] = 13, ['d'] = 14, ['e'] = 15, ['f'] = 16,
};

/* Reads a number of so many digits and moves on; false if one of them is none. */
static inline bool get(const uint8_t **at, int digits, uint64_t *number)
{
    uint64_t x = 0;

    for (int i = 0; i < digits; i++) {
        unsigned d = digit[(*at)[i]];

        if (d == 0)
            return false;
        x = x << 4 | (d - 1);
    }
    *number = x;
    *at += digits;
    return true;
}

/* Reads the header's fields, whatever they say; false if not all are digits. */
static bool get_header(const uint8_t **at, plain_header *h)
{
    uint64_t kind, sender, view, ballot, proven_ballot, mask, n, m;

    if (!get(at, 2, &kind) || !get(at, 2, &sender) || !get(at, 8, &view) || !get(at, 8, &ballot)
        || !get(at, 8, &proven_ballot) || !get(at, 4, &mask) || !get(at, 2, &n) || !get(at, 2, &m))
        return false;
    *h = (plain_header){
        (uint8_t)kind, (uint8_t)sender, (uint32_t)view, (uint32_t)ballot, (uint32_t)proven_ballot,
        (uint16_t)mask, (uint8_t)n, (uint8_t)m,
    };
    return true;
}

/* Whether the fields that the kind doesn't use are 0. */
static bool unused_zero(const plain_header *h)
{
    unsigned u = uses[h->kind];

    return (u & VIEW || h->view == 0) && (u & BALLOT || h->ballot == 0)
        && (u & PROVEN_BALLOT || h->proven_ballot == 0) && (u & MASK || h->mask == 0)
        && (u & COUNT_N || h->n == 0) && (u & COUNT_M || h->m == 0);
}

bool plain_read(const uint8_t *line, size_t length, unsigned kinds, plain_frame *frame)
{
    const plain_header *h = &frame->head;
    const uint8_t *at = line;

    if (length < HEADER + 1 || line[length - 1] != '\n' || !get_header(&at, &frame->head))
        return false;
    if (h->kind > LEADER || !(kinds >> h->kind & 1) || !unused_zero(h))
        return false;
    if (h->n > COMMANDS || h->m > COMMANDS)
        return false;

    size_t count = (size_t)h->n + h->m;
    if (length != HEADER + COMMAND_DIGITS * count + 1)
        return false;
    for (size_t i = 0; i < count; i++)
        if (!get(&at, COMMAND_DIGITS, &frame->words[i]))
            return false;
    return true;
}

/* Writes a number as so many digits; answers the place after them. */
static inline uint8_t *put(uint8_t *out, int digits, uint64_t number)
{
    for (int i = digits - 1; i >= 0; i--) {
        out[i] = (uint8_t)"0123456789abcdef"[number & 15];
        number >>= 4;
    }
    return out + digits;
}

size_t plain_write(plain_header h, const uint64_t *first, const uint64_t *second, uint8_t *out)
{
    uint8_t *at = out;

    at = put(at, 2, h.kind);
    at = put(at, 2, h.sender);
    at = put(at, 8, h.view);
    at = put(at, 8, h.ballot);
    at = put(at, 8, h.proven_ballot);
    at = put(at, 4, h.mask);
    at = put(at, 2, h.n);
    at = put(at, 2, h.m);
    for (size_t i = 0; i < h.n; i++)
        at = put(at, COMMAND_DIGITS, first[i]);
    for (size_t i = 0; i < h.m; i++)
        at = put(at, COMMAND_DIGITS, second[i]);
    *at++ = '\n';
    return (size_t)(at - out);
}
