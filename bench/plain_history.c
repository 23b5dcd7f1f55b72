/* Histories in plain C: validity, canonical order, extension, and lists that are lent. */
#include "plain.h"

#include <string.h>

/* Whether a command's fields are right. */
static bool command_valid(uint64_t c)
{
    if (proposer_of(c) == 0 || serial_of(c) == 0)
        return false;
    switch (kind_of(c)) {
    case ENROL:
    case REVOKE:
        return argument_of(c) == 0;
    case RAISE:
        return argument_of(c) != 0;
    default:
        return false;
    }
}

/* Whether all commands are valid. */
bool plain_commands_valid(const uint64_t *h, size_t n)
{
    for (size_t i = 0; i < n; i++)
        if (!command_valid(h[i]))
            return false;
    return true;
}

/* Whether all commands are by this proposer. */
bool plain_commands_by(unsigned proposer, const uint64_t *h, size_t n)
{
    for (size_t i = 0; i < n; i++)
        if (proposer_of(h[i]) != proposer)
            return false;
    return true;
}

/* Whether some command has c's proposer and serial. */
static inline bool present(const uint64_t *h, size_t n, uint64_t c)
{
    for (size_t i = 0; i < n; i++)
        if (same_request(h[i], c))
            return true;
    return false;
}

/* Whether two commands have one proposer and serial. */
bool plain_repeated(const uint64_t *h, size_t n)
{
    for (size_t i = 1; i < n; i++)
        if (present(h, i, h[i]))
            return true;
    return false;
}

/* Where command i goes among those before it: left of a larger one, past none that conflicts. */
static inline size_t place(const uint64_t *h, size_t i)
{
    size_t at = i;

    for (size_t j = i; j > 0 && !conflict(h[j - 1], h[i]); j--)
        if (h[j - 1] > h[i])
            at = j - 1;
    return at;
}

/* Whether the commands are in canonical order: each in its place. */
bool plain_canonical(const uint64_t *h, size_t n)
{
    uint64_t largest = 0;

    for (size_t i = 0; i < n; i++) {
        if (h[i] >= largest)
            largest = h[i];
        else if (place(h, i) != i)
            return false;
    }
    return true;
}

/* Moves command `from` to the place `to` before it. */
static inline void move(uint64_t *h, size_t from, size_t to)
{
    uint64_t c = h[from];

    for (size_t j = from; j > to; j--)
        h[j] = h[j - 1];
    h[to] = c;
}

/* Puts the commands in canonical order. */
void plain_canonicalise(uint64_t *h, size_t n)
{
    uint64_t largest = 0;

    for (size_t i = 0; i < n; i++) {
        if (h[i] >= largest)
            largest = h[i];
        else
            move(h, i, place(h, i));
    }
}

/* Whether h extends g: g's commands can be taken off the front of h. */
bool plain_extends(const uint64_t *h, size_t hn, const uint64_t *g, size_t gn)
{
    uint64_t copy[2 * COMMANDS];

    if (gn > hn)
        return false;
    memcpy(copy, h, hn * sizeof *h);
    for (size_t i = 0; i < gn; i++) {
        size_t j = i; /* copy[i..hn] is what is left of h */

        while (j < hn && copy[j] != g[i]) {
            if (conflict(copy[j], g[i]))
                return false;
            j++;
        }
        if (j == hn)
            return false;
        move(copy, j, i);
    }
    return true;
}

/* Whether h holds c. */
bool plain_holds(const uint64_t *h, size_t n, uint64_t c)
{
    for (size_t i = 0; i < n; i++)
        if (h[i] == c)
            return true;
    return false;
}

size_t plain_append(uint64_t *h, size_t n, size_t most, const uint64_t *more, size_t count)
{
    for (size_t i = 0; i < count && n < most; i++)
        if (!present(h, n, more[i]))
            h[n++] = more[i];
    return n;
}

enum answer plain_propose(uint64_t *h, size_t *n, const uint64_t *proposed, size_t count)
{
    size_t fresh = 0;

    for (size_t i = 0; i < count; i++) {
        if (!present(h, *n, proposed[i]))
            fresh++;
        else if (!plain_holds(h, *n, proposed[i]))
            return REUSED;
    }
    if (fresh == 0)
        return NOTHING;
    if (*n + fresh > COMMANDS)
        return FULL;
    *n = plain_append(h, *n, COMMANDS, proposed, count);
    return ACCEPTED;
}

/* Whether a lent list is right: its length, its commands, and none repeated. */
static bool sound(const uint64_t *h, size_t n)
{
    return n <= COMMANDS && plain_commands_valid(h, n) && !plain_repeated(h, n);
}

/* Whether a lent list in any order is right. */
bool plain_list_valid(const speckleewe_history *h)
{
    return sound(h->words, h->count);
}

/* Whether a lent history is right. */
bool plain_history_valid(const speckleewe_history *h)
{
    return sound(h->words, h->count) && plain_canonical(h->words, h->count);
}

/* Whether a lent table is right: a history in each row below N, none above. */
bool plain_table_valid(const speckleewe_table *t, speckleewe_roster r)
{
    for (unsigned i = 0; i < r.n; i++) {
        const uint64_t *row = row_of(t, i);

        if (!sound(row, t->counts[i]) || !plain_canonical(row, t->counts[i]))
            return false;
    }
    for (unsigned i = r.n; i < SITES; i++)
        if (t->counts[i] != 0)
            return false;
    return true;
}

/* Stores a history, zeros after it. */
void plain_keep(speckleewe_history *to, const uint64_t *h, size_t n)
{
    to->count = (uint8_t)n;
    memcpy(to->words, h, n * sizeof *h);
    memset(to->words + n, 0, (COMMANDS - n) * sizeof *h);
}

/* Stores a history as a site's row, zeros after it. */
void plain_enter(speckleewe_table *t, unsigned site, const uint64_t *h, size_t n)
{
    uint64_t *row = t->words + (size_t)COMMANDS * site;

    t->counts[site] = (uint8_t)n;
    memcpy(row, h, n * sizeof *h);
    memset(row + n, 0, (COMMANDS - n) * sizeof *h);
}
