/*
 * The roles in plain C: the same checks, in the same order, on the same
 * records as the library, for comparing run times and answers.
 */
#ifndef PLAIN_H
#define PLAIN_H

#include <stdbool.h>
#include <stddef.h>
#include <stdint.h>

/* The library's records and functions. */
#include "speckleewe.h"

enum { SITES = 16, COMMANDS = 32, LONGEST_LINE = 1061 };

enum answer {
    ACCEPTED, CONFIG, FORM, SENDER, STALE, PROOF, COMMAND, HISTORY,
    BEHIND, REUSED, CONTRADICTION, SPLIT, NOTHING, FULL
};

enum frame_kind {
    P1A = 1, FAST, P1B, PROPOSE, P2A, VERIFY, P2B, SUSPICION, VIEWCHANGE, LEADER
};

enum command_kind { ENROL = 1, REVOKE, RAISE };

/* The roles, with the arguments of the library's functions. */

speckleewe_reply plain_view_change(speckleewe_view_record *views, speckleewe_roster roster,
    uint8_t own, const uint8_t *line, size_t length, uint8_t *out, size_t room);
speckleewe_reply plain_suspicion(speckleewe_view_record *views, speckleewe_roster roster,
    uint8_t own, speckleewe_view view, uint8_t *out, size_t room);
speckleewe_reply plain_acceptor(speckleewe_site *site, speckleewe_roster roster,
    uint8_t own, const uint8_t *line, size_t length, uint8_t *out, size_t room);
speckleewe_reply plain_leader(speckleewe_leader_state *state, speckleewe_roster roster,
    uint8_t own, const uint8_t *line, size_t length, uint8_t *out, size_t room);
speckleewe_reply plain_open_ballot(speckleewe_leader_state *state, speckleewe_roster roster,
    uint8_t own, speckleewe_opening opening, uint8_t *out, size_t room);
speckleewe_learner_reply plain_learner(speckleewe_learner_state *state,
    speckleewe_roster roster, const uint8_t *line, size_t length);

/* Rosters and masks */

/* Whether the roster is one that the rules allow. */
static inline bool roster_valid(speckleewe_roster r)
{
    return r.n >= 4 && r.n <= SITES && r.f >= 1 && r.n >= 3 * r.f + 1;
}

static inline unsigned quorum_of(speckleewe_roster r) { return r.n - r.f; }
static inline unsigned ones(uint16_t mask) { return (unsigned)__builtin_popcount(mask); }
static inline uint16_t bit(unsigned site) { return (uint16_t)(1u << site); }

/* Whether the mask has a bit at N or above. */
static inline bool beyond(uint16_t mask, speckleewe_roster r) { return mask >> r.n != 0; }

/* Whether roster, own number and buffer are right. */
static inline bool seated(speckleewe_roster r, uint8_t own, size_t room)
{
    return roster_valid(r) && own < r.n && room >= LONGEST_LINE;
}

/* Whether the masks of the view-change record have no bit at N or above. */
static inline bool views_valid(const speckleewe_view_record *v, speckleewe_roster r)
{
    return !beyond(v->suspicions, r) && !beyond(v->changes, r);
}

/* Commands */

static inline unsigned proposer_of(uint64_t c) { return (unsigned)(c >> 56); }
static inline unsigned kind_of(uint64_t c) { return c >> 48 & 0xff; }
static inline unsigned serial_of(uint64_t c) { return c >> 32 & 0xffff; }
static inline unsigned slot_of(uint64_t c) { return c >> 16 & 0xffff; }
static inline unsigned argument_of(uint64_t c) { return c & 0xffff; }

/* Whether proposer and serial agree. */
static inline bool same_request(uint64_t a, uint64_t b)
{
    return ((a ^ b) & UINT64_C(0xff00ffff00000000)) == 0;
}

/* Whether two commands conflict; both are valid, so the kinds are 1 to 3. */
static inline bool conflict(uint64_t a, uint64_t b)
{
    static const bool same_slot[4][4] = {
        [ENROL]  = { [ENROL] = true, [REVOKE] = true, [RAISE] = true },
        [REVOKE] = { [ENROL] = true, [REVOKE] = true, [RAISE] = true },
        [RAISE]  = { [ENROL] = true, [REVOKE] = true, [RAISE] = false },
    };

    if (same_request(a, b))
        return true;
    return slot_of(a) == slot_of(b) && same_slot[kind_of(a)][kind_of(b)];
}

/* Histories (plain_history.c): n commands from h on */

bool plain_commands_valid(const uint64_t *h, size_t n);
bool plain_commands_by(unsigned proposer, const uint64_t *h, size_t n);
bool plain_repeated(const uint64_t *h, size_t n);
bool plain_canonical(const uint64_t *h, size_t n);
void plain_canonicalise(uint64_t *h, size_t n);
bool plain_extends(const uint64_t *h, size_t hn, const uint64_t *g, size_t gn);
bool plain_holds(const uint64_t *h, size_t n, uint64_t c);

/*
 * Appends to the n commands in h those of `more` whose proposer and serial are
 * not there yet, up to `most` in all; answers how many there are then.
 */
size_t plain_append(uint64_t *h, size_t n, size_t most, const uint64_t *more, size_t count);

/*
 * A PROPOSE against the list of n commands in h, which has room for 64: appends
 * what is new, and leaves its number in *n; or answers REUSED, NOTHING or FULL.
 */
enum answer plain_propose(uint64_t *h, size_t *n, const uint64_t *proposed, size_t count);

bool plain_list_valid(const speckleewe_history *h);
bool plain_history_valid(const speckleewe_history *h);
bool plain_table_valid(const speckleewe_table *t, speckleewe_roster r);
void plain_keep(speckleewe_history *to, const uint64_t *h, size_t n);
void plain_enter(speckleewe_table *t, unsigned site, const uint64_t *h, size_t n);

/* The commands of a site's row. */
static inline const uint64_t *row_of(const speckleewe_table *t, unsigned site)
{
    return t->words + (size_t)COMMANDS * site;
}

/* Frames (plain_frame.c) */

typedef struct {
    uint8_t kind, sender;
    uint32_t view, ballot, proven_ballot;
    uint16_t mask;
    uint8_t n, m;
} plain_header;

typedef struct {
    plain_header head;
    uint64_t words[2 * COMMANDS]; /* n commands, then m */
} plain_frame;

/* Reads a line as a frame of one of the kinds (kind k is bit k); false: FORM. */
bool plain_read(const uint8_t *line, size_t length, unsigned kinds, plain_frame *frame);

/* Writes the line of a frame with these n and m commands; answers its length. */
size_t plain_write(plain_header head, const uint64_t *first, const uint64_t *second, uint8_t *out);

/* A call that is refused. */
static inline speckleewe_reply plain_refuse(enum answer answer)
{
    return (speckleewe_reply){ (uint8_t)answer, 0 };
}

/* A call that is accepted and sends so many bytes. */
static inline speckleewe_reply plain_accept(size_t sent)
{
    return (speckleewe_reply){ ACCEPTED, sent };
}

#endif
