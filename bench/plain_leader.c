/* The leader in plain C. */
#include "plain.h"

#include <string.h>

enum { TAKEN = 1 << P1B | 1 << PROPOSE | 1 << LEADER };

/* Whether everything that is lent is right. */
static bool config_right(const speckleewe_leader_state *s, speckleewe_roster r, uint8_t own,
                         size_t room)
{
    return seated(r, own, room) && !beyond(s->reported, r) && plain_list_valid(&s->pending)
        && plain_table_valid(&s->proven, r) && plain_table_valid(&s->held, r);
}

/* Whether a LEADER or P1B comes when it may. */
static bool timely(const plain_header *h, const speckleewe_leader_state *s, speckleewe_roster r,
                   uint8_t own)
{
    if (h->kind == LEADER)
        return h->view % r.n == own && h->view > s->view.number;
    return s->classic && h->ballot == s->ballot.number && !(s->reported & bit(h->sender))
        && ones(s->reported) < quorum_of(r);
}

/* The checks of a LEADER or P1B up to its proof. */
static enum answer check(const plain_header *h, const speckleewe_leader_state *s,
                         speckleewe_roster r, uint8_t own)
{
    if (h->sender >= r.n)
        return SENDER;
    if (!timely(h, s, r, own))
        return STALE;
    if (h->kind == P1B && h->n == 0)
        return h->proven_ballot == 0 && h->mask == 0 ? ACCEPTED : PROOF;
    if (beyond(h->mask, r) || ones(h->mask) < quorum_of(r))
        return PROOF;
    return ACCEPTED;
}

/* Whether each of the two lists of a report is a history in canonical order. */
static enum answer check_report(const uint64_t *proven, size_t n, const uint64_t *held, size_t m)
{
    if (!plain_commands_valid(proven, n) || !plain_commands_valid(held, m))
        return COMMAND;
    if (plain_repeated(proven, n) || !plain_canonical(proven, n))
        return HISTORY;
    if (plain_repeated(held, m) || !plain_canonical(held, m))
        return HISTORY;
    return ACCEPTED;
}

/* The site with the longest proven history of the reports, of equals the lowest. */
static unsigned longest(const speckleewe_leader_state *s, speckleewe_roster r)
{
    unsigned best = (unsigned)__builtin_ctz(s->reported);

    for (unsigned i = best + 1; i < r.n; i++)
        if (s->reported & bit(i) && s->proven.counts[i] > s->proven.counts[best])
            best = i;
    return best;
}

/* What the reports and the pending commands come to, in canonical order; its length. */
static size_t collect(const speckleewe_leader_state *s, speckleewe_roster r, uint64_t *result)
{
    unsigned best = longest(s, r);
    size_t n = s->proven.counts[best];

    memcpy(result, row_of(&s->proven, best), n * sizeof *result);
    for (unsigned i = 0; i < r.n; i++)
        if (s->reported & bit(i))
            n = plain_append(result, n, COMMANDS, row_of(&s->held, i), s->held.counts[i]);
    n = plain_append(result, n, COMMANDS, s->pending.words, s->pending.count);
    plain_canonicalise(result, n);
    return n;
}

/* Pending keeps the commands that the result doesn't hold. */
static void drop(speckleewe_history *pending, const uint64_t *result, size_t n)
{
    uint64_t left[COMMANDS];
    size_t count = 0;

    for (size_t i = 0; i < pending->count; i++)
        if (!plain_holds(result, n, pending->words[i]))
            left[count++] = pending->words[i];
    plain_keep(pending, left, count);
}

/* A P1B: the report is kept; the last one makes a P2A go out. */
static speckleewe_reply report(speckleewe_leader_state *s, speckleewe_roster r, uint8_t own,
                               const plain_frame *f, uint8_t *out)
{
    const plain_header *h = &f->head;
    const uint64_t *held = f->words + h->n;
    uint64_t result[COMMANDS];
    enum answer answer = check_report(f->words, h->n, held, h->m);

    if (answer != ACCEPTED)
        return plain_refuse(answer);
    s->reported |= bit(h->sender);
    plain_enter(&s->proven, h->sender, f->words, h->n);
    plain_enter(&s->held, h->sender, held, h->m);
    if (ones(s->reported) < quorum_of(r))
        return plain_accept(0);

    size_t n = collect(s, r, result);
    drop(&s->pending, result, n);
    if (n == 0)
        return plain_accept(0);
    plain_header p2a = {
        .kind = P2A, .sender = own, .view = s->view.number, .ballot = s->ballot.number, .n = (uint8_t)n,
    };
    return plain_accept(plain_write(p2a, result, NULL, out));
}

/* A PROPOSE: what is new is appended to what is pending. */
static speckleewe_reply propose(speckleewe_leader_state *s, const plain_frame *f)
{
    uint64_t work[2 * COMMANDS];
    size_t n = s->pending.count, count = f->head.n;

    if (f->head.sender == 0)
        return plain_refuse(SENDER);
    if (!plain_commands_valid(f->words, count)
        || !plain_commands_by(f->head.sender, f->words, count))
        return plain_refuse(COMMAND);
    if (count == 0 || plain_repeated(f->words, count))
        return plain_refuse(HISTORY);
    memcpy(work, s->pending.words, n * sizeof *work);
    enum answer answer = plain_propose(work, &n, f->words, count);
    if (answer != ACCEPTED)
        return plain_refuse(answer);
    plain_keep(&s->pending, work, n);
    return plain_accept(0);
}

/* A LEADER, PROPOSE or P1B at the leader of site `own`. */
speckleewe_reply plain_leader(speckleewe_leader_state *state, speckleewe_roster roster,
    uint8_t own, const uint8_t *line, size_t length, uint8_t *out, size_t room)
{
    plain_frame f;

    if (!config_right(state, roster, own, room))
        return plain_refuse(CONFIG);
    if (!plain_read(line, length, TAKEN, &f))
        return plain_refuse(FORM);
    if (f.head.kind == PROPOSE)
        return propose(state, &f);
    enum answer answer = check(&f.head, state, roster, own);
    if (answer != ACCEPTED)
        return plain_refuse(answer);
    if (f.head.kind == P1B)
        return report(state, roster, own, &f, out);
    state->view.number = f.head.view;
    return plain_accept(0);
}

/* The leader of site `own` opens a ballot. */
speckleewe_reply plain_open_ballot(speckleewe_leader_state *state, speckleewe_roster roster,
    uint8_t own, speckleewe_opening opening, uint8_t *out, size_t room)
{
    uint32_t ballot = opening.ballot.number;

    if (!config_right(state, roster, own, room))
        return plain_refuse(CONFIG);
    if (ballot <= state->ballot.number || state->view.number % roster.n != own)
        return plain_refuse(STALE);
    state->ballot.number = ballot;
    state->classic = !opening.fast;
    state->reported = 0;
    memset(&state->proven, 0, sizeof state->proven);
    memset(&state->held, 0, sizeof state->held);
    plain_header head = {
        .kind = opening.fast ? FAST : P1A, .sender = own, .view = state->view.number, .ballot = ballot,
    };
    return plain_accept(plain_write(head, NULL, NULL, out));
}
