/* The acceptor in plain C. */
#include "plain.h"

#include <string.h>

enum { TAKEN = 1 << P1A | 1 << FAST | 1 << PROPOSE | 1 << P2A | 1 << VERIFY };

/* Whether the lent state is right. */
static bool state_valid(const speckleewe_site *s, speckleewe_roster r)
{
    return views_valid(&s->views, r) && !beyond(s->acceptor.certificate, r)
        && plain_history_valid(&s->acceptor.held) && plain_history_valid(&s->acceptor.proven)
        && plain_table_valid(&s->acceptor.verified, r);
}

/* Whether the frame comes from a site that may send its kind. */
static bool sender_right(const plain_header *h, speckleewe_roster r)
{
    switch (h->kind) {
    case PROPOSE:
        return h->sender != 0;
    case VERIFY:
        return h->sender < r.n;
    default:
        return h->sender == h->view % r.n;
    }
}

/* Whether view and ballot are those that the kind needs. */
static bool timely(const plain_header *h, const speckleewe_site *s)
{
    const speckleewe_acceptor_state *a = &s->acceptor;

    switch (h->kind) {
    case PROPOSE:
        return h->ballot == a->ballot.number && a->fast;
    case VERIFY:
        return h->view == s->views.view.number && h->ballot == a->ballot.number;
    case P2A:
        return h->view == s->views.view.number && h->ballot == a->ballot.number && !a->fast;
    default:
        return h->view == s->views.view.number && h->ballot > a->ballot.number;
    }
}

/* The checks of a frame up to its history. */
static enum answer check(const plain_frame *f, const speckleewe_site *s, speckleewe_roster r)
{
    const plain_header *h = &f->head;

    if (!sender_right(h, r))
        return SENDER;
    if (!timely(h, s))
        return STALE;
    if (h->kind == P1A || h->kind == FAST)
        return ACCEPTED;
    if (!plain_commands_valid(f->words, h->n)
        || (h->kind == PROPOSE && !plain_commands_by(h->sender, f->words, h->n)))
        return COMMAND;
    if (h->n == 0 || plain_repeated(f->words, h->n)
        || (h->kind != PROPOSE && !plain_canonical(f->words, h->n)))
        return HISTORY;
    return ACCEPTED;
}

/* Takes a ballot; P1A is answered by P1B. */
static speckleewe_reply take_ballot(speckleewe_acceptor_state *a, uint8_t own,
                                    const plain_header *h, uint8_t *out)
{
    a->ballot.number = h->ballot;
    a->fast = h->kind == FAST;
    a->signed_ = 0;
    memset(&a->verified, 0, sizeof a->verified);
    if (h->kind == FAST)
        return plain_accept(0);
    plain_header p1b = {
        .kind = P1B, .sender = own, .ballot = a->ballot.number,
        .proven_ballot = a->proven_ballot.number, .mask = a->certificate,
        .n = a->proven.count, .m = a->held.count,
    };
    return plain_accept(plain_write(p1b, a->proven.words, a->held.words, out));
}

/* Signs h: it becomes held and the own entry, and VERIFY goes out. */
static speckleewe_reply sign(speckleewe_site *s, uint8_t own, const uint64_t *h, size_t n,
                             uint8_t *out)
{
    speckleewe_acceptor_state *a = &s->acceptor;
    plain_header verify = {
        .kind = VERIFY, .sender = own, .view = s->views.view.number, .ballot = a->ballot.number,
        .n = (uint8_t)n,
    };

    plain_keep(&a->held, h, n);
    plain_enter(&a->verified, own, h, n);
    a->signed_ = 1;
    return plain_accept(plain_write(verify, h, NULL, out));
}

/* A P2A: its history must extend the proven one and what was signed. */
static speckleewe_reply obey(speckleewe_site *s, uint8_t own, const uint64_t *h, size_t n,
                             uint8_t *out)
{
    const speckleewe_acceptor_state *a = &s->acceptor;

    if (!plain_extends(h, n, a->proven.words, a->proven.count))
        return plain_refuse(BEHIND);
    if (a->signed_ && !plain_extends(h, n, a->held.words, a->held.count))
        return plain_refuse(BEHIND);
    return sign(s, own, h, n, out);
}

/* A PROPOSE: what is new is appended to what is held. */
static speckleewe_reply propose(speckleewe_site *s, uint8_t own, const uint64_t *proposed,
                                size_t count, uint8_t *out)
{
    const speckleewe_acceptor_state *a = &s->acceptor;
    uint64_t work[2 * COMMANDS];
    size_t n = a->held.count;

    if (!plain_extends(a->held.words, n, a->proven.words, a->proven.count))
        return plain_refuse(BEHIND);
    memcpy(work, a->held.words, n * sizeof *work);
    enum answer answer = plain_propose(work, &n, proposed, count);
    if (answer != ACCEPTED)
        return plain_refuse(answer);
    plain_canonicalise(work, n);
    return sign(s, own, work, n, out);
}

/* The sites whose entry is h. */
static uint16_t certificate_of(const speckleewe_table *t, speckleewe_roster r, const uint64_t *h,
                               size_t n)
{
    uint16_t mask = 0;

    for (unsigned i = 0; i < r.n; i++)
        if (t->counts[i] == n && memcmp(row_of(t, i), h, n * sizeof *h) == 0)
            mask |= bit(i);
    return mask;
}

/* A VERIFY that was stored: h becomes proven and P2B goes out, or not yet. */
static speckleewe_reply prove(speckleewe_acceptor_state *a, speckleewe_roster r, uint8_t own,
                              const uint64_t *h, size_t n, uint8_t *out)
{
    speckleewe_history *proven = &a->proven;
    uint16_t mask = certificate_of(&a->verified, r, h, n);

    if (ones(mask) < quorum_of(r) || !plain_extends(h, n, proven->words, proven->count))
        return plain_accept(0);
    if (a->proven_ballot.number == a->ballot.number && proven->count == n
        && memcmp(proven->words, h, n * sizeof *h) == 0)
        return plain_accept(0);
    plain_keep(proven, h, n);
    a->proven_ballot.number = a->ballot.number;
    a->certificate = mask;
    plain_header p2b = {
        .kind = P2B, .sender = own, .ballot = a->ballot.number, .mask = mask, .n = (uint8_t)n,
    };
    return plain_accept(plain_write(p2b, h, NULL, out));
}

/* A VERIFY: stored if it extends the site's entry, else it must be extended by it. */
static speckleewe_reply verify(speckleewe_acceptor_state *a, speckleewe_roster r, uint8_t own,
                               const plain_frame *f, uint8_t *out)
{
    unsigned sender = f->head.sender;
    size_t n = f->head.n, count = a->verified.counts[sender];
    const uint64_t *entry = row_of(&a->verified, sender);

    if (plain_extends(f->words, n, entry, count)) {
        plain_enter(&a->verified, sender, f->words, n);
        return prove(a, r, own, f->words, n, out);
    }
    if (plain_extends(entry, count, f->words, n))
        return plain_accept(0);
    return plain_refuse(CONTRADICTION);
}

/* A P1A, FAST, PROPOSE, P2A or VERIFY at site `own`. */
speckleewe_reply plain_acceptor(speckleewe_site *site, speckleewe_roster roster, uint8_t own,
    const uint8_t *line, size_t length, uint8_t *out, size_t room)
{
    plain_frame f;

    if (!seated(roster, own, room) || !state_valid(site, roster))
        return plain_refuse(CONFIG);
    if (!plain_read(line, length, TAKEN, &f))
        return plain_refuse(FORM);
    enum answer answer = check(&f, site, roster);
    if (answer != ACCEPTED)
        return plain_refuse(answer);
    switch (f.head.kind) {
    case PROPOSE:
        return propose(site, own, f.words, f.head.n, out);
    case P2A:
        return obey(site, own, f.words, f.head.n, out);
    case VERIFY:
        return verify(&site->acceptor, roster, own, &f, out);
    default:
        return take_ballot(&site->acceptor, own, &f.head, out);
    }
}
