/* Making calls both ways, and comparing what comes of them. */
#include "calls.h"

#include <stdio.h>
#include <string.h>

size_t record_size(enum function function)
{
    switch (function) {
    case A_LEARNER:
        return sizeof(speckleewe_learner_state);
    case AN_ACCEPTOR:
        return sizeof(speckleewe_site);
    case A_LEADER:
    case AN_OPENING:
        return sizeof(speckleewe_leader_state);
    default:
        return sizeof(speckleewe_view_record);
    }
}

/* A reply of a function with a buffer. */
static struct reply with_buffer(speckleewe_reply r)
{
    return (struct reply){ r.answer, 0, r.sent };
}

/* A reply of the learner. */
static struct reply with_supporters(speckleewe_learner_reply r)
{
    return (struct reply){ r.answer, r.supporters, 0 };
}

/* Makes the call with the functions of one prefix. */
#define CALL(prefix)                                                                            \
    do {                                                                                        \
        switch (c->function) {                                                                  \
        case A_LEARNER:                                                                         \
            return with_supporters(prefix##_learner(&r->learner, c->roster, c->line,            \
                c->length));                                                                    \
        case AN_ACCEPTOR:                                                                       \
            return with_buffer(prefix##_acceptor(&r->site, c->roster, c->own, c->line,          \
                c->length, out, c->room));                                                      \
        case A_LEADER:                                                                          \
            return with_buffer(prefix##_leader(&r->leader, c->roster, c->own, c->line,          \
                c->length, out, c->room));                                                      \
        case AN_OPENING:                                                                        \
            return with_buffer(prefix##_open_ballot(&r->leader, c->roster, c->own, c->opening,  \
                out, c->room));                                                                 \
        case A_VIEW_CHANGE:                                                                     \
            return with_buffer(prefix##_view_change(&r->views, c->roster, c->own, c->line,      \
                c->length, out, c->room));                                                      \
        default:                                                                                \
            return with_buffer(prefix##_suspicion(&r->views, c->roster, c->own, c->view, out,   \
                c->room));                                                                      \
        }                                                                                       \
    } while (0)

struct reply call_library(const struct call *c, union record *r, uint8_t *out)
{
    CALL(speckleewe);
}

struct reply call_plain(const struct call *c, union record *r, uint8_t *out)
{
    CALL(plain);
}

/* Records are compared field by field, since padding means nothing. */

static bool same_history(const speckleewe_history *a, const speckleewe_history *b)
{
    return a->count == b->count && !memcmp(a->words, b->words, sizeof a->words);
}

static bool same_table(const speckleewe_table *a, const speckleewe_table *b)
{
    return !memcmp(a->counts, b->counts, sizeof a->counts)
        && !memcmp(a->words, b->words, sizeof a->words);
}

static bool same_views(const speckleewe_view_record *a, const speckleewe_view_record *b)
{
    return a->view.number == b->view.number && a->suspicions == b->suspicions && a->target.number == b->target.number
        && a->changes == b->changes;
}

static bool same_acceptor(const speckleewe_acceptor_state *a, const speckleewe_acceptor_state *b)
{
    return a->ballot.number == b->ballot.number && a->fast == b->fast && a->signed_ == b->signed_
        && same_history(&a->held, &b->held) && same_history(&a->proven, &b->proven)
        && a->proven_ballot.number == b->proven_ballot.number && a->certificate == b->certificate
        && same_table(&a->verified, &b->verified);
}

static bool same_leader(const speckleewe_leader_state *a, const speckleewe_leader_state *b)
{
    return a->view.number == b->view.number && a->ballot.number == b->ballot.number && a->classic == b->classic
        && same_history(&a->pending, &b->pending) && a->reported == b->reported
        && same_table(&a->proven, &b->proven) && same_table(&a->held, &b->held);
}

/* Whether two records of the function are the same. */
static bool same_record(enum function function, const union record *a, const union record *b)
{
    switch (function) {
    case A_LEARNER:
        return same_table(&a->learner.entries, &b->learner.entries)
            && same_history(&a->learner.learned, &b->learner.learned);
    case AN_ACCEPTOR:
        return same_views(&a->site.views, &b->site.views)
            && same_acceptor(&a->site.acceptor, &b->site.acceptor);
    case A_LEADER:
    case AN_OPENING:
        return same_leader(&a->leader, &b->leader);
    default:
        return same_views(&a->views, &b->views);
    }
}

bool same_outcome(const struct call *c, struct reply *reply, union record *after)
{
    static union record ours;
    static uint8_t out[LONGEST_LINE + 64], plain_out[LONGEST_LINE + 64];
    size_t size = record_size(c->function);

    memset(out, 0xa5, sizeof out);
    memset(plain_out, 0xa5, sizeof plain_out);
    memcpy(after, &c->record, size);
    memcpy(&ours, &c->record, size);
    *reply = call_library(c, after, out);
    struct reply plain = call_plain(c, &ours, plain_out);
    if (reply->answer != plain.answer || reply->supporters != plain.supporters)
        printf("library answers %d %d, plain C %d %d\n", reply->answer, reply->supporters,
               plain.answer, plain.supporters);
    else if (reply->sent != plain.sent)
        printf("library sends %zu bytes, plain C %zu\n", reply->sent, plain.sent);
    else if (!same_record(c->function, after, &ours))
        printf("the records differ after answer %d\n", plain.answer);
    else if (memcmp(out, plain_out, sizeof out) != 0)
        printf("the buffers differ after answer %d\n", plain.answer);
    else
        return true;
    return false;
}
