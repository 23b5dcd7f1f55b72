/*
 * Asks the library where it has the fields of the header's records. Each is set through the header, to a value that no other has, and a call shows
 * by its answer, by the line that it sends or by what it leaves whether the library has it there. Prints each field that was found.
 */
#include "speckleewe.h"

#include <inttypes.h>
#include <stdio.h>
#include <stdlib.h>
#include <string.h>

/* Document 01's samples: A and B conflict, D conflicts with neither. */
static const uint64_t A = UINT64_C(0x0101000100070000), B = UINT64_C(0x0202000100070000), D = UINT64_C(0x0303000100090005);

/* N-f is 11 and f+1 is 6, so that masks fill both bytes; views and ballots fill all four, and view mod N is 1. */
static const speckleewe_roster roster = {.n = 16, .f = 5};
enum { VIEW = 0x01020301, BALLOT = 0x0a0b0c0d, OLDER = 0x00102030, QUORUM = 11 };

static uint8_t out[SPECKLEEWE_LONGEST_LINE];

static void found(const char *field, int is)
{
    if (!is) {
        fprintf(stderr, "layout: header and library differ, as the call that asks for %s shows\n", field);
        exit(1);
    }
    puts(field);
}

/* A history, and whether a list is this one. */
struct list {
    uint8_t count;
    uint64_t words[3];
};
static const struct list none, a = {1, {A}}, b = {1, {B}}, d = {1, {D}}, ad = {2, {A, D}}, bad = {3, {B, A, D}};

static int holds(uint8_t count, const uint64_t *words, struct list h)
{
    return count == h.count && memcmp(words, h.words, h.count * sizeof *words) == 0;
}

static void put(uint8_t *count, uint64_t *words, struct list h)
{
    *count = h.count;
    memcpy(words, h.words, h.count * sizeof *words);
}

static void put_row(speckleewe_table *t, int site, struct list h)
{
    put(&t->counts[site], &t->words[SPECKLEEWE_MOST_COMMANDS * site], h);
}

static int row_holds(const speckleewe_table *t, int site, struct list h)
{
    return holds(t->counts[site], &t->words[SPECKLEEWE_MOST_COMMANDS * site], h);
}

/* A line of document 01's fields; the next one but one takes its place. */
static const char *line(unsigned kind, unsigned sender, unsigned view, unsigned ballot, unsigned proven, unsigned mask, struct list g, struct list h)
{
    static char texts[2][200];
    static int next;
    char *text = texts[next ^= 1];
    int end = sprintf(text, "%02x%02x%08x%08x%08x%04x%02x%02x", kind, sender, view, ballot, proven, mask, g.count, h.count);
    for (int i = 0; i < g.count + h.count; i++)
        end += sprintf(text + end, "%016" PRIx64, i < g.count ? g.words[i] : h.words[i - g.count]);
    strcpy(text + end, "\n");
    return text;
}

/* Whether a call answered 0 and sent this line; "" for none. */
static int sends(speckleewe_reply reply, const char *text)
{
    return reply.answer == SPECKLEEWE_ACCEPTED && reply.sent == strlen(text) && memcmp(out, text, reply.sent) == 0;
}

static speckleewe_learner_reply vote(speckleewe_learner_state *s, speckleewe_roster r, unsigned sender, unsigned mask, struct list h)
{
    const char *text = line(SPECKLEEWE_KIND_P2B, sender, 0, 1, 0, mask, h, none);
    return speckleewe_learner(s, r, (const uint8_t *)text, strlen(text));
}

static void rosters(void)
{
    speckleewe_learner_state s = speckleewe_learner_fresh();
    speckleewe_roster seven = {.n = 7, .f = 2};
    found("roster.n", vote(&s, seven, 6, 0x1f, a).answer == SPECKLEEWE_ACCEPTED && vote(&s, seven, 7, 0x1f, a).answer == SPECKLEEWE_SENDER);
    found("roster.f", vote(&s, seven, 5, 0x1f, a).answer == SPECKLEEWE_ACCEPTED && vote(&s, seven, 5, 0x0f, a).answer == SPECKLEEWE_PROOF);
}

static void learner(void)
{
    speckleewe_learner_state s = speckleewe_learner_fresh();
    for (int i = 0; i < QUORUM - 1; i++)
        put_row(&s.entries, i, a);
    speckleewe_learner_reply r = vote(&s, roster, 15, 0xffe0, ad);
    found("learner_reply.answer", r.answer == SPECKLEEWE_ACCEPTED);
    found("learner_reply.supporters", r.supporters == 1);
    found("learner_state.entries", row_holds(&s.entries, 15, ad));
    r = vote(&s, roster, 14, 0xffe0, a);
    found("table.counts", r.supporters == QUORUM + 1 && s.entries.counts[14] == 1);
    found("table.words", s.entries.words[SPECKLEEWE_MOST_COMMANDS * 14] == A);
    found("history.count", s.learned.count == 1);
    found("history.words", s.learned.words[0] == A);
    put(&s.learned.count, s.learned.words, b);
    found("learner_state.learned", vote(&s, roster, 13, 0xffe0, a).answer == SPECKLEEWE_SPLIT);
}

static void view_change(void)
{
    speckleewe_view_record v = {.view = {VIEW}, .suspicions = 0xf800};
    speckleewe_view view = {VIEW};
    int sent = sends(speckleewe_suspicion(&v, roster, 3, view, out, sizeof out), line(SPECKLEEWE_KIND_VIEWCHANGE, 3, VIEW + 1, 0, 0, 0xf808, none, none));
    found("view_record.suspicions", sent && v.suspicions == 0xf808);
    found("view_record.target", v.target.number == VIEW + 1);
    found("view_record.changes", v.changes == 0x0008);
    v.changes = 0xffc0;
    const char *text = line(SPECKLEEWE_KIND_VIEWCHANGE, 0, VIEW + 1, 0, 0, 0x003f, none, none);
    speckleewe_reply r = speckleewe_view_change(&v, roster, 3, (const uint8_t *)text, strlen(text), out, sizeof out);
    sent = sends(r, line(SPECKLEEWE_KIND_LEADER, 3, VIEW + 1, 0, 0, 0xffc1, none, none));
    found("view_record.view", sent && v.view.number == VIEW + 1 && v.target.number == 0 && v.suspicions == 0 && v.changes == 0);
}

static speckleewe_reply accept(speckleewe_site *s, const char *text)
{
    return speckleewe_acceptor(s, roster, 15, (const uint8_t *)text, strlen(text), out, sizeof out);
}

static void acceptor(void)
{
    speckleewe_site s = speckleewe_site_fresh();
    speckleewe_acceptor_state *c = &s.acceptor;
    s.views.view.number = VIEW;
    c->ballot.number = BALLOT;
    c->fast = 1;
    put(&c->held.count, c->held.words, a);
    int sent = sends(accept(&s, line(SPECKLEEWE_KIND_PROPOSE, 3, 0, BALLOT, 0, 0, d, none)), line(SPECKLEEWE_KIND_VERIFY, 15, VIEW, BALLOT, 0, 0, ad, none));
    found("site.views", sent);
    found("site.acceptor", sent);
    found("acceptor_state.signed_", c->signed_ == 1 && c->fast == 1);
    found("acceptor_state.held", holds(c->held.count, c->held.words, ad));
    found("acceptor_state.verified", row_holds(&c->verified, 15, ad));
    put(&c->proven.count, c->proven.words, a);
    c->proven_ballot.number = OLDER;
    c->certificate = 0xffe0;
    const char *p1a = line(SPECKLEEWE_KIND_P1A, 1, VIEW, BALLOT + 1, 0, 0, none, none);
    sent = sends(accept(&s, p1a), line(SPECKLEEWE_KIND_P1B, 15, 0, BALLOT + 1, OLDER, 0xffe0, a, ad));
    found("acceptor_state.proven", sent);
    found("acceptor_state.proven_ballot", sent);
    found("acceptor_state.certificate", sent);
    found("acceptor_state.ballot", c->ballot.number == BALLOT + 1);
    found("acceptor_state.fast", c->fast == 0 && c->signed_ == 0);
}

static speckleewe_reply lead(speckleewe_leader_state *s, const char *text)
{
    return speckleewe_leader(s, roster, 1, (const uint8_t *)text, strlen(text), out, sizeof out);
}

static void leader(void)
{
    speckleewe_leader_state s = speckleewe_leader_fresh();
    s.view.number = VIEW;
    s.ballot.number = BALLOT;
    speckleewe_opening o = {.ballot = {BALLOT + 1}, .fast = 1};
    int sent = sends(speckleewe_open_ballot(&s, roster, 1, o, out, sizeof out), line(SPECKLEEWE_KIND_FAST, 1, VIEW, BALLOT + 1, 0, 0, none, none));
    found("opening.ballot", sent);
    found("opening.fast", sent);
    found("leader_state.view", sent);
    found("leader_state.ballot", s.ballot.number == BALLOT + 1);
    s.classic = 1;
    s.reported = 0xffc0;
    put(&s.pending.count, s.pending.words, d);
    put_row(&s.proven, 15, b);
    put_row(&s.held, 6, a);
    const char *p1b = line(SPECKLEEWE_KIND_P1B, 0, 0, BALLOT + 1, 0, 0, none, none);
    sent = sends(lead(&s, p1b), line(SPECKLEEWE_KIND_P2A, 1, VIEW, BALLOT + 1, 0, 0, bad, none));
    found("leader_state.classic", sent);
    found("leader_state.proven", sent);
    found("leader_state.held", sent);
    found("leader_state.reported", s.reported == 0xffc1);
    found("leader_state.pending", s.pending.count == 0);
}

static void replies(void)
{
    speckleewe_site s = speckleewe_site_fresh();
    s.views.view.number = VIEW;
    speckleewe_reply r = accept(&s, line(SPECKLEEWE_KIND_P1A, 1, VIEW, BALLOT, 0, 0, none, none));
    found("reply.sent", r.sent == strlen(line(SPECKLEEWE_KIND_P1B, 15, 0, BALLOT, 0, 0, none, none)));
    r = accept(&s, line(SPECKLEEWE_KIND_P1A, 1, VIEW, BALLOT, 0, 0, none, none));
    found("reply.answer", r.answer == SPECKLEEWE_STALE && r.sent == 0);
}

int main(void)
{
    rosters();
    learner();
    view_change();
    acceptor();
    leader();
    replies();
    return 0;
}
