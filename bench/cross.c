/*
 * cross [SEED [CALLS]]: random calls of every role, right and damaged, made to
 * the library and to the plain version. Ends at the first difference; else
 * prints how often each answer came.
 */
#include "calls.h"

#include <stdio.h>
#include <stdlib.h>
#include <string.h>

enum { FUNCTIONS = 6, ANSWERS = 14, MASTER = 40 };

/* What the calls of a run have in common. */
static uint64_t master[MASTER]; /* commands of which histories are made */
static size_t usual;            /* how many of them most histories have */
static uint32_t slots;          /* from how many slots they are */
static speckleewe_roster roster;
static uint8_t own;

/* Random numbers */

static uint64_t seed = 20250101;

static uint32_t any(void)
{
    seed ^= seed >> 12;
    seed ^= seed << 25;
    seed ^= seed >> 27;
    return (uint32_t)(seed * UINT64_C(0x2545f4914f6cdd1d) >> 32);
}

static uint32_t below(uint32_t n) { return any() % n; }
static bool once_in(uint32_t n) { return below(n) == 0; }

/* Histories */

/* A command of a few proposers, serials and slots. */
static uint64_t some_command(void)
{
    uint64_t kind = 1 + below(3);

    return (uint64_t)(1 + below(4)) << 56 | kind << 48 | (uint64_t)(1 + below(12)) << 32
        | (uint64_t)below(slots) << 16 | (kind == RAISE ? 1 + below(2) : 0);
}

/* Fills the master list: valid, no proposer and serial twice. */
static void make_master(void)
{
    size_t n = 0;

    slots = once_in(3) ? 1000 : 6;
    while (n < MASTER) {
        uint64_t c = some_command();

        n = plain_append(master, n, MASTER, &c, 1);
    }
    usual = once_in(4) ? COMMANDS : once_in(6) ? 0 : below(COMMANDS + 1);
}

/* A canonical history, most often the first commands of the master list; its length. */
static size_t some_history(uint64_t *h)
{
    size_t n = usual;

    if (once_in(4))
        n = usual > 0 ? usual - 1 : 1;
    else if (once_in(4))
        n = below(COMMANDS + 1);
    memcpy(h, once_in(10) ? master + below(MASTER - COMMANDS) : master, n * sizeof *h);
    if (n > 0 && once_in(12)) {
        size_t at = below((uint32_t)n);
        uint64_t c = h[at];

        h[at] = once_in(2) ? master[MASTER - 1 - below(8)] : some_command();
        if (plain_repeated(h, n))
            h[at] = c;
    }
    if (n > 1 && once_in(8)) {
        h[below((uint32_t)n)] = h[n - 1];
        n--;
    }
    plain_canonicalise(h, n);
    return n;
}

/* Some history in a record; often with words after it, which mean nothing. */
static void plant(uint8_t *count, uint64_t *words)
{
    size_t n = some_history(words);

    *count = (uint8_t)n;
    for (size_t i = n; i < COMMANDS; i++)
        words[i] = once_in(3) ? any() : 0;
}

static void plant_history(speckleewe_history *h) { plant(&h->count, h->words); }

static void plant_table(speckleewe_table *t)
{
    for (unsigned i = 0; i < roster.n; i++)
        if (!once_in(5))
            plant(&t->counts[i], t->words + COMMANDS * i);
}

/* A mask below N, most often with many ones. */
static uint16_t some_mask(void)
{
    uint16_t mask = (uint16_t)(any() | (once_in(3) ? 0 : any()) | (once_in(3) ? 0 : any()));

    return mask & (uint16_t)((1u << roster.n) - 1);
}

/* A view or ballot near this one. */
static uint32_t near(uint32_t x)
{
    switch (below(8)) {
    case 0:
        return x + 1;
    case 1:
        return x - 1;
    case 2:
        return x + below(20);
    default:
        return x;
    }
}

/* Records */

static void plant_views(speckleewe_view_record *v)
{
    v->view.number = once_in(6) ? UINT32_MAX - below(3) : below(20);
    v->suspicions = some_mask();
    v->target.number = once_in(2) ? 0 : near(v->view.number);
    v->changes = some_mask();
}

static void plant_acceptor(speckleewe_acceptor_state *a)
{
    a->ballot.number = below(4);
    a->fast = (uint8_t)(once_in(2) ? 0 : any());
    a->signed_ = (uint8_t)below(2);
    plant_history(&a->held);
    plant_history(&a->proven);
    a->proven_ballot.number = below(4);
    a->certificate = some_mask();
    plant_table(&a->verified);
}

static void plant_leader(speckleewe_leader_state *s)
{
    s->view.number = SITES + below(20);
    s->ballot.number = below(4);
    s->classic = (uint8_t)(once_in(4) ? 0 : 1);
    plant_history(&s->pending);
    s->reported = some_mask() & (uint16_t)(any() | any());
    plant_table(&s->proven);
    plant_table(&s->held);
}

/* A record of the function: fresh, or one that random histories fill. */
static void plant_record(enum function function, union record *r)
{
    memset(r, 0, sizeof *r);
    if (once_in(4))
        return;
    switch (function) {
    case A_LEARNER:
        plant_table(&r->learner.entries);
        plant_history(&r->learner.learned);
        break;
    case AN_ACCEPTOR:
        plant_views(&r->site.views);
        plant_acceptor(&r->site.acceptor);
        break;
    case A_LEADER:
        plant_leader(&r->leader);
        break;
    default:
        plant_views(&r->views);
    }
}

/* Damages a list by its count and its words. */
static void damage_list(uint8_t *count, uint64_t *words)
{
    unsigned n = *count > 0 && *count <= COMMANDS ? *count : 1;
    unsigned i = below(n), j = below(n);
    uint64_t c = words[i];

    switch (below(5)) {
    case 0:
        *count = (uint8_t)(33 + below(223));
        break;
    case 1:
        words[i] ^= UINT64_C(1) << below(64);
        break;
    case 2:
        words[i] = words[j];
        break;
    case 3:
        words[i] &= ~(UINT64_C(0xffff) << 16 * below(4));
        break;
    default:
        words[i] = words[j];
        words[j] = c;
    }
}

/* Damages a row of a table, or gives a site at N or above one. */
static void damage_table(speckleewe_table *t)
{
    unsigned i = below(once_in(4) ? SITES : roster.n);

    if (i >= roster.n)
        t->counts[i] = (uint8_t)below(40);
    else
        damage_list(&t->counts[i], t->words + COMMANDS * i);
}

static void damage_mask(uint16_t *mask) { *mask ^= bit(below(16)); }

/* Damages a list of a record. */
static void damage_history(speckleewe_history *h) { damage_list(&h->count, h->words); }

static void damage_views(speckleewe_view_record *v)
{
    damage_mask(once_in(2) ? &v->suspicions : &v->changes);
}

static void damage_acceptor(speckleewe_acceptor_state *a)
{
    switch (below(4)) {
    case 0:
        damage_mask(&a->certificate);
        break;
    case 1:
        damage_history(&a->held);
        break;
    case 2:
        damage_history(&a->proven);
        break;
    default:
        damage_table(&a->verified);
    }
}

static void damage_leader(speckleewe_leader_state *s)
{
    switch (below(4)) {
    case 0:
        damage_mask(&s->reported);
        break;
    case 1:
        damage_history(&s->pending);
        break;
    default:
        damage_table(once_in(2) ? &s->proven : &s->held);
    }
}

/* Damages a function's record somewhere. */
static void damage_record(enum function function, union record *r)
{
    switch (function) {
    case A_LEARNER:
        if (once_in(2))
            damage_table(&r->learner.entries);
        else
            damage_history(&r->learner.learned);
        break;
    case AN_ACCEPTOR:
        if (once_in(4))
            damage_views(&r->site.views);
        else
            damage_acceptor(&r->site.acceptor);
        break;
    case A_LEADER:
    case AN_OPENING:
        damage_leader(&r->leader);
        break;
    default:
        damage_views(&r->views);
    }
}

/* Frames */

/* The commands of one proposer of the master list, in any order; how many. */
static size_t some_proposal(uint8_t proposer, uint64_t *h)
{
    size_t n = 0, most = once_in(6) ? COMMANDS : below(4);

    for (size_t tries = 0; tries < 2 * MASTER && n < most; tries++) {
        uint64_t c = once_in(12) ? some_command() : master[below(MASTER)];

        if (proposer_of(c) == proposer || once_in(200))
            n = plain_append(h, n, COMMANDS, &c, 1);
    }
    return n;
}

/* The kinds that a function takes. */
static uint8_t some_kind(enum function function)
{
    static const uint8_t acceptor[] = { P1A, FAST, PROPOSE, PROPOSE, P2A, P2A, VERIFY, VERIFY };
    static const uint8_t leader[] = { P1B, P1B, P1B, PROPOSE, PROPOSE, LEADER };

    if (once_in(40))
        return (uint8_t)below(13);
    switch (function) {
    case A_LEARNER:
        return P2B;
    case AN_ACCEPTOR:
        return acceptor[below(sizeof acceptor)];
    case A_LEADER:
        return leader[below(sizeof leader)];
    default:
        return once_in(2) ? SUSPICION : VIEWCHANGE;
    }
}

/* The header of a frame for a record in this view and ballot, before the counts. */
static plain_header some_header(enum function function, uint32_t view, uint32_t ballot)
{
    plain_header h = { .kind = some_kind(function), .sender = (uint8_t)below(roster.n) };
    bool led = h.kind == P1A || h.kind == FAST || h.kind == P2A;

    h.view = near(view);
    h.ballot = near(ballot);
    if (led && !once_in(12))
        h.sender = (uint8_t)(h.view % roster.n);
    if (h.kind == LEADER && !once_in(4))
        h.view = h.view - h.view % roster.n + own;
    h.mask = some_mask();
    h.proven_ballot = below(3);
    if (h.kind == PROPOSE)
        h.sender = (uint8_t)below(5);
    if (once_in(40))
        h.sender = (uint8_t)any();
    if (once_in(40))
        damage_mask(&h.mask);
    return h;
}

/* Sets to 0 what the kind doesn't use. */
static void clear_unused(plain_header *h)
{
    if (h->kind == P1B || h->kind == PROPOSE || h->kind == P2B)
        h->view = 0;
    if (h->kind >= SUSPICION)
        h->ballot = 0;
    if (h->kind != P1B)
        h->proven_ballot = 0;
    if (h->kind != P1B && h->kind != P2B && h->kind != VIEWCHANGE && h->kind != LEADER)
        h->mask = 0;
    if (h->kind <= FAST || h->kind >= SUSPICION)
        h->n = 0;
    if (h->kind != P1B)
        h->m = 0;
}

/* Damages some bytes of a line, or its length. */
static void damage_line(struct call *c)
{
    switch (below(6)) {
    case 0:
        c->line[below((uint32_t)c->length)] = (uint8_t)any();
        break;
    case 1:
        c->line[below((uint32_t)c->length)] = (uint8_t)"0123456789abcdefABCDEFg/:`\n"[below(27)];
        break;
    case 2:
        c->length -= 1 + below((uint32_t)c->length);
        break;
    case 3:
        c->line[c->length - 1] = '0';
        c->line[c->length++] = '\n';
        break;
    case 4:
        c->line[32 + below(4)] = (uint8_t)"0123456789abcdef"[below(16)];
        break;
    default:
        c->line[below(36)] = (uint8_t)"0123456789abcdef"[below(16)];
    }
}

/* Some frame for a record in this view and ballot. */
static void make_line(struct call *c, uint32_t view, uint32_t ballot)
{
    static uint64_t first[MASTER], second[MASTER];
    plain_header h = some_header(c->function, view, ballot);

    h.n = (uint8_t)(h.kind == PROPOSE ? some_proposal(h.sender, first) : some_history(first));
    h.m = (uint8_t)some_history(second);
    if (h.kind == P1B && (once_in(4) || h.n == 0)) {
        h.n = 0;
        if (!once_in(8))
            h.proven_ballot = h.mask = 0;
    }
    if (!once_in(60))
        clear_unused(&h);
    if (once_in(30))
        damage_list(&h.n, first);
    if (once_in(30))
        damage_list(&h.m, second);
    h.n = h.n > MASTER ? MASTER : h.n;
    h.m = h.m > MASTER ? MASTER : h.m;
    c->length = plain_write(h, first, second, c->line);
    if (once_in(16))
        damage_line(c);
}

/* Calls */

/* The next call on the record that it holds. */
static void make_call(struct call *c)
{
    uint32_t view = c->record.views.view.number, ballot = 1;

    if (c->function == A_LEADER && once_in(8))
        c->function = AN_OPENING;
    c->roster = roster;
    c->own = own;
    c->room = LONGEST_LINE + below(3);
    c->opening.fast = (uint8_t)(once_in(2) ? 0 : any());
    if (c->function == AN_ACCEPTOR)
        ballot = c->record.site.acceptor.ballot.number;
    if (c->function == A_LEADER || c->function == AN_OPENING)
        ballot = c->record.leader.ballot.number;
    c->opening.ballot.number = once_in(2) ? ballot + 1 : near(ballot);
    c->view.number = once_in(8) ? near(view) : view;
    make_line(c, view, ballot);
    if (once_in(20))
        damage_record(c->function, &c->record);
    if (once_in(100))
        c->room = below(LONGEST_LINE);
    if (once_in(100))
        c->own = (uint8_t)any();
    if (once_in(100))
        c->roster = (speckleewe_roster){ (uint8_t)below(20), (uint8_t)below(7) };
}

/* What a run of calls has in common. */
static void begin_run(struct call *c)
{
    static const enum function functions[] = {
        A_LEARNER, A_LEARNER, AN_ACCEPTOR, AN_ACCEPTOR, AN_ACCEPTOR, AN_ACCEPTOR,
        A_LEADER, A_LEADER, A_LEADER, A_LEADER, A_VIEW_CHANGE, A_SUSPICION,
    };

    roster.n = (uint8_t)(4 + below(13));
    roster.f = (uint8_t)(1 + below((roster.n - 1u) / 3));
    own = (uint8_t)below(roster.n);
    make_master();
    c->function = functions[below(sizeof functions / sizeof *functions)];
    plant_record(c->function, &c->record);
    if (c->function == A_LEADER)
        c->record.leader.view.number += own - c->record.leader.view.number % roster.n;
}

/* How often each function gave each answer, and sent a line. */
static uint64_t answers[FUNCTIONS][ANSWERS], lines[FUNCTIONS];

/* Prints the tally; whether exactly the answers that each function has came. */
static bool all_came(void)
{
    static const char *const names[] = {
        "learner", "acceptor", "leader", "open_ballot", "view_change", "suspicion",
    };
    static const unsigned has[] = { 0x2cff, 0x37df, 0x32ff, 0x13, 0x203f, 0x2013 };
    bool all = true;

    for (int f = 0; f < FUNCTIONS; f++) {
        printf("%-11s", names[f]);
        for (int a = 0; a < ANSWERS; a++) {
            printf(" %7llu", (unsigned long long)answers[f][a]);
            all = all && (answers[f][a] != 0) == (has[f] >> a & 1);
        }
        printf(" %7llu\n", (unsigned long long)lines[f]);
        all = all && (lines[f] != 0) == (f != A_LEARNER);
    }
    return all;
}

int main(int argc, char **argv)
{
    static struct call c, kept;
    static union record after;
    struct reply reply;
    uint64_t calls = argc > 2 ? strtoull(argv[2], NULL, 10) : 1000000;

    if (argc > 1)
        seed = strtoull(argv[1], NULL, 10) * 2 + 1;
    for (uint64_t i = 0; i < calls; i++) {
        if (i % 16 == 0)
            begin_run(&c);
        kept = c;
        make_call(&c);
        if (!same_outcome(&c, &reply, &after)) {
            printf("difference at call %llu, function %d: %.*s", (unsigned long long)i,
                   c.function, (int)c.length, c.line);
            return 1;
        }
        answers[c.function][reply.answer]++;
        lines[c.function] += reply.sent != 0;
        c = kept;
        if (reply.answer == ACCEPTED)
            memcpy(&c.record, &after, record_size(c.function));
    }
    puts("how often each answer, 0 to 13, came, and how often a line was sent:");
    if (!all_came()) {
        puts("something never came, or an answer came that the function doesn't have");
        return 1;
    }
    printf("%llu random calls, library and plain C answer alike\n", (unsigned long long)calls);
    return 0;
}
