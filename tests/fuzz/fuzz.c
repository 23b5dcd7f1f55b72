/*
 * fuzz SEED COUNT: calls each function with random records, lines, rosters and buffers, and checks what document 01 promises of any call:
 * an answer of 0 to 13; a refusal changes no field of the record and no byte of the buffer, and sends nothing; what is sent is one line at
 * the front of the buffer, and the bytes after it stay; nothing else is written, and nothing is read after the line.
 *
 * Records: those of clusters that live on from call to call, the same with some bytes damaged or a history changed, and any bytes. Lines:
 * those that calls sent, composed frames, damaged ones of both (half of all), and any bytes.
 */
#define _DEFAULT_SOURCE
#include "lines.h"
#include "random.h"
#include "speckleewe.h"

#include <inttypes.h>
#include <stdio.h>
#include <stdlib.h>
#include <string.h>
#include <sys/mman.h>

enum function { VIEW_CHANGE, SUSPICION, ACCEPTOR, LEADER, OPEN_BALLOT, LEARNER, FUNCTIONS };
static const char *const names[] = {"view_change", "suspicion", "acceptor", "leader", "open_ballot", "learner"};

/* The kinds that each function takes, as bits. */
static const unsigned taken[] = {K(SUSPICION) | K(VIEWCHANGE), 0, K(P1A) | K(FAST) | K(PROPOSE) | K(P2A) | K(VERIFY),
                                 K(P1B) | K(PROPOSE) | K(LEADER), 0, K(P2B)};

/* A cluster that lives on: its sites, and the last lines that they sent or accepted. */
enum { LIVES = 3, POOL = 48 };
struct site {
    speckleewe_site site;
    speckleewe_leader_state leader;
    speckleewe_learner_state learner;
};
static struct life {
    speckleewe_roster roster;
    struct site sites[SPECKLEEWE_MOST_SITES];
    struct line pool[POOL];
    size_t sent;
} lives[LIVES];

/* Lent memory: what is lent stands between guard bytes. */
enum { GUARD = 64, MOST = 9000, PAGE = 4096 };
union lent {
    uint64_t aligned;
    uint8_t bytes[GUARD + MOST + GUARD];
};
static union lent record, record_before, out, out_before;

/* The end of readable memory: lines end here. */
static uint8_t *line_end;

/* One call. */
static struct call {
    enum function function;
    speckleewe_roster roster;
    uint8_t own;
    speckleewe_view view;
    speckleewe_opening opening;
    struct line line;
    size_t size, room;
} call;

/* What it answered. */
static struct { unsigned answer, supporters; size_t sent; } got;

static uint64_t seed, made, tally[FUNCTIONS][14], padding_changed;

static void fail(const char *what)
{
    fprintf(stderr, "fuzz: seed %" PRIu64 ", call %" PRIu64 ", %s: %s\n", seed, made, names[call.function], what);
    exit(1);
}

/* Where the record of a function lives in a site, and its size. */
static uint8_t *place(struct site *s, size_t *size)
{
    switch (call.function) {
    case VIEW_CHANGE:
    case SUSPICION: *size = sizeof s->site.views; return (uint8_t *)&s->site.views;
    case ACCEPTOR: *size = sizeof s->site; return (uint8_t *)&s->site;
    case LEARNER: *size = sizeof s->learner; return (uint8_t *)&s->learner;
    default: *size = sizeof s->leader; return (uint8_t *)&s->leader;
    }
}

static void paint_history(speckleewe_history *h)
{
    memset(&h->count, 255, sizeof h->count);
    memset(h->words, 255, sizeof h->words);
}

static void paint_views(speckleewe_view_record *v)
{
    v->view.number = v->target.number = UINT32_MAX;
    v->suspicions = v->changes = UINT16_MAX;
}

/* A site in which each byte of a field is 255, and padding is 0. */
static struct site fields;

static void paint(void)
{
    speckleewe_acceptor_state *a = &fields.site.acceptor;
    speckleewe_leader_state *e = &fields.leader;
    paint_views(&fields.site.views);
    a->ballot.number = a->proven_ballot.number = UINT32_MAX;
    a->fast = a->signed_ = UINT8_MAX;
    a->certificate = UINT16_MAX;
    paint_history(&a->held);
    paint_history(&a->proven);
    memset(&a->verified, 255, sizeof a->verified);
    e->view.number = e->ballot.number = UINT32_MAX;
    e->classic = UINT8_MAX;
    e->reported = UINT16_MAX;
    paint_history(&e->pending);
    memset(&e->proven, 255, sizeof e->proven);
    memset(&e->held, 255, sizeof e->held);
    memset(&fields.learner.entries, 255, sizeof fields.learner.entries);
    paint_history(&fields.learner.learned);
}

/* How many bytes of a part of `fields` are padding. */
static size_t padding(const void *part, size_t size)
{
    size_t bytes = 0;
    for (size_t i = 0; i < size; i++)
        bytes += !((const uint8_t *)part)[i];
    return bytes;
}

/* What the header's layout says: a number stands at a multiple of its size, and a record is as aligned as its widest number. */
enum { VIEWS_PADDING = 2 + 2, SITE_PADDING = VIEWS_PADDING + 2 + 7 + 7 + 2, LEADER_PADDING = 7 + 7 + 6, LEARNER_PADDING = 7 };

/* `paint` left the padding, and nothing else. */
static void check_padding(void)
{
    if (padding(&fields.site.views, sizeof fields.site.views) != VIEWS_PADDING || padding(&fields.site, sizeof fields.site) != SITE_PADDING ||
        padding(&fields.leader, sizeof fields.leader) != LEADER_PADDING || padding(&fields.learner, sizeof fields.learner) != LEARNER_PADDING) {
        fprintf(stderr, "fuzz: the padding that is watched is not that of the layout\n");
        exit(1);
    }
}

/* The padding of the lent record holds bytes that differ from call to call. They are not drawn, so that the calls are those without it. */
static void fill_padding(void)
{
    size_t size;
    const uint8_t *field = place(&fields, &size);
    for (size_t i = 0; i < size; i++)
        if (!field[i])
            record.bytes[GUARD + i] = (uint8_t)((made + 1) * UINT64_C(0x9e3779b97f4a7c15) >> 32 ^ i);
}

/* A refused call leaves every field; padding is counted. */
static void check_kept(void)
{
    size_t size;
    const uint8_t *field = place(&fields, &size), *a = record_before.bytes + GUARD, *b = record.bytes + GUARD;
    int padding = 0;
    for (size_t i = 0; i < size; i++) {
        if (a[i] != b[i] && field[i])
            fail("a refusal changed the record");
        padding |= a[i] != b[i];
    }
    padding_changed += (uint64_t)padding;
}

/* What is sent is a line: digits and one line feed. */
static void check_line(const uint8_t *text, size_t length)
{
    for (size_t i = 0; i + 1 < length; i++)
        if (!((text[i] >= '0' && text[i] <= '9') || (text[i] >= 'a' && text[i] <= 'f')))
            fail("sent no digit");
    if (length < 37 || text[length - 1] != '\n')
        fail("sent no whole line");
}

/* Everything outside of [GUARD, GUARD + n) is as it was. */
static void check_guards(const union lent *now, const union lent *before, size_t n, const char *what)
{
    size_t after = GUARD + n;
    if (memcmp(now->bytes, before->bytes, GUARD) || memcmp(now->bytes + after, before->bytes + after, sizeof now->bytes - after))
        fail(what);
}

static void check(void)
{
    int buffered = call.function != LEARNER;
    if (got.answer > 13)
        fail("no such answer");
    if (got.sent > SPECKLEEWE_LONGEST_LINE || got.sent > call.room)
        fail("sent more than the longest line");
    if (got.answer != 0 && (got.sent || got.supporters))
        fail("a refusal with something sent or a supporter");
    if (buffered && call.room < SPECKLEEWE_LONGEST_LINE && got.answer != SPECKLEEWE_CONFIG)
        fail("took a short buffer");
    if (got.supporters > call.roster.n)
        fail("more supporters than sites");
    if (got.answer != 0)
        check_kept();
    if (got.sent)
        check_line(out.bytes + GUARD, got.sent);
    check_guards(&record, &record_before, call.size, "wrote beside the record");
    check_guards(&out, &out_before, got.sent, "wrote to the buffer beside what it sent");
    if (call.line.length && memcmp(line_end - call.line.length, call.line.text, call.line.length))
        fail("wrote to the line");
    tally[call.function][got.answer]++;
}

/* Calls the function. */
static void make_call(void)
{
    uint8_t *r = record.bytes + GUARD, *o = out.bytes + GUARD;
    const uint8_t *text = line_end - call.line.length;
    size_t n = call.line.length, room = call.room;
    speckleewe_reply reply = {0, 0};
    if (call.function == LEARNER) {
        speckleewe_learner_reply l = speckleewe_learner((speckleewe_learner_state *)r, call.roster, text, n);
        got.answer = l.answer, got.supporters = l.supporters, got.sent = 0;
        return;
    }
    switch (call.function) {
    case VIEW_CHANGE:
        reply = speckleewe_view_change((speckleewe_view_record *)r, call.roster, call.own, text, n, o, room);
        break;
    case SUSPICION:
        reply = speckleewe_suspicion((speckleewe_view_record *)r, call.roster, call.own, call.view, o, room);
        break;
    case ACCEPTOR: reply = speckleewe_acceptor((speckleewe_site *)r, call.roster, call.own, text, n, o, room); break;
    case LEADER: reply = speckleewe_leader((speckleewe_leader_state *)r, call.roster, call.own, text, n, o, room); break;
    default:
        reply = speckleewe_open_ballot((speckleewe_leader_state *)r, call.roster, call.own, call.opening, o, room);
    }
    got.answer = reply.answer, got.supporters = 0, got.sent = reply.sent;
}

/* A line of a kind that the function takes, if the cluster sent one. */
static const struct line *pick_sent(const struct life *l)
{
    size_t most = l->sent < POOL ? l->sent : POOL, at = below(POOL);
    for (size_t i = 0; i < most; i++) {
        const struct line *sent = &l->pool[(at + i) % most];
        int kind = sent->text[1] == 'a' ? 10 : sent->text[1] - '0';
        if (taken[call.function] >> kind & 1)
            return sent;
    }
    return NULL;
}

/* A line for a site of a cluster; answers whether it is one that the cluster has. */
static int pick_line(struct life *l, const struct site *s)
{
    const struct line *sent = percent(call.function == LEADER ? 20 : 80) ? pick_sent(l) : NULL;
    uint32_t view = call.function == LEADER ? s->leader.view.number : s->site.views.view.number;
    uint32_t ballot = call.function == LEADER ? s->leader.ballot.number : s->site.acceptor.ballot.number;
    if (percent(5))
        random_line(&call.line);
    else if (sent)
        call.line = *sent;
    else
        random_frame(&call.line, percent(90) ? taken[call.function] : 0, l->roster, view, ballot);
    if (percent(50))
        return sent != NULL;
    damage(&call.line);
    return 0;
}

/* Arguments for a call at a site; answers whether the line is one that the cluster has. */
static int pick_arguments(struct life *l, size_t own)
{
    const struct site *s = &l->sites[own];
    call.roster = l->roster;
    if (percent(5))
        random_bytes((uint8_t *)&call.roster, sizeof call.roster);
    call.own = (uint8_t)(percent(97) ? own : below(256));
    call.room = percent(95) ? SPECKLEEWE_LONGEST_LINE + below(40) : below(SPECKLEEWE_LONGEST_LINE);
    call.opening.ballot.number = percent(90) ? s->leader.ballot.number + (uint32_t)below(3) : (uint32_t)random_word();
    call.opening.fast = (uint8_t)below(percent(50) ? 2 : 256);
    call.view.number = percent(90) ? s->site.views.view.number : (uint32_t)random_word();
    int pooled = pick_line(l, s);
    memcpy(line_end - call.line.length, call.line.text, call.line.length);
    return pooled;
}

/* Another history in the lent record, canonical as it is to be. */
static void change_history(uint8_t *r)
{
    speckleewe_history h = {0, {0}};
    size_t acceptor = offsetof(speckleewe_site, acceptor);
    h.count = (uint8_t)some_commands(h.words, 0);
    if (call.function == LEARNER)
        memcpy(r + offsetof(speckleewe_learner_state, learned), &h, sizeof h);
    else if (call.function == LEADER)
        memcpy(r + offsetof(speckleewe_leader_state, pending), &h, sizeof h);
    else if (call.function == ACCEPTOR && percent(50))
        memcpy(r + acceptor + offsetof(speckleewe_acceptor_state, held), &h, sizeof h);
    else if (call.function == ACCEPTOR)
        memcpy(r + acceptor + offsetof(speckleewe_acceptor_state, proven), &h, sizeof h);
}

/* Lends a copy of the record at `from`, at times damaged or with another history, or any bytes; answers whether it is that record. */
static int lend(const uint8_t *from)
{
    size_t kind = below(10);
    uint8_t *r = record.bytes + GUARD;
    random_bytes(record.bytes, kind == 0 ? GUARD + call.size + GUARD : GUARD);
    if (kind > 0)
        memcpy(r, from, call.size);
    for (size_t times = kind == 1 ? 1 + below(4) : 0; times > 0; times--)
        r[below(call.size)] = (uint8_t)(percent(50) ? random_word() : below(40));
    if (kind == 2)
        change_history(r);
    fill_padding();
    random_bytes(r + call.size, GUARD);
    random_bytes(out.bytes, GUARD + call.room + GUARD);
    record_before = record;
    out_before = out;
    return kind > 2;
}

/* Keeps a line for the other sites. */
static void keep(struct life *l, const uint8_t *text, size_t length)
{
    struct line *kept = &l->pool[l->sent++ % POOL];
    memcpy(kept->text, text, length);
    kept->length = length;
}

/* One call. A cluster lives on with what an accepted one left and sent; few suspicions and new ballots last, so that ballots come to votes. */
static void one(void)
{
    struct life *l = &lives[below(LIVES)];
    size_t own = below(l->roster.n);
    call.function = percent(30) ? ACCEPTOR : (enum function)below(FUNCTIONS);
    int lasting = taken[call.function] ? call.function != VIEW_CHANGE || percent(20) : percent(5);
    uint8_t *home = place(&l->sites[own], &call.size);
    int pooled = pick_arguments(l, own);
    int real = lend(home);
    make_call();
    check();
    if (got.answer != 0 || !real || !lasting || call.own != own || memcmp(&call.roster, &l->roster, sizeof call.roster))
        return;
    memcpy(home, record.bytes + GUARD, call.size);
    if (taken[call.function] && !pooled)
        keep(l, call.line.text, call.line.length);
    if (got.sent)
        keep(l, out.bytes + GUARD, got.sent);
}

/* A cluster starts, or starts again. */
static void start(struct life *l, speckleewe_roster roster)
{
    l->roster = roster;
    l->sent = 0;
    for (size_t i = 0; i < roster.n; i++) {
        l->sites[i].site = speckleewe_site_fresh();
        l->sites[i].leader = speckleewe_leader_fresh();
        l->sites[i].learner = speckleewe_learner_fresh();
    }
}

/* Fresh records are 0 in all fields, and the longest line is the header's. */
static void check_constants(void)
{
    struct site fresh;
    speckleewe_view_record v = speckleewe_view_record_fresh();
    fresh.site = speckleewe_site_fresh();
    fresh.leader = speckleewe_leader_fresh();
    fresh.learner = speckleewe_learner_fresh();
    int good = !v.view.number && !v.suspicions && !v.target.number && !v.changes && speckleewe_longest_line() == SPECKLEEWE_LONGEST_LINE;
    for (size_t i = 0; i < sizeof fresh; i++)
        good &= !(((uint8_t *)&fresh)[i] & ((uint8_t *)&fields)[i]);
    if (!good) {
        fprintf(stderr, "fuzz: a fresh record or the longest line is not as promised\n");
        exit(1);
    }
}

/* How often each function gave each answer; each must have been both accepted and refused. */
static void report(void)
{
    printf("fuzz: %-12s", "answers");
    for (int a = 0; a < 14; a++)
        printf("%8d", a);
    printf("\n");
    for (call.function = VIEW_CHANGE; call.function < FUNCTIONS; call.function++) {
        uint64_t refused = 0;
        printf("fuzz: %-12s", names[call.function]);
        for (int a = 0; a < 14; a++) {
            printf("%8" PRIu64, tally[call.function][a]);
            refused += a ? tally[call.function][a] : 0;
        }
        printf("\n");
        if (tally[call.function][0] == 0 || refused == 0)
            fail("was not both accepted and refused");
    }
    printf("fuzz: %" PRIu64 " calls as promised, seed %" PRIu64 "; padding, of which nothing is promised, changed in %" PRIu64 " refusals\n", made,
           seed, padding_changed);
}

int main(int count, char **words)
{
    static const speckleewe_roster rosters[LIVES] = {{4, 1}, {5, 1}, {16, 5}};
    if (count != 3) {
        fprintf(stderr, "usage: fuzz SEED COUNT\n");
        return 2;
    }
    seed = strtoull(words[1], NULL, 10);
    uint8_t *pages = mmap(NULL, 2 * PAGE, PROT_READ | PROT_WRITE, MAP_PRIVATE | MAP_ANONYMOUS, -1, 0);
    if (pages == MAP_FAILED || mprotect(pages + PAGE, PAGE, PROT_NONE) != 0)
        return 2;
    line_end = pages + PAGE;
    random_start(seed);
    paint();
    check_padding();
    check_constants();
    for (made = 0; made < strtoull(words[2], NULL, 10); made++) {
        for (int i = 0; i < LIVES && made % 30000 == 0; i++)
            start(&lives[i], rosters[i]);
        one();
    }
    report();
    return 0;
}
