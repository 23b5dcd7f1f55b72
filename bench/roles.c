/*
 * Times each role's step in the library and in plain C on the same inputs, for
 * 4, 7 and 16 sites and histories of 0, 8 and 32 commands.
 */
#include "calls.h"

#include <stdio.h>
#include <stdlib.h>
#include <string.h>
#include <time.h>

enum { MOST_INPUTS = 256, PASSES = 8, ROUNDS = 6, ROUND_NS = 200000 };

/* A call, what it is to answer, whether a line is to be sent, and its times. */
struct input {
    const char *role, *frame;
    int length; /* of the histories; -1 where there are none */
    uint8_t answer;
    bool sends;
    struct call call;
    double fastest[3]; /* rounds of the library, plain C, and restoring alone */
    double library, plain;
};

static struct input inputs[MOST_INPUTS];
static size_t count;

static const speckleewe_roster rosters[] = { { 4, 1 }, { 7, 2 }, { 16, 5 } };
static const int lengths[] = { 0, 8, 32 };

/* Numbers that all inputs share; LEADING is the leader of view VIEW in every roster. */
enum { OWN = 0, LEADING = 1, VIEW = 1, BALLOT = 3, SENDING = 2, PROPOSING = 3 };

/*
 * Histories: `next` is `base` and one command more, `other` is `base` and a
 * different one, `clash` is `base` and next's with another argument. `full` is
 * what a state holds where it holds nothing older: `next`, or none for length 0.
 */
static struct list { uint8_t n; uint64_t words[COMMANDS]; } base, next, other, clash, none, full;

static const uint64_t new_command = UINT64_C(0x030303e800640001);
static const uint64_t other_command = UINT64_C(0x030303e900650001);
static const uint64_t clashing_command = UINT64_C(0x030303e800640002);

/* A history and one more command, in canonical order. */
static struct list with(struct list h, uint64_t c)
{
    h.words[h.n++] = c;
    plain_canonicalise(h.words, h.n);
    return h;
}

/* Makes the histories: `next` has `length` commands, but one where that is 0. */
static void make_histories(int length)
{
    memset(&base, 0, sizeof base);
    for (int i = 0; i < length - 1; i++) {
        uint64_t proposer = (uint64_t)(1 + i % 5), kind = (uint64_t)(1 + i % 3);
        uint64_t c = proposer << 56 | kind << 48 | (uint64_t)(i + 1) << 32
            | (uint64_t)(i % 8) << 16 | (kind == RAISE);

        base = with(base, c);
    }
    next = with(base, new_command);
    other = with(base, other_command);
    clash = with(base, clashing_command);
    full = length > 0 ? next : none;
}

/* The mask of the first n sites. */
static uint16_t first_sites(unsigned n) { return (uint16_t)((1u << n) - 1); }

/* Stores a history in a record. */
static void keep(speckleewe_history *to, const struct list *h) { plain_keep(to, h->words, h->n); }

/* Stores a history as the rows of the first n sites. */
static void fill(speckleewe_table *t, unsigned n, const struct list *h)
{
    for (unsigned i = 0; i < n; i++)
        plain_enter(t, i, h->words, h->n);
}

/* Gives a call its line. */
static void send_frame(struct call *c, plain_header head, const struct list *n,
                       const struct list *m)
{
    head.n = n->n;
    head.m = m->n;
    c->length = plain_write(head, n->words, m->words, c->line);
}

/* One more input, its record all 0. */
static struct call *add(enum function function, const char *role, const char *frame,
                        speckleewe_roster r, int length, enum answer answer, bool sends)
{
    if (count == MOST_INPUTS)
        abort();
    struct input *in = &inputs[count++];
    in->role = role;
    in->frame = frame;
    in->length = length;
    in->answer = (uint8_t)answer;
    in->sends = sends;
    in->call.function = function;
    in->call.roster = r;
    in->call.own = OWN;
    in->call.room = LONGEST_LINE;
    return &in->call;
}

/* A vote at a learner where the others' entries, the sender's and what is learned are these. */
static void vote(const char *frame, speckleewe_roster r, int length, enum answer answer,
                 const struct list *others, const struct list *entry, const struct list *learned)
{
    struct call *c = add(A_LEARNER, "learner", frame, r, length, answer, false);
    speckleewe_learner_state *s = &c->record.learner;
    plain_header p2b = {
        .kind = P2B, .sender = SENDING, .ballot = BALLOT, .mask = first_sites(quorum_of(r)),
    };

    fill(&s->entries, r.n, others);
    plain_enter(&s->entries, SENDING, entry->words, entry->n);
    keep(&s->learned, learned);
    send_frame(c, p2b, &next, &none);
}

static void learner_inputs(speckleewe_roster r, int length)
{
    vote("P2B stored", r, length, ACCEPTED, &base, &base, &base);
    vote("P2B learned", r, length, ACCEPTED, &next, &base, &base);
    vote("P2B refused: SPLIT", r, length, SPLIT, &next, &base, &clash);
}

/* A frame at an acceptor that holds this, with this proven and these entries of all sites. */
static struct call *acceptor(const char *frame, speckleewe_roster r, int length,
                             enum answer answer, bool sends, const struct list *held,
                             const struct list *proven, const struct list *entries)
{
    struct call *c = add(AN_ACCEPTOR, "acceptor", frame, r, length, answer, sends);
    speckleewe_acceptor_state *a = &c->record.site.acceptor;

    c->record.site.views.view.number = VIEW;
    a->ballot.number = BALLOT;
    a->signed_ = 1;
    keep(&a->held, held);
    keep(&a->proven, proven);
    if (proven->n > 0) {
        a->proven_ballot.number = BALLOT - 1;
        a->certificate = first_sites(quorum_of(r));
    }
    fill(&a->verified, r.n, entries);
    return c;
}

/* A VERIFY of `next` at an acceptor. */
static struct call *verify(const char *frame, speckleewe_roster r, int length,
                           enum answer answer, bool sends, const struct list *entries)
{
    struct call *c = acceptor(frame, r, length, answer, sends, &next, &base, entries);
    plain_header head = { .kind = VERIFY, .sender = SENDING, .view = VIEW, .ballot = BALLOT };

    send_frame(c, head, &next, &none);
    return c;
}

static void acceptor_inputs(speckleewe_roster r, int length)
{
    plain_header head = { .kind = P1A, .sender = LEADING, .view = VIEW, .ballot = BALLOT + 1 };
    struct list one = with(none, new_command);
    struct call *c = acceptor("P1A", r, length, ACCEPTED, true, &full, &full, &full);
    send_frame(c, head, &none, &none);
    head.kind = FAST;
    c = acceptor("FAST", r, length, ACCEPTED, false, &full, &full, &full);
    send_frame(c, head, &none, &none);
    head = (plain_header){ .kind = PROPOSE, .sender = PROPOSING, .ballot = BALLOT };
    c = acceptor("PROPOSE", r, length, ACCEPTED, true, &base, &base, &base);
    c->record.site.acceptor.fast = 1;
    send_frame(c, head, &one, &none);
    c = acceptor("PROPOSE refused: NOTHING", r, length, NOTHING, false, &next, &base, &base);
    c->record.site.acceptor.fast = 1;
    send_frame(c, head, &one, &none);
    head = (plain_header){ .kind = P2A, .sender = LEADING, .view = VIEW, .ballot = BALLOT };
    c = acceptor("P2A", r, length, ACCEPTED, true, &base, &base, &base);
    send_frame(c, head, &next, &none);
    verify("VERIFY stored", r, length, ACCEPTED, false, &base);
    c = verify("VERIFY proven", r, length, ACCEPTED, true, &base);
    fill(&c->record.site.acceptor.verified, quorum_of(r), &next);
    plain_enter(&c->record.site.acceptor.verified, SENDING, base.words, base.n);
    verify("VERIFY refused: CONTRADICTION", r, length, CONTRADICTION, false, &other);
}

/* A call at a leader with so many reports. */
static struct call *leader(enum function function, const char *frame, speckleewe_roster r,
                           int length, enum answer answer, bool sends, unsigned reports)
{
    struct call *c = add(function, "leader", frame, r, length, answer, sends);
    speckleewe_leader_state *s = &c->record.leader;

    c->own = LEADING;
    c->opening.ballot.number = BALLOT + 1;
    s->view.number = VIEW;
    s->ballot.number = BALLOT;
    s->classic = 1;
    s->reported = first_sites(reports);
    keep(&s->pending, &next);
    fill(&s->proven, reports, &full);
    fill(&s->held, reports, &full);
    return c;
}

static void leader_inputs(speckleewe_roster r, int length)
{
    unsigned quorum = quorum_of(r);
    struct list one = with(none, new_command);
    plain_header head = { .kind = LEADER, .sender = SENDING, .view = VIEW + r.n };
    head.mask = first_sites(quorum);
    struct call *c = leader(A_LEADER, "LEADER", r, length, ACCEPTED, false, quorum);
    send_frame(c, head, &none, &none);
    head = (plain_header){ .kind = PROPOSE, .sender = PROPOSING, .ballot = BALLOT };
    c = leader(A_LEADER, "PROPOSE", r, length, ACCEPTED, false, quorum);
    keep(&c->record.leader.pending, &base);
    send_frame(c, head, &one, &none);
    c = leader(A_LEADER, "PROPOSE refused: NOTHING", r, length, NOTHING, false, quorum);
    send_frame(c, head, &one, &none);
    head = (plain_header){ .kind = P1B, .sender = (uint8_t)(quorum - 1), .ballot = BALLOT };
    if (length > 0) {
        head.proven_ballot = BALLOT - 1;
        head.mask = first_sites(quorum);
    }
    c = leader(A_LEADER, "P1B first", r, length, ACCEPTED, false, 0);
    send_frame(c, head, &full, &full);
    c = leader(A_LEADER, "P1B last", r, length, ACCEPTED, true, quorum - 1);
    send_frame(c, head, &full, &full);
    leader(AN_OPENING, "opens a ballot", r, length, ACCEPTED, true, quorum);
}

/* A call on a view-change record with so many suspicions, and so many changes to a target. */
static struct call *views(enum function function, const char *frame, speckleewe_roster r,
                          enum answer answer, bool sends, unsigned suspicions, unsigned changes)
{
    struct call *c = add(function, "view change", frame, r, -1, answer, sends);

    c->record.views = (speckleewe_view_record){
        .view = { VIEW }, .suspicions = first_sites(suspicions), .target = { changes ? VIEW + 1 : 0 },
        .changes = first_sites(changes),
    };
    c->view.number = VIEW;
    return c;
}

static void view_change_inputs(speckleewe_roster r)
{
    plain_header head = { .kind = SUSPICION, .sender = r.n - 1, .view = VIEW };
    struct call *c = views(A_VIEW_CHANGE, "SUSPICION first", r, ACCEPTED, false, 0, 0);
    send_frame(c, head, &none, &none);
    c = views(A_VIEW_CHANGE, "SUSPICION enough", r, ACCEPTED, true, r.f, 0);
    send_frame(c, head, &none, &none);
    head = (plain_header){ .kind = VIEWCHANGE, .sender = r.n - 1, .view = VIEW + 1 };
    head.mask = first_sites(r.f + 1u);
    c = views(A_VIEW_CHANGE, "VIEWCHANGE new", r, ACCEPTED, true, r.f, 0);
    send_frame(c, head, &none, &none);
    c = views(A_VIEW_CHANGE, "VIEWCHANGE last", r, ACCEPTED, true, r.f, quorum_of(r) - 1);
    send_frame(c, head, &none, &none);
    head.mask = first_sites(r.f);
    c = views(A_VIEW_CHANGE, "VIEWCHANGE refused: PROOF", r, PROOF, false, r.f, 0);
    send_frame(c, head, &none, &none);
    c = views(A_SUSPICION, "own suspicion", r, ACCEPTED, true, r.f + 1u, 0);
    c->record.views.suspicions &= (uint16_t)~bit(OWN);
}

/* All inputs. */
static void make_inputs(void)
{
    for (size_t i = 0; i < sizeof rosters / sizeof *rosters; i++) {
        for (size_t k = 0; k < sizeof lengths / sizeof *lengths; k++) {
            make_histories(lengths[k]);
            learner_inputs(rosters[i], lengths[k]);
            acceptor_inputs(rosters[i], lengths[k]);
            leader_inputs(rosters[i], lengths[k]);
        }
        view_change_inputs(rosters[i]);
    }
}

/* Ends the program unless both versions do the same with an input, and what it is to do. */
static void check(const struct input *in)
{
    static union record after;
    struct reply reply;

    if (!same_outcome(&in->call, &reply, &after) || reply.answer != in->answer
        || (reply.sent != 0) != in->sends) {
        printf("%s, %s, N=%d, %d commands: answer %d, %zu bytes sent\n", in->role, in->frame,
               in->call.roster.n, in->length, reply.answer, reply.sent);
        exit(1);
    }
}

typedef struct reply step(const struct call *c, union record *record, uint8_t *out);

/* A call that does nothing, to know what its making and restoring the record takes. */
static struct reply call_nothing(const struct call *c, union record *record, uint8_t *out)
{
    (void)c, (void)record, (void)out;
    return (struct reply){ 0, 0, 0 };
}

static double now(void)
{
    struct timespec t;

    clock_gettime(CLOCK_MONOTONIC, &t);
    return (double)t.tv_sec * 1e9 + (double)t.tv_nsec;
}

/* Makes a call so many times, each on the record restored; nanoseconds a call. */
__attribute__((noinline)) static double run(const struct call *c, step *made, int times)
{
    static union record record;
    static uint8_t out[LONGEST_LINE];
    size_t size = record_size(c->function);
    double began = now();

    for (int i = 0; i < times; i++) {
        memcpy(&record, &c->record, size);
        __asm__ volatile("" ::: "memory");
        made(c, &record, out);
        __asm__ volatile("" ::: "memory");
    }
    return (now() - began) / times;
}

/* Times an input both ways in turns for some rounds, of which the fastest is kept. */
static void measure(struct input *in)
{
    static step *const steps[3] = { call_library, call_plain, call_nothing };
    int times = 1 + (int)(ROUND_NS / run(&in->call, call_library, 20));

    for (int round = 0; round < ROUNDS; round++)
        for (int i = 0; i < 3; i++) {
            double took = run(&in->call, steps[i], times);

            if (in->fastest[i] == 0 || took < in->fastest[i])
                in->fastest[i] = took;
        }
}

/* Times all inputs in several passes, so that a while of load spoils no input's rounds. */
static void measure_all(void)
{
    for (int pass = 0; pass < PASSES; pass++)
        for (size_t i = 0; i < count; i++)
            measure(&inputs[i]);
    for (struct input *in = inputs; in < inputs + count; in++) {
        in->library = in->fastest[0] - in->fastest[2];
        in->plain = in->fastest[1] - in->fastest[2];
    }
}

/* The input of this role and frame for the nth roster and the kth length. */
static const struct input *find(const struct input *like, size_t nth, size_t kth)
{
    for (const struct input *in = inputs; in < inputs + count; in++)
        if (!strcmp(in->role, like->role) && !strcmp(in->frame, like->frame)
            && in->call.roster.n == rosters[nth].n
            && (in->length < 0 || in->length == lengths[kth]))
            return in;
    abort();
}

/* Prints the times of all inputs of one role and frame. */
static void print_times(const struct input *like)
{
    size_t most = like->length < 0 ? 1 : 3;

    for (size_t nth = 0; nth < 3; nth++)
        for (size_t kth = 0; kth < most; kth++) {
            const struct input *in = find(like, nth, kth);

            printf("%-11s %-29s %2d ", in->role, in->frame, in->call.roster.n);
            if (in->length < 0)
                printf("%8s", "-");
            else
                printf("%8d", in->length);
            printf(" %9.0f %9.0f %6.2f\n", in->library, in->plain, in->library / in->plain);
        }
}

/* Prints how the times of one role and frame grow. */
static void print_growth(const struct input *like)
{
    const struct input *few = find(like, 0, 2), *many = find(like, 2, 2);

    printf("%-11s %-29s %8.1f %8.1f", like->role, like->frame, many->library / few->library,
           many->plain / few->plain);
    if (like->length >= 0) {
        const struct input *empty = find(like, 2, 0);

        printf(" %10.1f %8.1f", many->library / empty->library, many->plain / empty->plain);
    }
    putchar('\n');
}

/* Hands the first input of each role and frame on. */
static void each_frame(void (*print)(const struct input *))
{
    for (const struct input *in = inputs; in < inputs + count; in++)
        if (in == find(in, 0, 0))
            print(in);
}

/* Prints the largest ratio of a role. */
static void print_largest(const char *role)
{
    const struct input *worst = NULL;

    for (const struct input *in = inputs; in < inputs + count; in++)
        if (!strcmp(in->role, role)
            && (!worst || in->library / in->plain > worst->library / worst->plain))
            worst = in;
    if (!worst)
        return;
    printf("largest ratio, %s: %.2f (%s, N=%d", role, worst->library / worst->plain,
           worst->frame, worst->call.roster.n);
    if (worst->length >= 0)
        printf(", %d commands", worst->length);
    puts(")");
}

int main(void)
{
    make_inputs();
    for (size_t i = 0; i < count; i++)
        check(&inputs[i]);
    printf("%zu inputs, on which library and plain C do the same; ns a call, the record's "
           "restoring taken off\n", count);
    measure_all();
    printf("%-11s %-29s %2s %8s %9s %9s %6s\n", "role", "frame", "N", "commands", "library",
           "plain C", "ratio");
    each_frame(print_times);
    printf("\n%-41s %17s %19s\n", "growth: how many times as long", "4 to 16 sites",
           "0 to 32 commands");
    printf("%-11s %-29s %8s %8s %10s %8s\n", "role", "frame", "library", "plain C", "library",
           "plain C");
    each_frame(print_growth);
    putchar('\n');
    print_largest("learner");
    print_largest("acceptor");
    print_largest("leader");
    print_largest("view change");
    return 0;
}
