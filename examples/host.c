/*
 * A whole host: four sites in one process, f = 1, and site 3 lies. It shows each
 * line that is sent, what the receivers answer, and in the end what the learners
 * learned. docs/MANUAL.md says what a host owes to the library.
 *
 * Two things are for show. Signatures: a letter knows who really sent it, and
 * `genuine` and `founded` look that up where a real host verifies signatures.
 * Storage: `disk` is an array.
 */
#include "speckleewe.h"

#include <inttypes.h>
#include <stdio.h>
#include <stdlib.h>
#include <string.h>

enum { SITES = 4, HONEST = 3, LIAR = 3, CLIENT = 100, MOST_LETTERS = 200 };

/* Where a letter goes: to sites (a vote: to their learners), bits 0 to 2; to leaders, bits 4 to 6. */
enum { EVERYWHERE = 7, LEADERS = 4 };

static const speckleewe_roster roster = {SITES, 1};

/* What an honest site keeps, and the stored copy of it. */
static struct site {
    speckleewe_site site;
    speckleewe_leader_state leader;
    speckleewe_learner_state learner;
} sites[HONEST], disk[HONEST];

/* All letters, in the order they were sent; those from `arrived` on are on their way. */
static struct letter {
    int signer; /* a site, or CLIENT and a client's number */
    int to;
    char line[SPECKLEEWE_LONGEST_LINE + 1];
} letters[MOST_LETTERS];
static int sent, arrived;

/* The names of kinds, by their numbers. */
static const char *const kinds[] = {"?",      "P1A", "FAST",      "P1B",        "PROPOSE", "P2A",
                                    "VERIFY", "P2B", "SUSPICION", "VIEWCHANGE", "LEADER"};

/* The number in some digits of a line. */
static unsigned long number(const char *digits, size_t n)
{
    char text[9] = "";
    memcpy(text, digits, n);
    return strtoul(text, NULL, 16);
}

/* The fields of a line. */
static int kind(const char *line) { return (int)number(line, 2); }
static int sender(const char *line) { return (int)number(line + 2, 2); }
static unsigned long view(const char *line) { return number(line + 4, 8); }
static unsigned long ballot(const char *line) { return number(line + 12, 8); }
static unsigned long proven_ballot(const char *line) { return number(line + 20, 8); }
static unsigned mask(const char *line) { return (unsigned)number(line + 28, 4); }
static int first_count(const char *line) { return (int)number(line + 32, 2); }
static int second_count(const char *line) { return (int)number(line + 34, 2); }
static const char *history(const char *line) { return line + 36; }

/* Commands in words: kind, slot and argument. */
static void say_history(const char *digits, int n)
{
    static const char *const verbs[] = {"?", "enrol", "revoke", "raise"};
    for (int i = 0; i < n; i++, digits += 16) {
        printf("%s%s %lu", i ? ", " : "", verbs[number(digits + 2, 2) & 3], number(digits + 8, 4));
        if (number(digits + 12, 4))
            printf(" by %lu", number(digits + 12, 4));
    }
}

/* A line, and below it what it says. */
static void say_line(const char *line)
{
    int k = kind(line), n = first_count(line);
    printf("\n%s    %s of %s %d", line, kinds[k], k == SPECKLEEWE_KIND_PROPOSE ? "client" : "site", sender(line));
    if (k != SPECKLEEWE_KIND_P1B && k != SPECKLEEWE_KIND_PROPOSE && k != SPECKLEEWE_KIND_P2B)
        printf(", view %lu", view(line));
    if (k < SPECKLEEWE_KIND_SUSPICION)
        printf(", ballot %lu", ballot(line));
    for (unsigned i = 0, m = mask(line); m >> i; i++)
        if (m >> i & 1)
            printf("%s%u", m & ((1u << i) - 1) ? " " : ", proofs of ", i);
    if (n)
        printf(k == SPECKLEEWE_KIND_P1B ? ", proven in ballot %lu: " : ": ", proven_ballot(line));
    say_history(history(line), n);
    if (second_count(line))
        printf("; held: ");
    say_history(history(line) + 16 * n, second_count(line));
}

/* A letter is sent. */
static void post(int signer, int to, const char *line)
{
    if (sent == MOST_LETTERS)
        exit(1);
    letters[sent].signer = signer;
    letters[sent].to = to;
    strcpy(letters[sent++].line, line);
}

/* Sends a line that a client, a liar or a host writes itself: those kinds have at most one history. */
static void write_line(int signer, int to, int k, int from, unsigned long v, unsigned long b, unsigned m, const char *h)
{
    char line[SPECKLEEWE_LONGEST_LINE + 1];
    snprintf(line, sizeof line, "%02x%02x%08lx%08lx%08x%04x%02x00%s\n", (unsigned)k, (unsigned)from, v, b, 0u, m,
             (unsigned)strlen(h) / 16, h);
    post(signer, to, line);
}

/* Is the sender named in the line the one who signed it? */
static int genuine(const struct letter *l)
{
    int named = sender(l->line);
    return l->signer == (kind(l->line) == SPECKLEEWE_KIND_PROPOSE ? CLIENT + named : named);
}

/* Did site i sign what its bit in this line's mask stands for? */
static int proof_of(int i, const char *line)
{
    int k = kind(line), by_view = k >= SPECKLEEWE_KIND_VIEWCHANGE;
    int wanted = k == SPECKLEEWE_KIND_VIEWCHANGE ? SPECKLEEWE_KIND_SUSPICION
               : k == SPECKLEEWE_KIND_LEADER     ? SPECKLEEWE_KIND_VIEWCHANGE
                                                 : SPECKLEEWE_KIND_VERIFY;
    unsigned long v = k == SPECKLEEWE_KIND_VIEWCHANGE ? view(line) - 1 : view(line);
    unsigned long b = k == SPECKLEEWE_KIND_P1B ? proven_ballot(line) : ballot(line);
    size_t digits = 16 * (size_t)first_count(line);
    for (int j = 0; j < sent; j++) {
        const char *p = letters[j].line;
        if (letters[j].signer != i || !genuine(&letters[j]) || kind(p) != wanted)
            continue;
        if (by_view ? view(p) == v
                    : ballot(p) == b && first_count(p) == first_count(line) && !memcmp(history(p), history(line), digits))
            return 1;
    }
    return 0;
}

/* Has each bit of the mask its site's proof? */
static int founded(const char *line)
{
    for (int i = 0; i < SITES; i++)
        if ((mask(line) >> i & 1) && !proof_of(i, line))
            return 0;
    return 1;
}

/* An answer's number, with its name if it is a refusal. */
static void say_answer(int a)
{
    printf(a == SPECKLEEWE_ACCEPTED ? " %d" : " %d %s", a, speckleewe_answer_name((uint8_t)a));
}

/* Stores a site, and only then sends what its call answered: P1B and LEADER to a leader, all else everywhere. */
static void answer(int i, speckleewe_reply reply, const uint8_t *out)
{
    char line[SPECKLEEWE_LONGEST_LINE + 1] = "";
    disk[i] = sites[i];
    say_answer(reply.answer);
    if (reply.sent == 0)
        return;
    memcpy(line, out, reply.sent);
    printf(", sends %s", kinds[kind(line)]);
    int to_leader = kind(line) == SPECKLEEWE_KIND_P1B || kind(line) == SPECKLEEWE_KIND_LEADER;
    post(i, to_leader ? 1 << (LEADERS + sites[i].site.views.view.number % SITES) : EVERYWHERE, line);
}

/* Hands a line to the learner of site i. */
static void inform(int i, const char *line)
{
    int before = sites[i].learner.learned.count;
    speckleewe_learner_reply r = speckleewe_learner(&sites[i].learner, roster, (const uint8_t *)line, strlen(line));
    disk[i] = sites[i];
    say_answer(r.answer);
    if (r.answer == SPECKLEEWE_ACCEPTED)
        printf(", %d behind it", r.supporters);
    if (sites[i].learner.learned.count > before)
        printf(", learned");
}

/* Hands a line to site i: to its leader, or to the role that takes its kind. */
static void hand_in(int i, int to_leader, const char *line)
{
    uint8_t out[SPECKLEEWE_LONGEST_LINE], own = (uint8_t)i;
    const uint8_t *text = (const uint8_t *)line;
    size_t length = strlen(line);
    struct site *s = &sites[i];
    if (to_leader)
        answer(i, speckleewe_leader(&s->leader, roster, own, text, length, out, sizeof out), out);
    else if (kind(line) == SPECKLEEWE_KIND_P2B)
        inform(i, line);
    else if (kind(line) >= SPECKLEEWE_KIND_SUSPICION)
        answer(i, speckleewe_view_change(&s->site.views, roster, own, text, length, out, sizeof out), out);
    else
        answer(i, speckleewe_acceptor(&s->site, roster, own, text, length, out, sizeof out), out);
}

/* A letter arrives: the hosts verify it, then hand it in. */
static void arrive(const struct letter *l)
{
    const char *gap = "    ";
    say_line(l->line);
    if (!genuine(l) || !founded(l->line)) {
        printf("\n    dropped by the hosts: %s\n", genuine(l) ? "a bit of its mask has no proof" : "not signed by its sender");
        return;
    }
    printf("\n");
    for (int i = 0; i < 2 * LEADERS; i++) {
        if (!(l->to >> i & 1) || i % LEADERS == LIAR)
            continue;
        const char *who = i >= LEADERS ? "leader" : kind(l->line) == SPECKLEEWE_KIND_P2B ? "learner" : "site";
        printf("%s%s %d:", gap, who, i % LEADERS);
        hand_in(i % LEADERS, i >= LEADERS, l->line);
        gap = "; ";
    }
    printf("\n");
}

/* All letters on their way arrive, in the order they were sent. */
static void run(void)
{
    while (arrived < sent)
        arrive(&letters[arrived++]);
}

/* The leader of site i opens a ballot. */
static void open_ballot(int i, uint32_t b, uint8_t fast)
{
    uint8_t out[SPECKLEEWE_LONGEST_LINE];
    speckleewe_opening opening = {{b}, fast};
    printf("\n    leader %d opens %s ballot %" PRIu32 ":", i, fast ? "fast" : "classic", b);
    answer(i, speckleewe_open_ballot(&sites[i].leader, roster, (uint8_t)i, opening, out, sizeof out), out);
    printf("\n");
}

/* The host of site i suspects the leader: it tells the others, and its own site. */
static void suspect(int i)
{
    uint8_t out[SPECKLEEWE_LONGEST_LINE];
    speckleewe_view view = sites[i].site.views.view;
    write_line(i, EVERYWHERE & ~(1 << i), SPECKLEEWE_KIND_SUSPICION, i, view.number, 0, 0, "");
    printf("\n    the host of site %d suspects view %" PRIu32 ":", i, view.number);
    answer(i, speckleewe_suspicion(&sites[i].site.views, roster, (uint8_t)i, view, out, sizeof out), out);
    printf("\n");
}

/* A client's proposal. */
static void propose(int client, int to, unsigned long b, const char *command)
{
    write_line(CLIENT + client, to, SPECKLEEWE_KIND_PROPOSE, client, 0, b, 0, command);
}

/* Commands that don't conflict need no order. */
static void fast_ballot(void)
{
    puts("\n=== 1. A fast ballot: clients send their commands straight to the sites");
    puts("\n* Client 1 enrols slot 7. Each site signs what it holds by a VERIFY; three equal ones prove it, and the site votes.");
    open_ballot(0, 1, 1);
    propose(1, EVERYWHERE, 1, "0101000100070000");
    run();
    puts("\n* Two raises of slot 9 reach the sites in different orders. They don't conflict, so all sites come to one history.");
    propose(1, 5, 1, "0103000200090001");
    propose(3, 2, 1, "0303000100090005");
    propose(1, 2, 1, "0103000200090001");
    propose(3, 5, 1, "0303000100090005");
    run();
}

/* Conflicting commands reach the sites in different orders, and the liar sees to it that neither order wins. */
static void conflict(void)
{
    const char *other = "0101000100070000" "0103000200090001" "0303000100090005" "0303000200070002" "0202000100070000";
    puts("\n=== 2. A conflict, and lies");
    puts("\n* Revoke and raise of slot 7 conflict. Sites 0 and 2 take one order, site 1 and the liar the other: no three agree.");
    propose(2, 5, 1, "0202000100070000");
    propose(3, 2, 1, "0303000200070002");
    propose(2, 2, 1, "0202000100070000");
    propose(3, 5, 1, "0303000200070002");
    write_line(LIAR, EVERYWHERE, SPECKLEEWE_KIND_VERIFY, LIAR, 0, 1, 0, other);
    run();
    puts("\n* Site 3 lies: a vote in site 1's name; one with a proof that site 0 never gave; one with the two that exist.");
    write_line(LIAR, EVERYWHERE, SPECKLEEWE_KIND_P2B, 1, 0, 1, 0x000b, other);
    write_line(LIAR, EVERYWHERE, SPECKLEEWE_KIND_P2B, LIAR, 0, 1, 0x000b, other);
    write_line(LIAR, EVERYWHERE, SPECKLEEWE_KIND_P2B, LIAR, 0, 1, 0x000a, other);
    run();
}

/* The leader settles the conflict. */
static void classic_ballot(void)
{
    puts("\n=== 3. A classic ballot: the leader settles the order");
    puts("\n* Client 1 sends a command to the leader, where it is pending.");
    propose(1, 1 << LEADERS, 0, "01010003000b0000");
    run();
    puts("\n* Sites report what is proven and what they hold. The leader takes what is proven, adds the rest, and asks for that.");
    open_ballot(0, 2, 0);
    run();
}

/* The sites change to view 1, and its leader opens a ballot. */
static void view_change(void)
{
    puts("\n=== 4. A view change");
    puts("\n* A liar alone cannot depose a leader: it takes f + 1 = 2 suspicions.");
    write_line(LIAR, EVERYWHERE, SPECKLEEWE_KIND_SUSPICION, LIAR, 0, 0, 0, "");
    write_line(LIAR, EVERYWHERE, SPECKLEEWE_KIND_VIEWCHANGE, LIAR, 1, 0, 0x0008, "");
    run();
    puts("\n* Leader 0 is silent. On the second suspicion sites change; three changes make view 1, which site 1 leads.");
    suspect(1);
    run();
    puts("\n* The old leader wakes up too late.");
    open_ballot(0, 3, 0);
    run();
    puts("\n* The new leader opens a fast ballot, and client 4 revokes slot 11.");
    open_ballot(1, 4, 1);
    propose(4, EVERYWHERE, 4, "04020001000b0000");
    run();
}

/* What a learner learned. */
static void say_learned(int i)
{
    const speckleewe_history *h = &sites[i].learner.learned;
    char digits[16 * SPECKLEEWE_MOST_COMMANDS + 1] = "";
    for (int j = 0; j < h->count; j++)
        snprintf(digits + 16 * j, 17, "%016" PRIx64, h->words[j]);
    printf("learner %d: ", i);
    say_history(digits, h->count);
    printf("\n");
}

int main(void)
{
    for (int i = 0; i < HONEST; i++) {
        sites[i].site = speckleewe_site_fresh();
        sites[i].leader = speckleewe_leader_fresh();
        sites[i].learner = speckleewe_learner_fresh();
    }
    puts("Four sites, one of which may lie. Below each line: what it says, and what its receivers answer.");
    fast_ballot();
    conflict();
    classic_ballot();
    view_change();
    puts("\n=== What the learners learned");
    for (int i = 0; i < HONEST; i++)
        say_learned(i);
    return 0;
}
