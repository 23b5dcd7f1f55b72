/*
 * speckleewe.h - the replica core, for a C host.
 *
 * The library is four state machines over lines of text: acceptor and view
 * change (a site), leader, learner. It has no heap, no globals and no clock: a
 * call reads the record and the line that it is lent, changes the record in
 * place, and may put one line to be sent into the buffer that it is lent.
 *
 * What the library promises of every call, for any bytes that it is lent:
 *
 *   - Any bytes of the right size are a state. One with a fault that CONFIG
 *     names is refused; any other is used as it stands.
 *   - A refused call (answer not 0) changes no byte of the record's fields and
 *     none of the buffer, and sends nothing. (Padding between fields means
 *     nothing and is not promised.)
 *   - An accepted call (answer 0) sends at most one line. It stands at the front
 *     of the buffer, `sent` bytes with its line feed and no zero after it; the
 *     bytes after it stay as they were.
 *   - Nothing is read or written beyond the lengths that are given.
 *
 * What the host must do; the promises above and the agreement of all learners
 * rest on 1 to 5, and what a mask means on 6:
 *
 *   1. Pointers are not null (also where a length is 0), a record's is aligned for
 *      its type, they point to as many bytes as stated, and what one call is lent
 *      doesn't overlap.
 *   2. One call at a time on a record, a site and its `views` being one. Different
 *      records are independent.
 *   3. A site has one record and one number for good, all sites have one roster,
 *      and nobody else writes a record.
 *   4. The record is persisted before the line that the call sent leaves the
 *      site. After a restart the host goes on with that record, never with an
 *      earlier or a fresh one.
 *   5. A line is handed in only after its sender's signature has been verified.
 *      For P1B, VERIFY and P2B the agreement of the learners depends on it.
 *   6. A bit of a line's mask stands only where the host has verified that site's
 *      own proof (site i is bit i); else the line is dropped, never edited:
 *        P2B          its VERIFY of that ballot and history
 *        P1B          its VERIFY of the proven ballot and the proven history
 *        VIEWCHANGE   its suspicion of the view before
 *        LEADER       its change to that view
 *
 * Lines, rules and refusals are those of document 01; docs/MANUAL.md explains
 * them to the host's engineer.
 */
#ifndef SPECKLEEWE_H
#define SPECKLEEWE_H

#include <stddef.h>
#include <stdint.h>

#ifdef __cplusplus
extern "C" {
#endif

/* The longest line in bytes, with its line feed: the least room of a buffer. */
#define SPECKLEEWE_LONGEST_LINE 1061

/* The most sites of a roster, and the most commands of a history. */
#define SPECKLEEWE_MOST_SITES 16
#define SPECKLEEWE_MOST_COMMANDS 32

/*
 * What a call answers. The checks run in this order, and the first that applies
 * is given.
 */
enum speckleewe_answer {
    /* The line was accepted. */
    SPECKLEEWE_ACCEPTED = 0,
    /*
     * The roster is none; the own number is N or above, or the buffer shorter
     * than the longest line (a learner has neither); or the record has a count
     * over 32, a wrong command, a repeated proposer and serial in one list, a
     * stored history that is not canonical, or a mask bit or entry at N or above.
     */
    SPECKLEEWE_CONFIG = 1,
    /* Not a line of a kind that this role takes. */
    SPECKLEEWE_FORM = 2,
    /* No such site (PROPOSE: sender 0); P1A, FAST or P2A not from site view mod N. */
    SPECKLEEWE_SENDER = 3,
    /* View or ballot is not the one that the step needs. */
    SPECKLEEWE_STALE = 4,
    /* A mask bit at N or above, or too few ones. */
    SPECKLEEWE_PROOF = 5,
    /* A command's fields are wrong, or in PROPOSE its proposer isn't the sender. */
    SPECKLEEWE_COMMAND = 6,
    /* Proposer and serial repeated; not canonical (PROPOSE may be); n = 0 in kinds 4 to 7. */
    SPECKLEEWE_HISTORY = 7,
    /* Doesn't extend what it must. */
    SPECKLEEWE_BEHIND = 8,
    /* PROPOSE: a command's proposer and serial are held with other bytes. */
    SPECKLEEWE_REUSED = 9,
    /* The sender's stored history and this one: neither extends the other. */
    SPECKLEEWE_CONTRADICTION = 10,
    /* Learner: no common extension exists. */
    SPECKLEEWE_SPLIT = 11,
    /* PROPOSE: all commands are held already. */
    SPECKLEEWE_NOTHING = 12,
    /* The result would exceed 32 commands, or the view 4,294,967,295. */
    SPECKLEEWE_FULL = 13
};

/* An answer's name as text; of a number that is no answer, "?". */
static inline const char *speckleewe_answer_name(uint8_t answer)
{
    static const char *const names[] = {
        "ACCEPTED", "CONFIG", "FORM",   "SENDER",        "STALE", "PROOF",   "COMMAND",
        "HISTORY",  "BEHIND", "REUSED", "CONTRADICTION", "SPLIT", "NOTHING", "FULL"
    };
    return answer < sizeof names / sizeof names[0] ? names[answer] : "?";
}

/*
 * The kinds of frames, and which role takes each. A line is a frame in lower-case
 * hex digits and one line feed. Its bytes, numbers big-endian: kind 1, sender 1,
 * view 4, ballot 4, proven ballot 4, mask 2, n 1, m 1, then n commands of eight
 * bytes, then m. Fields that a kind doesn't use are 0.
 */
enum speckleewe_kind {
    SPECKLEEWE_KIND_P1A = 1,        /* acceptor */
    SPECKLEEWE_KIND_FAST = 2,       /* acceptor */
    SPECKLEEWE_KIND_P1B = 3,        /* leader */
    SPECKLEEWE_KIND_PROPOSE = 4,    /* acceptor, leader */
    SPECKLEEWE_KIND_P2A = 5,        /* acceptor */
    SPECKLEEWE_KIND_VERIFY = 6,     /* acceptor */
    SPECKLEEWE_KIND_P2B = 7,        /* learner */
    SPECKLEEWE_KIND_SUSPICION = 8,  /* view change */
    SPECKLEEWE_KIND_VIEWCHANGE = 9, /* view change */
    SPECKLEEWE_KIND_LEADER = 10     /* leader, of site view mod N */
};

/* The two counts, from 0: a view is no ballot, and a compiler tells them apart. */
typedef struct {
    uint32_t number;
} speckleewe_view;

typedef struct {
    uint32_t number;
} speckleewe_ballot;

/* The sites and how many of them may lie: 4 <= n <= 16, f >= 1, n >= 3f + 1. */
typedef struct {
    uint8_t n;
    uint8_t f;
} speckleewe_roster;

/*
 * One history. A command is one number: its eight bytes as they stand in a line,
 * the first one highest.
 */
typedef struct {
    uint8_t count;                            /* commands, at most 32 */
    uint64_t words[SPECKLEEWE_MOST_COMMANDS]; /* the first `count` count */
} speckleewe_history;

/* One history a site; site i's commands are words[32 * i] and on. */
typedef struct {
    uint8_t counts[SPECKLEEWE_MOST_SITES];
    uint64_t words[SPECKLEEWE_MOST_SITES * SPECKLEEWE_MOST_COMMANDS];
} speckleewe_table;

/* The view-change record. */
typedef struct {
    speckleewe_view view;   /* the view that the site is in */
    uint16_t suspicions;    /* the sites that suspect it */
    speckleewe_view target; /* the view to change to; 0: none */
    uint16_t changes;       /* the sites that change to the target */
} speckleewe_view_record;

/* What an acceptor keeps; its view is the one in the view-change record. */
typedef struct {
    speckleewe_ballot ballot;        /* the present ballot */
    uint8_t fast;                    /* not 0: the ballot is a fast one */
    uint8_t signed_;                 /* not 0: it signed in this ballot */
    speckleewe_history held;         /* canonical */
    speckleewe_history proven;       /* canonical */
    speckleewe_ballot proven_ballot; /* the ballot that `proven` was proven in */
    uint16_t certificate;            /* the sites whose VERIFY proved it */
    speckleewe_table verified;       /* each site's last VERIFY of this ballot */
} speckleewe_acceptor_state;

/* A site: acceptor and view change, which share the view-change record. */
typedef struct {
    speckleewe_view_record views;
    speckleewe_acceptor_state acceptor;
} speckleewe_site;

/* What a leader keeps. */
typedef struct {
    speckleewe_view view;       /* the last view that it took; 0 at first */
    speckleewe_ballot ballot;   /* the last ballot that it opened */
    uint8_t classic;            /* not 0: a classic ballot is open */
    speckleewe_history pending; /* commands to propose, in the order they came */
    uint16_t reported;          /* the sites that reported in this ballot */
    speckleewe_table proven;    /* the proven histories of their reports */
    speckleewe_table held;      /* the held histories of their reports */
} speckleewe_leader_state;

/* What a learner keeps. */
typedef struct {
    speckleewe_table entries;   /* each site's stored history */
    speckleewe_history learned; /* what is learned; it only grows; canonical */
} speckleewe_learner_state;

/* A ballot that a leader is to open. */
typedef struct {
    speckleewe_ballot ballot; /* greater than the leader's last */
    uint8_t fast;             /* not 0: a fast one; 0: a classic one */
} speckleewe_opening;

/* What a call with a buffer answers. */
typedef struct {
    uint8_t answer; /* an enum speckleewe_answer */
    size_t sent;    /* the length of the line to send; 0: none */
} speckleewe_reply;

/* What a learner's call answers. */
typedef struct {
    uint8_t answer;     /* an enum speckleewe_answer */
    uint8_t supporters; /* the sites behind the arrived history; 0 if refused */
} speckleewe_learner_reply;

/* Records at the start of a call list: all 0 and empty. */
speckleewe_view_record speckleewe_view_record_fresh(void);
speckleewe_site speckleewe_site_fresh(void);
speckleewe_leader_state speckleewe_leader_fresh(void);
speckleewe_learner_state speckleewe_learner_fresh(void);

/*
 * SUSPICION and VIEWCHANGE at site `own`; `views` is the record within the site's
 * own speckleewe_site. VIEWCHANGE may go out, to all sites; or LEADER, to the
 * leader of site view mod N.
 */
speckleewe_reply speckleewe_view_change(
    speckleewe_view_record *views, speckleewe_roster roster, uint8_t own,
    const uint8_t *line, size_t length, uint8_t *out, size_t room);

/*
 * The host's own suspicion of a view: as if a SUSPICION of that view from `own`
 * came in. VIEWCHANGE may go out. The SUSPICION line for the other sites is the
 * host's to write. Refusals: CONFIG; STALE, if it is not the present view; FULL.
 */
speckleewe_reply speckleewe_suspicion(
    speckleewe_view_record *views, speckleewe_roster roster, uint8_t own,
    speckleewe_view view, uint8_t *out, size_t room);

/*
 * P1A, FAST, PROPOSE, P2A and VERIFY at site `own`. P1B may go out, to the leader;
 * VERIFY, to all sites and to itself; or P2B, to all learners.
 */
speckleewe_reply speckleewe_acceptor(
    speckleewe_site *site, speckleewe_roster roster, uint8_t own,
    const uint8_t *line, size_t length, uint8_t *out, size_t room);

/* LEADER, PROPOSE and P1B at the leader of site `own`. P2A may go out, to all sites. */
speckleewe_reply speckleewe_leader(
    speckleewe_leader_state *state, speckleewe_roster roster, uint8_t own,
    const uint8_t *line, size_t length, uint8_t *out, size_t room);

/*
 * The leader of site `own` opens a ballot greater than its last; its view mod N
 * must be `own`, else STALE. FAST or P1A goes out, to all sites. Refusals: CONFIG
 * and STALE.
 */
speckleewe_reply speckleewe_open_ballot(
    speckleewe_leader_state *state, speckleewe_roster roster, uint8_t own,
    speckleewe_opening opening, uint8_t *out, size_t room);

/* P2B at a learner, which sends nothing. Read `learned` in its state afterwards. */
speckleewe_learner_reply speckleewe_learner(
    speckleewe_learner_state *state, speckleewe_roster roster,
    const uint8_t *line, size_t length);

/* SPECKLEEWE_LONGEST_LINE, as the library was built. */
size_t speckleewe_longest_line(void);

#ifdef __cplusplus
}
#endif

#endif
