/* A call of a role as a value: made to the library or to the plain version, and compared. */
#ifndef CALLS_H
#define CALLS_H

#include "plain.h"

/* The functions that are called. */
enum function { A_LEARNER, AN_ACCEPTOR, A_LEADER, AN_OPENING, A_VIEW_CHANGE, A_SUSPICION };

union record {
    speckleewe_learner_state learner;
    speckleewe_site site;
    speckleewe_leader_state leader;
    speckleewe_view_record views;
};

struct call {
    enum function function;
    speckleewe_roster roster;
    uint8_t own;
    speckleewe_view view;       /* of an own suspicion */
    speckleewe_opening opening; /* of a ballot */
    size_t length, room;
    uint8_t line[LONGEST_LINE + 512]; /* room for one that is too long */
    union record record;     /* the record that it is lent */
};

/* What a call answers; `supporters` is a learner's alone. */
struct reply {
    uint8_t answer, supporters;
    size_t sent;
};

/* The size of the record that the function is lent. */
size_t record_size(enum function function);

struct reply call_library(const struct call *c, union record *record, uint8_t *out);
struct reply call_plain(const struct call *c, union record *record, uint8_t *out);

/*
 * Makes the call both ways and compares answer, length sent, every field of the
 * record and every byte of the buffer. Says what differs, if anything does. The
 * reply and the record after it are left in *reply and *after.
 */
bool same_outcome(const struct call *c, struct reply *reply, union record *after);

#endif
