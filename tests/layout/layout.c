/* Prints size and alignment of each type of the header, and offset and size of each field. */
#include "speckleewe.h"

#include <stdio.h>

#define TYPE(type) \
    printf(#type " %zu %zu\n", sizeof(speckleewe_##type), offsetof(struct { char c; speckleewe_##type t; }, t))
#define FIELD(type, field) \
    printf(#type "." #field " %zu %zu\n", offsetof(speckleewe_##type, field), sizeof(((speckleewe_##type *)0)->field))

static void parts(void)
{
    TYPE(roster);
    FIELD(roster, n);
    FIELD(roster, f);
    TYPE(history);
    FIELD(history, count);
    FIELD(history, words);
    TYPE(table);
    FIELD(table, counts);
    FIELD(table, words);
    TYPE(view_record);
    FIELD(view_record, view);
    FIELD(view_record, suspicions);
    FIELD(view_record, target);
    FIELD(view_record, changes);
}

static void states(void)
{
    TYPE(acceptor_state);
    FIELD(acceptor_state, ballot);
    FIELD(acceptor_state, fast);
    FIELD(acceptor_state, signed_);
    FIELD(acceptor_state, held);
    FIELD(acceptor_state, proven);
    FIELD(acceptor_state, proven_ballot);
    FIELD(acceptor_state, certificate);
    FIELD(acceptor_state, verified);
    TYPE(site);
    FIELD(site, views);
    FIELD(site, acceptor);
    TYPE(opening);
    FIELD(opening, ballot);
    FIELD(opening, fast);
    TYPE(leader_state);
    FIELD(leader_state, view);
    FIELD(leader_state, ballot);
    FIELD(leader_state, classic);
    FIELD(leader_state, pending);
    FIELD(leader_state, reported);
    FIELD(leader_state, proven);
    FIELD(leader_state, held);
    TYPE(learner_state);
    FIELD(learner_state, entries);
    FIELD(learner_state, learned);
}

static void replies(void)
{
    TYPE(reply);
    FIELD(reply, answer);
    FIELD(reply, sent);
    TYPE(learner_reply);
    FIELD(learner_reply, answer);
    FIELD(learner_reply, supporters);
}

int main(void)
{
    parts();
    states();
    replies();
    return 0;
}
