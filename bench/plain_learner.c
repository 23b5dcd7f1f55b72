/* The learner in plain C. */
#include "plain.h"

#include <string.h>

/* A vote that is refused. */
static speckleewe_learner_reply refuse(enum answer answer)
{
    return (speckleewe_learner_reply){ (uint8_t)answer, 0 };
}

/* The checks of a vote before the state is looked at. */
static enum answer check(const plain_frame *v, speckleewe_roster r)
{
    if (v->head.sender >= r.n)
        return SENDER;
    if (v->head.ballot == 0)
        return STALE;
    if (beyond(v->head.mask, r) || ones(v->head.mask) < quorum_of(r))
        return PROOF;
    if (!plain_commands_valid(v->words, v->head.n))
        return COMMAND;
    if (v->head.n == 0 || plain_repeated(v->words, v->head.n)
        || !plain_canonical(v->words, v->head.n))
        return HISTORY;
    return ACCEPTED;
}

/* How many sites stand behind the n commands in h, of which the sender is one. */
static unsigned supporters_of(const speckleewe_table *t, speckleewe_roster r, unsigned sender,
                              const uint64_t *h, size_t n)
{
    unsigned count = 1;

    for (unsigned i = 0; i < r.n; i++)
        if (i != sender && plain_extends(row_of(t, i), t->counts[i], h, n))
            count++;
    return count;
}

/* Merges h into what is learned; SPLIT and FULL leave it. */
static enum answer learn(speckleewe_history *learned, const uint64_t *h, size_t n)
{
    uint64_t work[2 * COMMANDS];
    size_t count = learned->count;

    memcpy(work, learned->words, count * sizeof *work);
    count = plain_append(work, count, 2 * COMMANDS, h, n);
    if (!plain_extends(work, count, h, n))
        return SPLIT;
    if (count > COMMANDS)
        return FULL;
    plain_canonicalise(work, count);
    plain_keep(learned, work, count);
    return ACCEPTED;
}

/* A P2B at a learner. */
speckleewe_learner_reply plain_learner(speckleewe_learner_state *state, speckleewe_roster roster,
                                       const uint8_t *line, size_t length)
{
    plain_frame v;
    const speckleewe_table *entries = &state->entries;

    if (!roster_valid(roster) || !plain_table_valid(entries, roster)
        || !plain_history_valid(&state->learned))
        return refuse(CONFIG);
    if (!plain_read(line, length, 1u << P2B, &v))
        return refuse(FORM);
    enum answer answer = check(&v, roster);
    if (answer != ACCEPTED)
        return refuse(answer);

    unsigned sender = v.head.sender;
    const uint64_t *entry = row_of(entries, sender);
    bool newer = plain_extends(v.words, v.head.n, entry, entries->counts[sender]);
    if (!newer && !plain_extends(entry, entries->counts[sender], v.words, v.head.n))
        return refuse(CONTRADICTION);

    unsigned supporters = supporters_of(entries, roster, sender, v.words, v.head.n);
    if (supporters >= quorum_of(roster)) {
        answer = learn(&state->learned, v.words, v.head.n);
        if (answer != ACCEPTED)
            return refuse(answer);
    }
    if (newer)
        plain_enter(&state->entries, sender, v.words, v.head.n);
    return (speckleewe_learner_reply){ ACCEPTED, (uint8_t)supporters };
}
