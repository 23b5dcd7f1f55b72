/*
 * One site over lines from standard input, by the library's exported functions: its view change and its acceptor, which share the view-change
 * record, and its leader. A line that starts with `#` is a comment and is copied; `=` with six hex digits, N, f and the own number, starts again
 * with a fresh site; `>` with a frame hands it to the leader; `+` with a P1A or a FAST is the host that opens the ballot of that frame; any other
 * line is a frame for the view change or the acceptor. All but the first two get a line with the answer and, where a frame is sent, a blank and
 * that frame.
 */
#define _POSIX_C_SOURCE 200809L
#include <stdio.h>
#include <stdlib.h>
#include <string.h>
#include <sys/types.h>

#include "speckleewe.h"

struct replica {
    speckleewe_roster roster;
    uint8_t own;
    speckleewe_site site;
    speckleewe_leader_state leader;
};

static struct replica replica;
static uint8_t out[SPECKLEEWE_LONGEST_LINE];

static void say(speckleewe_reply reply)
{
    printf("%u", reply.answer);
    if (reply.sent == 0) {
        putchar('\n');
    } else {
        putchar(' ');
        fwrite(out, 1, reply.sent, stdout);
    }
}

/* A fresh site of a line `=NNffoo`; the table has no other line that starts so. */
static void restart(const char *line)
{
    unsigned n, f, own;
    if (sscanf(line, "=%2x%2x%2x", &n, &f, &own) != 3) {
        fprintf(stderr, "no figures of a site: %s", line);
        exit(2);
    }
    replica.roster.n = (uint8_t)n;
    replica.roster.f = (uint8_t)f;
    replica.own = (uint8_t)own;
    replica.site = speckleewe_site_fresh();
    replica.leader = speckleewe_leader_fresh();
}

/* The host opens the ballot of a P1A or a FAST. */
static void open_ballot(const char *line)
{
    unsigned kind;
    speckleewe_opening opening;
    memset(&opening, 0, sizeof opening);
    if (sscanf(line, "+%2x%*10[0-9a-f]%8x", &kind, &opening.ballot.number) != 2) {
        fprintf(stderr, "no ballot to open: %s", line);
        exit(2);
    }
    opening.fast = kind == SPECKLEEWE_KIND_FAST;
    say(speckleewe_open_ballot(&replica.leader, replica.roster, replica.own, opening, out, sizeof out));
}

/* Whether a line is for the view change: its kind is SUSPICION or VIEWCHANGE. All others are the acceptor's. */
static int for_view_change(const char *line)
{
    unsigned kind;
    return sscanf(line, "%2x", &kind) == 1 && (kind == SPECKLEEWE_KIND_SUSPICION || kind == SPECKLEEWE_KIND_VIEWCHANGE);
}

static void hear(const char *line, size_t length)
{
    const uint8_t *bytes = (const uint8_t *)line;
    if (line[0] == '#') {
        fwrite(line, 1, length, stdout);
    } else if (line[0] == '=') {
        restart(line);
    } else if (line[0] == '+') {
        open_ballot(line);
    } else if (line[0] == '>') {
        say(speckleewe_leader(&replica.leader, replica.roster, replica.own, bytes + 1, length - 1, out, sizeof out));
    } else if (for_view_change(line)) {
        say(speckleewe_view_change(&replica.site.views, replica.roster, replica.own, bytes, length, out, sizeof out));
    } else {
        say(speckleewe_acceptor(&replica.site, replica.roster, replica.own, bytes, length, out, sizeof out));
    }
}

int main(void)
{
    char *line = NULL;
    size_t room = 0;
    ssize_t length;
    while ((length = getline(&line, &room, stdin)) > 0) {
        hear(line, (size_t)length);
    }
    free(line);
    return 0;
}
