/* Random lines: frames as document 01 lays them out, damaged ones, and any bytes. */
#ifndef LINES_H
#define LINES_H

#include "speckleewe.h"

/* Room for each line made here: longer than the longest frame. */
enum { LINE_ROOM = 1300 };

/* A line, and its length. */
struct line {
    uint8_t text[LINE_ROOM];
    size_t length;
};

/* Writes 1 to 32 commands, of one proposer or of all (0), in canonical order, and answers how many. */
size_t some_commands(uint64_t *to, uint64_t proposer);

/* A kind as a bit. */
#define K(kind) (1u << SPECKLEEWE_KIND_##kind)

/* A frame's line of one of these kinds (bits; 0: of any), with fields about those of a cluster in this view and ballot. */
void random_frame(struct line *to, unsigned kinds, speckleewe_roster roster, uint32_t view, uint32_t ballot);

/* Damages a line in up to three places. */
void damage(struct line *line);

/* Any bytes; some look like digits. */
void random_line(struct line *to);

#endif
