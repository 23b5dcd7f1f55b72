/*
 * The learner program in plain C, over the learner of plain_learner.c, for
 * comparing run times and answers.
 *
 * The first line of standard input is N and f as four lower-case hex digits.
 * Each later line is answered with "answer supporters" in decimal.  Every
 * line gets all checks: the whole state is looked at again each time.
 */
#include "plain.h"

#include <errno.h>
#include <stdio.h>
#include <string.h>
#include <unistd.h>

enum {
    CHUNK = 64 * 1024,
    ANSWER_BYTES = 5            /* longest answer: "13 0\n", "0 16\n" */
};

/* The value of a lower-case hex digit, or -1. */
static int digit(unsigned char c)
{
    if (c >= '0' && c <= '9')
        return c - '0';
    if (c >= 'a' && c <= 'f')
        return c - 'a' + 10;
    return -1;
}

/* The roster of its line; N=0 if that is no such line. */
static speckleewe_roster roster_of(const unsigned char *line, size_t length)
{
    speckleewe_roster none = { 0, 0 };
    int digits[4];

    if (length != 5 || line[4] != '\n')
        return none;
    for (size_t i = 0; i < 4; i++) {
        digits[i] = digit(line[i]);
        if (digits[i] < 0)
            return none;
    }
    return (speckleewe_roster){ (uint8_t)(digits[0] << 4 | digits[1]), (uint8_t)(digits[2] << 4 | digits[3]) };
}

struct program {
    bool started;               /* the roster line has been read */
    speckleewe_roster roster;
    speckleewe_learner_state state;
    size_t held;                /* bytes of a line begun in an earlier chunk */
    unsigned char line[LONGEST_LINE + 1];
    size_t used;                /* bytes of answers not yet written */
    unsigned char out[ANSWER_BYTES * (CHUNK + 1)];
};

static void put_number(struct program *p, unsigned value)
{
    if (value >= 10)
        p->out[p->used++] = (unsigned char)('0' + value / 10);
    p->out[p->used++] = (unsigned char)('0' + value % 10);
}

static void take_line(struct program *p, const unsigned char *line,
                      size_t length)
{
    if (!p->started) {
        p->started = true;
        p->roster = roster_of(line, length);
        return;
    }

    speckleewe_learner_reply result = plain_learner(&p->state, p->roster, line, length);
    put_number(p, result.answer);
    p->out[p->used++] = ' ';
    put_number(p, result.supporters);
    p->out[p->used++] = '\n';
}

/*
 * Keeps a piece of a line that goes over the end of a chunk.  A line too long
 * keeps one byte more than the longest frame, which is enough to refuse it.
 */
static void hold(struct program *p, const unsigned char *piece, size_t length)
{
    size_t room = sizeof p->line - p->held;

    if (length > room)
        length = room;
    memcpy(p->line + p->held, piece, length);
    p->held += length;
}

static void take_chunk(struct program *p, const unsigned char *chunk,
                       size_t length)
{
    const unsigned char *end = chunk + length;

    while (chunk < end) {
        const unsigned char *feed = memchr(chunk, '\n', (size_t)(end - chunk));

        if (feed == NULL) {
            hold(p, chunk, (size_t)(end - chunk));
            return;
        }
        size_t piece = (size_t)(feed + 1 - chunk);
        if (p->held > 0) {
            hold(p, chunk, piece);
            take_line(p, p->line, p->held);
            p->held = 0;
        } else {
            take_line(p, chunk, piece);
        }
        chunk = feed + 1;
    }
}

static bool flush(struct program *p)
{
    size_t done = 0;

    while (done < p->used) {
        ssize_t n = write(STDOUT_FILENO, p->out + done, p->used - done);

        if (n >= 0)
            done += (size_t)n;
        else if (errno != EINTR)
            return false;
    }
    p->used = 0;
    return true;
}

int main(void)
{
    static struct program program;
    static unsigned char chunk[CHUNK];

    for (;;) {
        ssize_t n = read(STDIN_FILENO, chunk, sizeof chunk);

        if (n < 0) {
            if (errno == EINTR)
                continue;
            perror("read");
            return 1;
        }
        if (n == 0)
            break;
        take_chunk(&program, chunk, (size_t)n);
        if (!flush(&program)) {
            perror("write");
            return 1;
        }
    }
    if (program.held > 0) {
        take_line(&program, program.line, program.held);
        if (!flush(&program)) {
            perror("write");
            return 1;
        }
    }
    return 0;
}
