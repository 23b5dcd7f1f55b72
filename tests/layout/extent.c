/*
 * Asks the library for the size of each record that it returns: how far a `_fresh` function writes. It has no header, so the functions are declared
 * as the System V ABI has them: a record of more than 16 bytes is written where the first argument points. Fresh fields are 0, so each byte of a
 * field takes the place of the byte that was there; the last byte of these three records is one of a field. A view-change record comes in registers,
 * so nothing is written: it has at most 16 bytes.
 */
#include <stdio.h>
#include <string.h>

void *speckleewe_view_record_fresh(void *), *speckleewe_site_fresh(void *), *speckleewe_leader_fresh(void *), *speckleewe_learner_fresh(void *);

static _Alignas(16) unsigned char bytes[1 << 16];

/* The end of the last byte that is not the one that was there. */
static size_t end_after(void *(*fresh)(void *), int filling)
{
    size_t end = sizeof bytes;
    memset(bytes, filling, sizeof bytes);
    fresh(bytes);
    while (end > 0 && bytes[end - 1] == filling)
        end--;
    return end;
}

static void show(const char *type, void *(*fresh)(void *))
{
    size_t a = end_after(fresh, 0x55), b = end_after(fresh, 0xaa), end = a > b ? a : b;
    printf("%s %zu\n", type, end ? end : 16);
}

int main(void)
{
    show("view_record", speckleewe_view_record_fresh);
    show("site", speckleewe_site_fresh);
    show("leader_state", speckleewe_leader_fresh);
    show("learner_state", speckleewe_learner_fresh);
    return 0;
}
