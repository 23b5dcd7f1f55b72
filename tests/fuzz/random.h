/* Random numbers, the same for the same seed. */
#ifndef RANDOM_H
#define RANDOM_H

#include <stddef.h>
#include <stdint.h>

/* Starts the numbers of a seed. */
void random_start(uint64_t seed);

/* Any 64 bits. */
uint64_t random_word(void);

/* A number below n, which is not 0. */
size_t below(size_t n);

/* Yes, this often in a hundred. */
int percent(size_t n);

/* Fills bytes. */
void random_bytes(uint8_t *to, size_t n);

#endif
