// Draws encoding symbol ids that differ from each other, from a seed.
#ifndef DRAW_H
#define DRAW_H

#include <stdbool.h>
#include <stdint.h>

void seed(uint64_t from);

// A number that is drawn uniformly from all of 64 bits.
uint64_t draw_word(void);

// The ids of a set, in a table of twice as many places or more. A place is full where its upper octet is the set's turn.
struct drawn {
    uint32_t *places, mask, turn;
};

// For sets of so many ids at most.
struct drawn make_drawn(uint32_t ids);

void begin_set(struct drawn *drawn);

// An id that the set hasn't, uniformly from all others. The set has it then.
uint32_t draw(struct drawn *drawn);

#endif
