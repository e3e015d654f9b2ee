// Choices of shards: all in their order, or some that are drawn.
#ifndef CHOICES_H
#define CHOICES_H

#include <stdbool.h>
#include <stdint.h>

enum { SHARDS_MOST = 256 };

// Shard s of a layout holds, of each block, the packets of `packets` ids from s * packets on.
struct layout {
    uint32_t shards, wanted;   // N, and K of them
    uint32_t packets, symbols; // of a block: packets a shard, and source symbols
};

struct choices {
    struct layout layout;
    uint64_t sampled; // how many to draw, or 0 for all
    uint64_t seen;
    uint64_t state;
    uint32_t chosen[SHARDS_MOST]; // the first `wanted` are the choice
};

// Reads N K PACKETS SYMBOLS SAMPLED SEED: whether they are a layout's.
bool read_choices(int count, char **words, struct choices *made);

// Goes to the first choice, or the next one: whether there is one.
bool next_choice(struct choices *choices);

#endif
