#include "draw.h"

#include <string.h>

#include "rank.h"

// xoshiro256**, seeded by splitmix64.
static uint64_t state[4];

static uint64_t rotated(uint64_t word, int by) {
    return word << by | word >> (64 - by);
}

uint64_t draw_word(void) {
    uint64_t made = rotated(state[1] * 5, 7) * 9, kept = state[1] << 17;
    state[2] ^= state[0];
    state[3] ^= state[1];
    state[1] ^= state[2];
    state[0] ^= state[3];
    state[2] ^= kept;
    state[3] = rotated(state[3], 45);
    return made;
}

void seed(uint64_t from) {
    for (int i = 0; i < 4; i++) {
        from += 0x9e3779b97f4a7c15;
        uint64_t mixed = (from ^ from >> 30) * 0xbf58476d1ce4e5b9;
        mixed = (mixed ^ mixed >> 27) * 0x94d049bb133111eb;
        state[i] = mixed ^ mixed >> 31;
    }
}

struct drawn make_drawn(uint32_t ids) {
    uint32_t size = 2;
    while (size < 2 * ids) size *= 2;
    return (struct drawn){zeros(size, sizeof(uint32_t)), size - 1, 0};
}

void begin_set(struct drawn *drawn) {
    drawn->turn = drawn->turn % 255 + 1;
    if (drawn->turn == 1) memset(drawn->places, 0, (drawn->mask + 1) * sizeof *drawn->places);
}

// Whether the set hadn't the id yet.
static bool put(struct drawn *drawn, uint32_t id) {
    uint32_t place = id & drawn->mask, full = drawn->turn << 24 | id;
    while (drawn->places[place] >> 24 == drawn->turn) {
        if (drawn->places[place] == full) return false;
        place = (place + 1) & drawn->mask;
    }
    drawn->places[place] = full;
    return true;
}

uint32_t draw(struct drawn *drawn) {
    uint32_t id;
    do id = (uint32_t)(draw_word() >> 40);
    while (!put(drawn, id));
    return id;
}
