#include "choices.h"

#include <stdlib.h>

bool read_choices(int count, char **words, struct choices *made) {
    if (count != 7) return false;
    uint64_t numbers[6];
    for (int at = 0; at < 6; at++) numbers[at] = strtoull(words[1 + at], NULL, 10);
    *made = (struct choices){.sampled = numbers[4], .state = numbers[5]};
    for (int at = 0; at < 4; at++)
        if (numbers[at] == 0 || numbers[at] > 65535) return false;
    made->layout = (struct layout){(uint32_t)numbers[0], (uint32_t)numbers[1], (uint32_t)numbers[2], (uint32_t)numbers[3]};
    return made->layout.shards <= SHARDS_MOST && made->layout.wanted <= made->layout.shards &&
           made->layout.symbols <= made->layout.wanted * made->layout.packets;
}

static void begin(struct choices *choices) {
    for (uint32_t shard = 0; shard < choices->layout.shards; shard++) choices->chosen[shard] = shard;
}

static uint32_t below(struct choices *choices, uint32_t bound) {
    choices->state = choices->state * 6364136223846793005 + 1442695040888963407;
    return (uint32_t)((choices->state >> 32) % bound);
}

// Exchanges each of the chosen with itself or a later one.
static void draw(struct choices *choices) {
    for (uint32_t at = 0; at < choices->layout.wanted; at++) {
        uint32_t other = at + below(choices, choices->layout.shards - at), kept = choices->chosen[at];
        choices->chosen[at] = choices->chosen[other];
        choices->chosen[other] = kept;
    }
}

// The next choice in the order of its shards, which ascend.
static bool advance(struct choices *choices) {
    uint32_t wanted = choices->layout.wanted, at = wanted;
    while (at > 0 && choices->chosen[at - 1] == choices->layout.shards - wanted + at - 1) at--;
    if (at == 0) return false;
    uint32_t first = ++choices->chosen[at - 1];
    for (uint32_t later = at; later < wanted; later++) choices->chosen[later] = first + later - at + 1;
    return true;
}

bool next_choice(struct choices *choices) {
    if (choices->seen++ == 0) begin(choices);
    else if (choices->sampled == 0) return advance(choices);
    if (choices->sampled == 0) return true;
    draw(choices);
    return choices->seen <= choices->sampled;
}
