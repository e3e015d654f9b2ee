// Looks by their rank whether choices of shards determine a block, until one doesn't.
//
//     layout N K PACKETS SYMBOLS SAMPLED SEED     SAMPLED: how many choices are drawn, or 0 for all in turn
//
// Prints how many choices determine it before one that doesn't, and 1 where there is such a one, or else 0.
#include <inttypes.h>
#include <stdio.h>

#include "choices.h"
#include "rank.h"

// The internal ids of a choice's packets, behind those of the padding, which is always known.
static void add_shard(const struct choices *choices, uint32_t shard, uint32_t padding, uint32_t *ids) {
    for (uint32_t at = 0; at < choices->layout.packets; at++) {
        uint32_t id = choices->layout.packets * shard + at;
        ids[at] = id < choices->layout.symbols ? id : id + padding;
    }
}

static bool determines(struct rank *rank, const struct choices *choices, uint32_t *ids) {
    uint32_t symbols = choices->layout.symbols, padding = rank->equations.row.extended_symbols - symbols, packets = choices->layout.packets;
    for (uint32_t at = 0; at < padding; at++) ids[at] = symbols + at;
    for (uint32_t at = 0; at < choices->layout.wanted; at++) add_shard(choices, choices->chosen[at], padding, ids + padding + packets * at);
    return undetermined(rank, ids, padding + packets * choices->layout.wanted) == 0;
}

int main(int count, char **words) {
    struct choices choices;
    if (!read_choices(count, words, &choices)) {
        fputs("usage: layout N K PACKETS SYMBOLS SAMPLED SEED\n", stderr);
        return 2;
    }
    const struct row *row = row_of(choices.layout.symbols);
    uint32_t most = row->extended_symbols + choices.layout.packets * choices.layout.wanted;
    struct rank *rank = make_rank(row, most);
    uint32_t *ids = zeros(most, sizeof *ids);
    uint64_t determined = 0;
    bool all = true;
    while (all && next_choice(&choices)) {
        all = determines(rank, &choices, ids);
        determined += all;
    }
    printf("%" PRIu64 " %d\n", determined, !all);
    return 0;
}
