// Looks by their rank which choices of shards determine a block, where ids are dealt over shards in turn.
//
//     dealt N K END SYMBOLS     shard i of N has the ids i, i + N, .. below END; SYMBOLS: of the block
//
// Prints how many choices of K shards there are, how many of them don't determine it, and how few ids a choice has.
#include <inttypes.h>
#include <stdio.h>
#include <stdlib.h>

#include "choices.h"
#include "rank.h"

// The internal ids of the chosen shards, behind those of the padding, which is always known: how many.
static uint32_t fill(const struct choices *choices, uint32_t symbols, uint32_t extended, uint32_t end, uint32_t *ids) {
    uint32_t count = 0;
    for (uint32_t id = symbols; id < extended; id++) ids[count++] = id;
    for (uint32_t at = 0; at < choices->layout.wanted; at++)
        for (uint32_t id = choices->chosen[at]; id < end; id += choices->layout.shards) ids[count++] = id < symbols ? id : id + extended - symbols;
    return count;
}

static void look(struct choices *choices, uint32_t symbols, uint32_t id_end) {
    const struct row *row = row_of(symbols);
    uint32_t extended = row->extended_symbols, padding = extended - symbols, fewest = UINT32_MAX, *ids = zeros(extended + id_end, sizeof *ids);
    struct rank *rank = make_rank(row, extended + id_end);
    uint64_t all = 0, failed = 0;
    while (next_choice(choices)) {
        uint32_t count = fill(choices, symbols, extended, id_end, ids);
        all++;
        failed += count < extended || undetermined(rank, ids, count) != 0;
        fewest = count - padding < fewest ? count - padding : fewest;
    }
    printf("%" PRIu64 " %" PRIu64 " %" PRIu32 "\n", all, failed, fewest);
}

int main(int count, char **words) {
    uint32_t numbers[4] = {0};
    for (int at = 0; at < 4 && count == 5; at++) numbers[at] = (uint32_t)strtoul(words[1 + at], NULL, 10);
    struct choices choices = {.layout = {.shards = numbers[0], .wanted = numbers[1]}};
    if (numbers[0] == 0 || numbers[0] > SHARDS_MOST || numbers[1] == 0 || numbers[1] > numbers[0] || numbers[3] == 0) {
        fputs("usage: dealt N K END SYMBOLS\n", stderr);
        return 2;
    }
    look(&choices, numbers[3], numbers[2]);
    return 0;
}
