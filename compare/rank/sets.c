// Writes sets of ids, and whether they determine a block, by their rank.
//
//     sets K SETS SEED     K' is the size of the first row of at least K symbols
//
// A set is K', then K' + 2 distinct ids, and how many of them beyond K' determine a block of K' symbols: 0, 1 or 2, or 3 where all don't.
// All are numbers of 32 bits as this machine has them.
#include <stdio.h>
#include <stdlib.h>

#include "draw.h"
#include "rank.h"

static uint32_t needed(struct rank *rank, const uint32_t *ids, uint32_t symbols) {
    uint32_t more = 0;
    while (more < 3 && undetermined(rank, ids, symbols + more)) more++;
    return more;
}

int main(int count, char **words) {
    if (count != 4) {
        fputs("usage: sets K SETS SEED\n", stderr);
        return 2;
    }
    const struct row *row = row_of((uint32_t)strtoul(words[1], NULL, 10));
    uint32_t symbols = row->extended_symbols, sets = (uint32_t)strtoul(words[2], NULL, 10);
    seed(strtoull(words[3], NULL, 10));
    struct rank *rank = make_rank(row, symbols + 2);
    struct drawn drawn = make_drawn(symbols + 2);
    uint32_t *set = zeros(symbols + 4, sizeof *set);
    for (uint32_t at = 0; at < sets; at++) {
        begin_set(&drawn);
        set[0] = symbols;
        for (uint32_t i = 0; i < symbols + 2; i++) set[1 + i] = draw(&drawn);
        set[symbols + 3] = needed(rank, set + 1, symbols);
        if (fwrite(set, sizeof *set, symbols + 4, stdout) != symbols + 4) end("a set wasn't written");
    }
    return fflush(stdout) ? 1 : 0;
}
