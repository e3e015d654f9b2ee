// Counts what the ids below K' leave undetermined of a block of K' symbols: 0 where the row of K' isn't singular.
//
//     singular K     K' is the size of the first row of at least K symbols
#include <inttypes.h>
#include <stdio.h>
#include <stdlib.h>

#include "rank.h"

int main(int count, char **words) {
    if (count != 2) {
        fputs("usage: singular K\n", stderr);
        return 2;
    }
    const struct row *row = row_of((uint32_t)strtoul(words[1], NULL, 10));
    uint32_t *ids = zeros(row->extended_symbols, sizeof *ids);
    for (uint32_t id = 0; id < row->extended_symbols; id++) ids[id] = id;
    printf("%" PRIu32 "\n", undetermined(make_rank(row, row->extended_symbols), ids, row->extended_symbols));
    return 0;
}
