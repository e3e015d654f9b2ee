// Estimates how often K' distinct ids don't determine a block of K' symbols, how often K' + 1, and how often K' + 2.
//
//     curve K SETS SEED     K' is the size of the first row of at least K symbols
//
// Each set has K' - 1 ids. Mostly its equations leave one dimension. Then LONE further ids tell how often one more leaves it
// so; where more are left, TRIPLES of further ids do. All ids of a set differ. Prints K', SETS, and for 0, 1 and 2 ids more
// than K' the sum of the sets' estimates and the sum of their squares; then how many sets left 1, 2, 3 and more dimensions.
#include <inttypes.h>
#include <stdio.h>
#include <stdlib.h>
#include <string.h>

#include "draw.h"
#include "rank.h"

enum { LONE = 64, TRIPLES = 256 };

// The sum of a basis at an id's places: an octet of each vector.
static uint32_t value(const struct rank *rank, uint32_t id) {
    struct places places;
    places_of(&rank->equations, id, &places);
    uint32_t sum = 0;
    for (uint32_t i = 0; i < places.all; i++) sum ^= rank->basis[places.at[i]];
    return sum;
}

// One dimension is left: the share of further ids, of pairs and of triples of them, that leave it so.
static void estimate_lone(const struct rank *rank, struct drawn *drawn, double estimates[3]) {
    double zeros_drawn = 0, count = LONE;
    for (int i = 0; i < LONE; i++) zeros_drawn += value(rank, draw(drawn)) == 0;
    estimates[0] = zeros_drawn / count;
    estimates[1] = estimates[0] * (zeros_drawn - 1) / (count - 1);
    estimates[2] = estimates[1] * (zeros_drawn - 2) / (count - 2);
}

static uint8_t octet(uint32_t word, uint32_t at) {
    return (uint8_t)(word >> 8 * at);
}

static uint32_t times(uint32_t word, uint8_t by) {
    uint32_t made = 0;
    for (uint32_t at = 0; at < BASIS_MOST; at++) made |= (uint32_t)product[by][octet(word, at)] << 8 * at;
    return made;
}

// Clears, in the words from `first` on, an octet that the first of them has: whether it has one.
static bool clear(uint32_t *words, uint32_t first, uint32_t count, uint32_t dimension) {
    uint32_t at = 0;
    while (at < dimension && octet(words[first], at) == 0) at++;
    if (at == dimension) return false;
    for (uint32_t word = first + 1; word < count; word++)
        words[word] ^= times(words[first], product[octet(words[word], at)][inverse[octet(words[first], at)]]);
    return true;
}

// The rank of up to three words.
static uint32_t rank_of(const uint32_t *words, uint32_t count, uint32_t dimension) {
    uint32_t left[BASIS_MOST], found = 0;
    memcpy(left, words, count * sizeof *words);
    for (uint32_t first = 0; first < count; first++) found += clear(left, first, count, dimension);
    return found;
}

// Two or three dimensions are left: one further id leaves some.
static void estimate_few(const struct rank *rank, uint32_t dimension, struct drawn *drawn, double estimates[3]) {
    double pairs = 0, triples = 0;
    for (int i = 0; i < TRIPLES; i++) {
        uint32_t words[3];
        for (int more = 0; more < 3; more++) words[more] = value(rank, draw(drawn));
        pairs += rank_of(words, 2, dimension) < dimension;
        triples += rank_of(words, 3, dimension) < dimension;
    }
    estimates[0] = 1;
    estimates[1] = pairs / TRIPLES;
    estimates[2] = triples / TRIPLES;
}

// The dimension that a set leaves, and the shares of one, two and three further ids that leave some of it.
static uint32_t estimate(struct rank *rank, struct drawn *drawn, uint32_t *ids, double estimates[3]) {
    uint32_t count = rank->equations.row.extended_symbols - 1;
    begin_set(drawn);
    for (uint32_t i = 0; i < count; i++) ids[i] = draw(drawn);
    uint32_t dimension = undetermined(rank, ids, count);
    if (dimension == 1) estimate_lone(rank, drawn, estimates);
    else if (dimension <= BASIS_MOST) estimate_few(rank, dimension, drawn, estimates);
    else for (int more = 0; more < 3; more++) estimates[more] = 1;
    return dimension;
}

struct sums {
    double of[3], of_squares[3];
    uint64_t left[5];
};

static void add(struct sums *sums, const double estimates[3], uint32_t dimension) {
    sums->left[dimension < 4 ? dimension : 4]++;
    for (int more = 0; more < 3; more++) {
        sums->of[more] += estimates[more];
        sums->of_squares[more] += estimates[more] * estimates[more];
    }
}

static void print(const struct sums *sums) {
    for (int more = 0; more < 3; more++) printf(" %.17g %.17g", sums->of[more], sums->of_squares[more]);
    for (int left = 1; left < 5; left++) printf(" %" PRIu64, sums->left[left]);
    puts("");
}

int main(int count, char **words) {
    if (count != 4) {
        fputs("usage: curve K SETS SEED\n", stderr);
        return 2;
    }
    const struct row *row = row_of((uint32_t)strtoul(words[1], NULL, 10));
    uint64_t sets = strtoull(words[2], NULL, 10);
    seed(strtoull(words[3], NULL, 10));
    struct rank *rank = make_rank(row, row->extended_symbols);
    struct drawn drawn = make_drawn(row->extended_symbols + 3 * TRIPLES);
    uint32_t *ids = zeros(row->extended_symbols, sizeof *ids);
    struct sums sums = {0};
    for (uint64_t set = 0; set < sets; set++) {
        double estimates[3];
        uint32_t dimension = estimate(rank, &drawn, ids, estimates);
        add(&sums, estimates, dimension);
    }
    printf("%" PRIu32 " %" PRIu64, row->extended_symbols, sets);
    print(&sums);
    return 0;
}
