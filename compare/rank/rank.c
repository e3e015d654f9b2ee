// Counts what peeled equations leave undetermined: over the inactive columns first the binary rows, and then HDPC.
#include "rank.h"

#include <stdlib.h>
#include <string.h>

// More columns than these are never left free by sets of some K' ids: then nothing is said but that they are many.
enum { FREE_MOST = 64, GROUP = 4 };

struct rank *make_rank(const struct row *row, uint32_t ids) {
    struct rank *made = zeros(1, sizeof *made);
    make_equations(row, &made->equations);
    make_peeling(&made->equations, ids, &made->peeling);
    uint32_t columns = made->equations.intermediate_symbols, widest = columns / 64 + 1;
    made->eliminated = zeros((size_t)(row->ldpc_symbols + ids) * widest, sizeof *made->eliminated);
    made->free_sums = zeros((size_t)64 * widest, sizeof *made->free_sums);
    made->column_sums = zeros(columns, sizeof *made->column_sums);
    made->pivots = zeros(columns, sizeof *made->pivots);
    made->basis = zeros(columns, sizeof *made->basis);
    return made;
}

static bool bit(const uint64_t *bits, uint32_t at) {
    return bits[at / 64] >> at % 64 & 1;
}

static bool is_zero(const uint64_t *bits, uint32_t words) {
    uint64_t any = 0;
    for (uint32_t word = 0; word < words; word++) any |= bits[word];
    return any == 0;
}

// Copies the rows that have no unknown column and aren't zero: how many there are.
static uint32_t gather(struct rank *rank) {
    const struct peeling *peeling = &rank->peeling;
    uint32_t words = peeling->words, count = 0;
    for (uint32_t row = 0; row < peeling->rows; row++) {
        const uint64_t *bits = peeling->row_bits + (size_t)row * words;
        if (!is_zero(bits, words)) memcpy(rank->eliminated + (size_t)count++ * words, bits, words * sizeof *bits);
    }
    return count;
}

static void swap(uint64_t *a, uint64_t *b, uint32_t words) {
    for (uint32_t word = 0; word < words; word++) {
        uint64_t kept = a[word];
        a[word] = b[word];
        b[word] = kept;
    }
}

// Makes a row with a one in a column the one at `place`, and clears the column in all others: whether there is one.
static bool pivot(uint64_t *rows, uint32_t count, uint32_t words, uint32_t place, uint32_t column) {
    uint32_t found = place;
    while (found < count && !bit(rows + (size_t)found * words, column)) found++;
    if (found == count) return false;
    uint64_t *chosen = rows + (size_t)place * words;
    if (found != place) swap(chosen, rows + (size_t)found * words, words);
    for (uint32_t row = 0; row < count; row++) {
        uint64_t *other = rows + (size_t)row * words, mask = row != place && bit(other, column) ? ~UINT64_C(0) : 0;
        for (uint32_t word = 0; word < words; word++) other[word] ^= chosen[word] & mask;
    }
    return true;
}

// Brings the rows to their reduced echelon, and notes the columns with a pivot and behind them those without: how many of these.
static uint32_t eliminate(struct rank *rank, uint32_t rows, uint32_t *free_columns) {
    uint32_t pivots = 0, free_count = 0, inactive = rank->peeling.inactive;
    for (uint32_t column = 0; column < inactive; column++)
        if (pivot(rank->eliminated, rows, rank->peeling.words, pivots, column)) rank->pivots[pivots++] = column;
        else if (free_count < FREE_MOST) free_columns[free_count++] = column;
    return inactive - pivots;
}

// Each inactive column as a sum of free ones: bit i of its word is the i-th free one.
static void sum_inactive(struct rank *rank, const uint32_t *free_columns, uint32_t free_count) {
    uint32_t pivots = rank->peeling.inactive - free_count, words = rank->peeling.words;
    for (uint32_t i = 0; i < free_count; i++) rank->free_sums[free_columns[i]] = UINT64_C(1) << i;
    for (uint32_t place = 0; place < pivots; place++) {
        uint64_t sum = 0;
        for (uint32_t i = 0; i < free_count; i++)
            sum |= (uint64_t)bit(rank->eliminated + (size_t)place * words, free_columns[i]) << i;
        rank->free_sums[rank->pivots[place]] = sum;
    }
}

// The sums of all choices of some words, eight at most: bit i of a choice is the i-th word.
static void sum_choices(const uint64_t *words, uint32_t count, uint64_t sums[256]) {
    sums[0] = 0;
    for (uint32_t word = 0; word < count; word++)
        for (uint32_t choice = 0; choice < UINT32_C(1) << word; choice++) sums[(1 << word) + choice] = sums[choice] ^ words[word];
}

// How many of the eight from `first` on are below `count`.
static uint32_t eight_of(uint32_t count, uint32_t first) {
    return count <= first ? 0 : count - first < 8 ? count - first : 8;
}

// Adds to each column what it has of the 64 inactive columns of a word.
static void add_word(struct rank *rank, uint32_t word) {
    uint64_t sums[8][256];
    for (uint32_t byte = 0, first = 64 * word; byte < 8; byte++, first += 8)
        sum_choices(rank->free_sums + first, eight_of(rank->peeling.inactive, first), sums[byte]);
    for (uint32_t column = 0; column < rank->equations.intermediate_symbols; column++) {
        uint64_t bits = rank->peeling.column_bits[(size_t)column * rank->peeling.words + word], sum = 0;
        for (int byte = 0; byte < 8; byte++) sum ^= sums[byte][bits >> 8 * byte & 255];
        rank->column_sums[column] ^= sum;
    }
}

// Each column as a sum of free ones.
static void sum_columns(struct rank *rank) {
    memset(rank->column_sums, 0, rank->equations.intermediate_symbols * sizeof *rank->column_sums);
    for (uint32_t word = 0; 64 * word < rank->peeling.inactive; word++) add_word(rank, word);
}

static void add_octets(struct octets *sum, const struct octets *other) {
    for (int i = 0; i < HDPC_MOST; i++) sum->at[i] ^= other->at[i];
}

// The HDPC equations over GROUP of the free columns, from `first` on: columns of the same choice of them are added first.
static void add_group(const struct rank *rank, uint32_t first, struct octets *entries) {
    struct octets of_choice[1 << GROUP] = {{{0}}};
    for (uint32_t column = 0; column < rank->equations.intermediate_symbols; column++)
        add_octets(&of_choice[rank->column_sums[column] >> first & ((1 << GROUP) - 1)], &rank->equations.hdpc[column]);
    for (uint32_t choice = 1; choice < 1 << GROUP; choice++)
        for (uint32_t i = 0; i < GROUP; i++)
            if (choice >> i & 1) add_octets(&entries[first + i], &of_choice[choice]);
}

// The HDPC equations over the free columns.
struct small {
    uint32_t height, width;
    uint8_t at[HDPC_MOST][FREE_MOST];
};

static void make_small(const struct rank *rank, uint32_t free_count, struct small *made) {
    struct octets entries[FREE_MOST + GROUP] = {{{0}}};
    made->height = rank->equations.row.hdpc_symbols;
    made->width = free_count;
    for (uint32_t first = 0; first < free_count; first += GROUP) add_group(rank, first, entries);
    for (uint32_t column = 0; column < free_count; column++)
        for (uint32_t row = 0; row < made->height; row++) made->at[row][column] = entries[column].at[row];
}

static void add_multiple(uint8_t *row, const uint8_t *other, uint8_t by, uint32_t width) {
    for (uint32_t i = 0; i < width; i++) row[i] ^= product[by][other[i]];
}

// As `pivot`, of octets: the pivot is made 1.
static bool pivot_octets(struct small *small, uint32_t place, uint32_t column) {
    uint32_t found = place;
    while (found < small->height && small->at[found][column] == 0) found++;
    if (found == small->height) return false;
    uint8_t chosen[FREE_MOST] = {0};
    add_multiple(chosen, small->at[found], inverse[small->at[found][column]], small->width);
    memcpy(small->at[found], small->at[place], small->width);
    memcpy(small->at[place], chosen, small->width);
    for (uint32_t row = 0; row < small->height; row++)
        if (row != place && small->at[row][column]) add_multiple(small->at[row], chosen, small->at[row][column], small->width);
    return true;
}

// The basis by its values in the free columns: octet i of a word is the i-th vector's.
static void fill_basis(struct rank *rank, const uint64_t *values, uint32_t free_count) {
    memset(rank->basis, 0, rank->equations.intermediate_symbols * sizeof *rank->basis);
    for (uint32_t first = 0; first < free_count; first += 8) {
        uint64_t sums[256];
        sum_choices(values + first, eight_of(free_count, first), sums);
        for (uint32_t column = 0; column < rank->equations.intermediate_symbols; column++)
            rank->basis[column] ^= (uint32_t)sums[rank->column_sums[column] >> first & 255];
    }
}

// The columns of an echelon with a pivot, and those without.
struct split {
    uint32_t pivots, left;
    uint32_t pivot[HDPC_MOST], without[FREE_MOST];
};

static struct split eliminate_octets(struct small *small) {
    struct split made = {0};
    for (uint32_t column = 0; column < small->width; column++)
        if (made.pivots < small->height && pivot_octets(small, made.pivots, column)) made.pivot[made.pivots++] = column;
        else made.without[made.left++] = column;
    return made;
}

// Vector `at` of the basis: 1 in a column without a pivot, and 0 in the others.
static void add_vector(const struct small *small, const struct split *split, uint32_t at, uint64_t *values) {
    uint32_t column = split->without[at];
    values[column] |= UINT64_C(1) << 8 * at;
    for (uint32_t row = 0; row < split->pivots; row++) values[split->pivot[row]] |= (uint64_t)small->at[row][column] << 8 * at;
}

// Eliminates the HDPC equations: how many dimensions they leave, and the basis where these are few.
static uint32_t finish(struct rank *rank, struct small *small) {
    struct split split = eliminate_octets(small);
    uint64_t values[FREE_MOST] = {0};
    if (split.left == 0 || split.left > BASIS_MOST) return split.left;
    for (uint32_t at = 0; at < split.left; at++) add_vector(small, &split, at, values);
    fill_basis(rank, values, small->width);
    return split.left;
}

uint32_t undetermined(struct rank *rank, const uint32_t *internal_ids, uint32_t count) {
    uint32_t free_columns[FREE_MOST];
    peel(&rank->peeling, internal_ids, count);
    uint32_t free_count = eliminate(rank, gather(rank), free_columns);
    if (free_count > FREE_MOST) return free_count - rank->equations.row.hdpc_symbols;
    sum_inactive(rank, free_columns, free_count);
    sum_columns(rank);
    struct small small;
    make_small(rank, free_count, &small);
    return finish(rank, &small);
}
