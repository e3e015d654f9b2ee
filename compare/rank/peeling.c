// Peels the binary equations of a set of ids: those of LDPC symbols (RFC 6330, 5.3.3.3) and of the ids.
#include <string.h>

#include "rank.h"

// Columns that this many rows have, or more, count as equally used.
enum { USES_MOST = 31 };

// So many words of inactive columns are mostly enough.
static uint32_t usual_words(const struct equations *of) {
    return (of->pi_symbols + of->row.lt_symbols / 48 + 12) / 64 + 1;
}

// The LT symbols of the LDPC equations. Below B = W - S a column is in three of them, which differ since S is prime, and
// from there on in one.
static void make_ldpc(struct peeling *made) {
    uint32_t count = made->of->row.ldpc_symbols, before = made->of->row.lt_symbols - count;
    for (uint32_t column = 0; column < made->of->row.lt_symbols; column++)
        for (uint32_t time = 0; time < (column < before ? 3 : 1); time++) {
            uint32_t row = column < before ? (column + time * (1 + column / count)) % count : column - before;
            made->ldpc_rows[3 * column + time] = row;
            made->ldpc_active[row].degree++;
            made->ldpc_active[row].columns ^= column;
        }
}

void make_peeling(const struct equations *of, uint32_t ids, struct peeling *made) {
    uint32_t rows = of->row.ldpc_symbols + ids, columns = of->intermediate_symbols, widest = columns / 64 + 1;
    made->of = of;
    made->active = zeros(rows, sizeof *made->active);
    made->ldpc_active = zeros(rows, sizeof *made->ldpc_active);
    made->row_bits = zeros((size_t)rows * widest, sizeof *made->row_bits);
    made->column_bits = zeros((size_t)columns * widest, sizeof *made->column_bits);
    made->known = zeros(columns, sizeof *made->known);
    made->ldpc_rows = zeros((size_t)3 * columns, sizeof *made->ldpc_rows);
    made->uses = zeros(columns, sizeof *made->uses);
    made->ends = zeros(columns, sizeof *made->ends);
    made->rows_of = zeros((size_t)PLACES_MOST * ids, sizeof *made->rows_of);
    made->most_used = zeros(columns, sizeof *made->most_used);
    made->stack = zeros((size_t)rows + 1, sizeof *made->stack);
    made->one = zeros((size_t)PLACES_MOST * ids, sizeof *made->one);
    make_ldpc(made);
}

static void flip_pi(struct peeling *peeling, uint32_t row, uint32_t pi) {
    peeling->row_bits[(size_t)row * peeling->words + pi / 64] ^= UINT64_C(1) << pi % 64;
}

static void add_lt(struct peeling *peeling, uint32_t row, const struct places *places) {
    uint32_t columns = 0;
    struct one *one = peeling->one + peeling->ones;
    for (uint32_t i = 0; i < places->lt; i++) {
        uint32_t column = places->at[i];
        one[i] = (struct one){row, column};
        peeling->uses[column]++;
        columns ^= column;
    }
    peeling->ones += places->lt;
    peeling->active[row] = (struct active){places->lt, columns};
}

static void add_id(struct peeling *peeling, uint32_t row, uint32_t internal_id) {
    struct places places;
    places_of(peeling->of, internal_id, &places);
    add_lt(peeling, row, &places);
    for (uint32_t i = places.lt; i < places.all; i++) flip_pi(peeling, row, places.at[i] - peeling->of->row.lt_symbols);
}

static void add_ldpc(struct peeling *peeling) {
    uint32_t count = peeling->of->row.ldpc_symbols;
    memcpy(peeling->active, peeling->ldpc_active, count * sizeof *peeling->active);
    for (uint32_t row = 0; row < count; row++) {
        flip_pi(peeling, row, row % peeling->of->pi_symbols);
        flip_pi(peeling, row, (row + 1) % peeling->of->pi_symbols);
    }
}

// Makes room for the list of each column's rows.
static void place_lists(struct peeling *peeling) {
    uint32_t end = 0;
    for (uint32_t column = 0; column < peeling->of->row.lt_symbols; column++) {
        peeling->ends[column] = end;
        end += peeling->uses[column];
    }
}

// Lists the rows of each column, those of a column before its end.
static void list_rows(struct peeling *peeling) {
    place_lists(peeling);
    for (uint32_t at = 0; at < peeling->ones; at++) peeling->rows_of[peeling->ends[peeling->one[at].column]++] = peeling->one[at].row;
}

// The place of a number of uses where the greatest come first.
static uint32_t place_of_uses(uint32_t uses) {
    return uses < USES_MOST ? USES_MOST - uses : 0;
}

// How many columns come before those of each place.
static void count_before(const struct peeling *peeling, uint32_t before[USES_MOST + 2]) {
    for (uint32_t column = 0; column < peeling->of->row.lt_symbols; column++) before[place_of_uses(peeling->uses[column]) + 1]++;
    for (uint32_t place = 0; place < USES_MOST; place++) before[place + 1] += before[place];
}

// Sorts the columns by how many rows have them.
static void list_columns(struct peeling *peeling) {
    uint32_t before[USES_MOST + 2] = {0};
    count_before(peeling, before);
    for (uint32_t column = 0; column < peeling->of->row.lt_symbols; column++)
        peeling->most_used[before[place_of_uses(peeling->uses[column])]++] = column;
}

static void begin(struct peeling *peeling, const uint32_t *internal_ids, uint32_t count) {
    uint32_t ldpc = peeling->of->row.ldpc_symbols, columns = peeling->of->row.lt_symbols;
    peeling->rows = ldpc + count;
    peeling->ones = peeling->waiting = peeling->inactive = 0;
    memset(peeling->row_bits, 0, (size_t)peeling->rows * peeling->words * sizeof *peeling->row_bits);
    memset(peeling->column_bits, 0, (size_t)peeling->of->intermediate_symbols * peeling->words * sizeof *peeling->column_bits);
    memset(peeling->known, 0, columns * sizeof *peeling->known);
    memset(peeling->uses, 0, columns * sizeof *peeling->uses);
    add_ldpc(peeling);
    for (uint32_t i = 0; i < count; i++) add_id(peeling, ldpc + i, internal_ids[i]);
    list_rows(peeling);
    list_columns(peeling);
}

// Puts what is known of a column into rows that have it. The row that says it has only zeros left then. Each row is put behind
// those that wait, and stays there where one unknown column is left.
static inline void put(struct peeling *peeling, uint32_t column, const uint32_t *rows, uint32_t count, uint32_t words) {
    const uint64_t *bits = peeling->column_bits + (size_t)column * words;
    uint32_t waiting = peeling->waiting, *stack = peeling->stack;
    for (uint32_t at = 0; at < count; at++) {
        uint64_t *row_bits = peeling->row_bits + (size_t)rows[at] * words;
        struct active *active = &peeling->active[rows[at]];
        for (uint32_t word = 0; word < words; word++) row_bits[word] ^= bits[word];
        active->columns ^= column;
        stack[waiting] = rows[at];
        waiting += --active->degree == 1;
    }
    peeling->waiting = waiting;
}

static inline void put_all(struct peeling *peeling, uint32_t column, uint32_t words) {
    uint32_t before = peeling->of->row.lt_symbols - peeling->of->row.ldpc_symbols, uses = peeling->uses[column];
    put(peeling, column, peeling->ldpc_rows + (size_t)3 * column, column < before ? 3 : 1, words);
    put(peeling, column, peeling->rows_of + (peeling->ends[column] - uses), uses, words);
}

// A column is known. Where there is one word the compiler is told so.
static void know(struct peeling *peeling, uint32_t column) {
    peeling->known[column] = true;
    if (peeling->words == 1) put_all(peeling, column, 1);
    else put_all(peeling, column, peeling->words);
}

// Knows all columns that are alone in a row.
static void know_lone(struct peeling *peeling) {
    size_t words = peeling->words;
    while (peeling->waiting) {
        uint32_t row = peeling->stack[--peeling->waiting], column = peeling->active[row].columns;
        if (peeling->active[row].degree != 1) continue;
        memcpy(peeling->column_bits + column * words, peeling->row_bits + row * words, words * sizeof *peeling->row_bits);
        know(peeling, column);
    }
}

static void set_inactive(struct peeling *peeling, uint32_t column) {
    uint32_t place = peeling->inactive++;
    peeling->column_bits[(size_t)column * peeling->words + place / 64] |= UINT64_C(1) << place % 64;
}

static void begin_peeling(struct peeling *peeling) {
    for (uint32_t i = 0; i < peeling->of->pi_symbols; i++) set_inactive(peeling, peeling->of->row.lt_symbols + i);
    for (uint32_t row = 0; row < peeling->rows; row++)
        if (peeling->active[row].degree == 1) peeling->stack[peeling->waiting++] = row;
    know_lone(peeling);
}

// Whether the inactive columns fit into the words.
static bool peel_within(struct peeling *peeling) {
    begin_peeling(peeling);
    for (uint32_t at = 0; at < peeling->of->row.lt_symbols; at++) {
        uint32_t column = peeling->most_used[at];
        if (peeling->known[column]) continue;
        if (peeling->inactive == 64 * peeling->words) return false;
        set_inactive(peeling, column);
        know(peeling, column);
        know_lone(peeling);
    }
    return true;
}

void peel(struct peeling *peeling, const uint32_t *internal_ids, uint32_t count) {
    peeling->words = usual_words(peeling->of);
    begin(peeling, internal_ids, count);
    while (!peel_within(peeling)) {
        peeling->words++;
        begin(peeling, internal_ids, count);
    }
}
