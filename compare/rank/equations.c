// The equations of RFC 6330: the sums of encoding symbols (5.3.5), and the HDPC equations (5.3.3.3).
#include "rank.h"

#include <stdio.h>
#include <stdlib.h>

#include "tables.h"

uint8_t product[256][256], inverse[256];
static uint8_t least_degree[1024];

void end(const char *reason) {
    fprintf(stderr, "%s\n", reason);
    exit(1);
}

void *zeros(size_t count, size_t size) {
    void *memory = calloc(count ? count : 1, size);
    if (!memory) end("memory was refused");
    return memory;
}

const struct row *row_of(uint32_t symbols) {
    for (size_t at = 0; at < sizeof table_rows / sizeof *table_rows; at++)
        if (table_rows[at].extended_symbols >= symbols) return &table_rows[at];
    end("no row has so many symbols");
    return NULL;
}

// Products of 64 bits by 64, which compilers of C11 have beside the standard.
__extension__ typedef unsigned __int128 wide;

static struct divisor divisor(uint32_t by) {
    return (struct divisor){by, UINT64_MAX / by + 1};
}

// The quotient of a number of 32 bits is the upper half of a product: what the inverse is too great by is too little to count.
static inline uint32_t remainder_of(uint32_t number, struct divisor divisor) {
    return number - (uint32_t)((wide)number * divisor.inverse >> 64) * divisor.by;
}

// Rand (5.3.5.1) before its division.
static inline uint32_t mixed(uint32_t y, uint32_t i) {
    return V0[(y + i) & 255] ^ V1[((y >> 8) + i) & 255] ^ V2[((y >> 16) + i) & 255] ^ V3[((y >> 24) + i) & 255];
}

// Deg (5.3.5.2), from the degree that the first number of the same 1024 has.
static inline uint32_t degree(uint32_t v, uint32_t lt_symbols) {
    uint32_t found = least_degree[v >> 10];
    while (v >= DEGREE_STARTS[found]) found++;
    return found < lt_symbols - 2 ? found : lt_symbols - 2;
}

static void make_degrees(void) {
    for (uint32_t at = 0, found = 1; at < 1024; at++) {
        while (at << 10 >= DEGREE_STARTS[found]) found++;
        least_degree[at] = (uint8_t)found;
    }
}

// The first LT place, and `count` - 1 that follow it by a step. W is prime, so that they differ.
static inline void add_lt_places(uint32_t at, uint32_t step, uint32_t count, uint32_t lt_symbols, struct places *places) {
    for (uint32_t i = 0; i < count; i++) {
        places->at[i] = at;
        at += step;
        at -= at < lt_symbols ? 0 : lt_symbols;
    }
    places->lt = places->all = count;
}

// The first `count` PI places of those that follow the first one by a step, modulo P1, and are below P.
static inline void add_pi_places(uint32_t at, uint32_t step, uint32_t count, const struct equations *of, struct places *places) {
    while (places->all < places->lt + count) {
        if (at < of->pi_symbols) places->at[places->all++] = of->row.lt_symbols + at;
        at += step;
        at -= at < of->row.p1 ? 0 : of->row.p1;
    }
}

// Tuple (5.3.5.4), and the loops of Enc (5.3.5.3).
void places_of(const struct equations *of, uint32_t id, struct places *places) {
    const struct row *row = &of->row;
    uint32_t a = (53591 + 997 * row->systematic_index) | 1;
    uint32_t y = 10267 * (row->systematic_index + 1) + id * a;
    uint32_t d = degree(mixed(y, 0) % (1 << 20), row->lt_symbols);
    uint32_t d1 = d < 4 ? 2 + mixed(id, 3) % 2 : 2;
    add_lt_places(remainder_of(mixed(y, 2), of->by_w), 1 + remainder_of(mixed(y, 1), of->by_w_less_1), d, row->lt_symbols, places);
    add_pi_places(remainder_of(mixed(id, 5), of->by_p1), 1 + remainder_of(mixed(id, 4), of->by_p1_less_1), d1, of, places);
}

// Products modulo x^8 + x^4 + x^3 + x^2 + 1 (5.7).
static uint8_t doubled(uint8_t octet) {
    return (uint8_t)(octet << 1 ^ (octet >> 7) * 29);
}

static void make_products(void) {
    for (int a = 1; a < 256; a++)
        for (int b = 1; b < 256; b++) {
            product[a][b] = (uint8_t)(doubled(product[a >> 1][b]) ^ (a & 1 ? b : 0));
            if (product[a][b] == 1) inverse[a] = (uint8_t)b;
        }
}

// MT in a column but the last.
static void add_two_ones(uint32_t column, uint32_t hdpc_symbols, struct octets *sum) {
    uint32_t first = mixed(column + 1, 6) % hdpc_symbols;
    sum->at[first] ^= 1;
    sum->at[(first + mixed(column + 1, 7) % (hdpc_symbols - 1) + 1) % hdpc_symbols] ^= 1;
}

// MT in its last column, and what is behind MT * GAMMA: a one in each row.
static void add_ends(struct equations *made, struct octets *last) {
    uint32_t first = made->row.extended_symbols + made->row.ldpc_symbols;
    for (uint32_t i = 0; i < made->row.hdpc_symbols && i < HDPC_MOST; i++) {
        last->at[i] = i == 0 ? 1 : doubled(last->at[i - 1]);
        made->hdpc[first + i].at[i] = 1;
    }
}

static void double_all(struct octets *octets) {
    for (int i = 0; i < HDPC_MOST; i++) octets->at[i] = doubled(octets->at[i]);
}

// MT * GAMMA: since GAMMA[i][j] is alpha^(i-j), a column is that of MT and alpha times the next one.
static void make_hdpc(struct equations *made) {
    struct octets sum = {{0}};
    add_ends(made, &sum);
    uint32_t column = made->row.extended_symbols + made->row.ldpc_symbols - 1;
    made->hdpc[column] = sum;
    while (column-- > 0) {
        double_all(&sum);
        add_two_ones(column, made->row.hdpc_symbols, &sum);
        made->hdpc[column] = sum;
    }
}

void make_equations(const struct row *row, struct equations *made) {
    if (row->hdpc_symbols > HDPC_MOST) end("the row has too many HDPC symbols");
    made->row = *row;
    made->intermediate_symbols = row->extended_symbols + row->ldpc_symbols + row->hdpc_symbols;
    made->pi_symbols = made->intermediate_symbols - row->lt_symbols;
    made->by_w = divisor(row->lt_symbols);
    made->by_w_less_1 = divisor(row->lt_symbols - 1);
    made->by_p1 = divisor(row->p1);
    made->by_p1_less_1 = divisor(row->p1 - 1);
    made->hdpc = zeros(made->intermediate_symbols, sizeof *made->hdpc);
    make_products();
    make_degrees();
    make_hdpc(made);
}
