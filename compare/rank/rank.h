// Counts how many dimensions the equations of RFC 6330 leave undetermined, for any encoding symbol ids.
//
// It is written from the definitions of RFC 6330 alone (sections 5.3.3, 5.3.5, 5.5 and 5.7), and shares no code with the
// codec here nor with the Rust crate. The tables are the codec's: `common/building.py` writes them into tables.h.
#ifndef RANK_H
#define RANK_H

#include <stdbool.h>
#include <stddef.h>
#include <stdint.h>

// An HDPC column has so many octets at most, an encoding symbol so many places, and a set so many columns of a basis.
enum { HDPC_MOST = 16, PLACES_MOST = 36, BASIS_MOST = 3 };

// Ids are below this.
#define IDS (UINT32_C(1) << 24)

// A row of the table of section 5.6, with P1 (5.3.3.3).
struct row {
    uint32_t extended_symbols; // K'
    uint32_t systematic_index; // J
    uint32_t ldpc_symbols;     // S
    uint32_t hdpc_symbols;     // H
    uint32_t lt_symbols;       // W
    uint32_t p1;
};

// The row of blocks of so many symbols: the first of at least as many. It ends the program where there is none.
const struct row *row_of(uint32_t symbols);

// The octets of a column in the H HDPC equations.
struct octets {
    uint8_t at[HDPC_MOST];
};

// The products of octets, and what makes 1 of each but 0.
extern uint8_t product[256][256], inverse[256];

// The intermediate symbols that an encoding symbol is the sum of: those among the LT symbols, which all differ, and behind
// them those among the PI symbols.
struct places {
    uint32_t lt, all;
    uint32_t at[PLACES_MOST];
};

// A number to divide by, and 2^64 by it, rounded up.
struct divisor {
    uint32_t by;
    uint64_t inverse;
};

// What a row of the table says for all blocks.
struct equations {
    struct row row;
    uint32_t intermediate_symbols; // L
    uint32_t pi_symbols;           // P
    struct divisor by_w, by_w_less_1, by_p1, by_p1_less_1;
    struct octets *hdpc; // of each of the L columns
};

// Ends the program with 1.
void end(const char *reason);

// Memory of zeros. It ends the program where there is none.
void *zeros(size_t count, size_t size);

void make_equations(const struct row *row, struct equations *made);
void places_of(const struct equations *of, uint32_t internal_id, struct places *places);

// The peeling of a set's binary equations. A column of the LT symbols is known by the inactive columns that it is the sum
// of; PI symbols are inactive from the start.
struct active {
    uint32_t degree;  // how many unknown columns a row has
    uint32_t columns; // the exclusive or of their numbers
};

struct one {
    uint32_t row, column;
};

struct peeling {
    const struct equations *of;
    uint32_t words; // of 64 inactive columns each
    uint32_t inactive, rows, ones, waiting;
    struct active *active, *ldpc_active;
    uint64_t *row_bits, *column_bits;
    bool *known;
    uint32_t *ldpc_rows;                    // three of each column
    uint32_t *uses, *ends, *rows_of;        // of the ids' rows: how many have a column, and which these are
    uint32_t *most_used, *stack;            // columns, the most used first; rows with one unknown column
    struct one *one;
};

void make_peeling(const struct equations *of, uint32_t ids, struct peeling *made);
void peel(struct peeling *peeling, const uint32_t *internal_ids, uint32_t count);

// The count itself.
struct rank {
    struct equations equations;
    struct peeling peeling;
    uint64_t *eliminated, *free_sums, *column_sums;
    uint32_t *pivots, *basis;
};

// For sets of so many ids at most.
struct rank *make_rank(const struct row *row, uint32_t ids);

// The dimension of the columns that solve the LDPC and HDPC equations and those of these ids with zeros as values: 0 where
// the ids determine the block. From 1 to BASIS_MOST `basis` then has a basis: of each column octet i of its word is the
// i-th vector's.
uint32_t undetermined(struct rank *rank, const uint32_t *internal_ids, uint32_t count);

#endif
