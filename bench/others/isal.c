// Reed-Solomon by libisal as a code of pieces, with its Cauchy matrix, of which each choice of K pieces determines a block.
#include <isa-l/erasure_code.h>
#include <string.h>

#include "pieces.h"

enum { PIECES_MOST = 255 };

const size_t HEADER = 0;

static uint8_t matrix[PIECES_MOST * PIECES_MOST], *tables;

void label(const struct work *work, uint32_t block, uint32_t piece, uint8_t *header) {
    (void)work, (void)block, (void)piece, (void)header;
}

void begin(const struct work *work, bool encodes) {
    must(work->pieces <= PIECES_MOST, "it has too many pieces");
    int source = (int)work->source;
    gf_gen_cauchy1_matrix(matrix, (int)work->pieces, source);
    tables = take((size_t)32 * work->source * PIECES_MOST);
    if (encodes) ec_init_tables(source, (int)work->pieces - source, matrix + source * source, tables);
}

static void list(const uint8_t *first, uint32_t count, uint32_t size, uint8_t **listed) {
    for (uint32_t at = 0; at < count; at++) listed[at] = (uint8_t *)first + (size_t)at * size;
}

void encode(const struct work *work, uint32_t block, const uint8_t *source, uint8_t *repair) {
    (void)block;
    uint8_t *from[PIECES_MOST], *to[PIECES_MOST];
    uint32_t count = work->pieces - work->source;
    list(source, work->source, work->size, from);
    list(repair, count, work->size, to);
    ec_encode_data((int)work->size, (int)work->source, (int)count, tables, from, to);
}

// The repair pieces that stand for lost source pieces.
struct stands {
    uint32_t count;
    uint32_t lost[PIECES_MOST], repair[PIECES_MOST];
    uint8_t inverse[PIECES_MOST * PIECES_MOST];
};

// Whether enough came.
static bool choose(const struct work *work, const bool *lost, struct stands *stands) {
    uint32_t repair = work->source;
    stands->count = 0;
    for (uint32_t piece = 0; piece < work->source; piece++) {
        if (!lost[piece]) continue;
        while (repair < work->pieces && lost[repair]) repair++;
        if (repair == work->pieces) return false;
        stands->lost[stands->count] = piece;
        stands->repair[stands->count++] = repair++;
    }
    return true;
}

// Inverts what the matrix has in the rows of repair pieces and the columns of lost ones.
static bool invert(const struct work *work, struct stands *stands) {
    static uint8_t small[PIECES_MOST * PIECES_MOST];
    uint32_t count = stands->count;
    for (uint32_t row = 0; row < count; row++)
        for (uint32_t column = 0; column < count; column++)
            small[row * count + column] = matrix[stands->repair[row] * work->source + stands->lost[column]];
    return count == 0 || gf_invert_matrix(small, stands->inverse, (int)count) == 0;
}

// A lost source piece as a sum of multiples of source pieces that came and repair pieces, these in the places of lost ones.
static void make_row(const struct work *work, const struct stands *stands, uint32_t at, uint8_t *row) {
    const uint8_t *inverse = stands->inverse + at * stands->count;
    memset(row, 0, work->source);
    for (uint32_t repair = 0; repair < stands->count; repair++)
        for (uint32_t piece = 0; piece < work->source; piece++)
            row[piece] ^= gf_mul(inverse[repair], matrix[stands->repair[repair] * work->source + piece]);
    for (uint32_t repair = 0; repair < stands->count; repair++) row[stands->lost[repair]] = inverse[repair];
}

bool decode(const struct work *work, uint32_t block, const uint8_t *pieces, const bool *lost, uint8_t *source) {
    static struct stands stands;
    static uint8_t rows[PIECES_MOST * PIECES_MOST];
    uint8_t *from[PIECES_MOST], *to[PIECES_MOST];
    (void)block;
    if (!choose(work, lost, &stands) || !invert(work, &stands)) return false;
    list(pieces, work->source, work->size, from);
    for (uint32_t at = 0; at < stands.count; at++) {
        make_row(work, &stands, at, rows + at * work->source);
        from[stands.lost[at]] = (uint8_t *)pieces + (size_t)stands.repair[at] * work->size;
        to[at] = source + (size_t)stands.lost[at] * work->size;
    }
    ec_init_tables((int)work->source, (int)stands.count, rows, tables);
    if (stands.count > 0) ec_encode_data((int)work->size, (int)work->source, (int)stands.count, tables, from, to);
    return true;
}
