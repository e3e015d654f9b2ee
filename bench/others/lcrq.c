// liblcrq as a code of pieces: a context for each block.
#include <lcrq.h>
#include <stdlib.h>
#include <string.h>

#include "pieces.h"

const size_t HEADER = 0;

void label(const struct work *work, uint32_t block, uint32_t piece, uint8_t *header) {
    (void)work, (void)block, (void)piece, (void)header;
}

void begin(const struct work *work, bool encodes) {
    (void)encodes;
    must(work->size % RQ_AL == 0 && work->size < 65536, "symbols have no such size");
}

static rq_t *open_block(const struct work *work) {
    rq_t *rq = rq_init((uint64_t)work->source * work->size, (uint16_t)work->size);
    must(rq && rq_Z(rq) == 1 && rq_K(rq) == work->source, "it isn't one block");
    return rq;
}

void encode(const struct work *work, uint32_t block, const uint8_t *source, uint8_t *repair) {
    (void)block;
    rq_t *rq = open_block(work);
    must(rq_encode(rq, (void *)source, (size_t)work->source * work->size) == 0, "it doesn't encode");
    for (uint32_t piece = work->source; piece < work->pieces; piece++) {
        uint8_t *to = repair + (size_t)(piece - work->source) * work->size;
        rq_pid_t id = htonl(piece) >> 8;
        const uint8_t *symbol = rq_symbol(rq, &id, to, 0);
        if (symbol != to) memcpy(to, symbol, work->size);
    }
    rq_free(rq);
}

// Two packets more than K.
bool decode(const struct work *work, uint32_t block, const uint8_t *pieces, const bool *lost, uint8_t *source) {
    (void)block;
    uint32_t came = 0, *ids = take(work->pieces * sizeof *ids);
    rq_t *rq = open_block(work);
    uint8_t *symbols = take((size_t)work->pieces * work->size), *back = take((size_t)rq_KP(rq) * work->size);
    for (uint32_t piece = 0; piece < work->pieces && came < work->source + 2; piece++) {
        if (lost[piece]) continue;
        memcpy(symbols + (size_t)came * work->size, pieces + (size_t)piece * work->size, work->size);
        ids[came++] = piece;
    }
    bool answers = came >= work->source && rq_decode(rq, back, symbols, ids, came) == 0;
    if (answers) memcpy(source, back, (size_t)work->source * work->size);
    free(ids), free(symbols), free(back);
    rq_free(rq);
    return answers;
}
