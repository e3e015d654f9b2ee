// This library as a code of pieces: a piece is a packet. One plan makes all blocks, and one decoder takes all packets.
#include <string.h>

#include "pieces.h"
#include "reamertan.h"

const size_t HEADER = REAMERTAN_PAYLOAD_ID_BYTES;

static uint8_t configuration[REAMERTAN_CONFIGURATION_BYTES];
static reamertan_plan *plan;
static reamertan_block_encoder *encoder;
static reamertan_decoder *decoder;

static void done(uint8_t answer) {
    must(answer == REAMERTAN_DONE, reamertan_answer_text(answer));
}

static size_t packet_size(const struct work *work) {
    return HEADER + work->size;
}

void label(const struct work *work, uint32_t block, uint32_t piece, uint8_t *header) {
    (void)work;
    const uint8_t id[] = {(uint8_t)block, (uint8_t)(piece >> 16), (uint8_t)(piece >> 8), (uint8_t)piece};
    memcpy(header, id, sizeof id);
}

void begin(const struct work *work, bool encodes) {
    struct reamertan_parameters parameters = {(uint64_t)work->source * work->size * work->blocks, (uint16_t)work->size, 1, (uint8_t)work->blocks, 1};
    must(work->blocks < 256 && work->size < 65536 && work->source < 65536, "that is no object");
    done(reamertan_write_configuration(&parameters, configuration));
    if (encodes) done(reamertan_plan_open(&plan, (uint16_t)work->source));
    else done(reamertan_decoder_open(&decoder, configuration));
}

void encode(const struct work *work, uint32_t block, const uint8_t *source, uint8_t *repair) {
    uint32_t count = work->pieces - work->source;
    reamertan_block_encoder_close(&encoder);
    done(reamertan_block_encoder_open(&encoder, plan, configuration, (uint8_t)block, source, (size_t)work->source * work->size));
    done(reamertan_block_encoder_write(encoder, work->source, count, repair, count * packet_size(work)));
}

// Packets are handed in until their block is complete.
bool decode(const struct work *work, uint32_t block, const uint8_t *pieces, const bool *lost, uint8_t *source) {
    bool completes = false;
    for (uint32_t piece = 0; piece < work->pieces && !completes; piece++)
        if (!lost[piece])
            done(reamertan_decoder_add_packet(decoder, pieces + piece * packet_size(work), packet_size(work), &completes));
    return completes &&
           reamertan_decoder_write_block(decoder, (uint8_t)block, source, (size_t)work->source * work->size) == REAMERTAN_DONE;
}
