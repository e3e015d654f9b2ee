// Exchanges symbols with liblcrq, both ways: compare/liblcrq builds and explains it.
//
//     liblcrq CONFIGURATIONS SEED
#include <inttypes.h>
#include <lcrq.h>
#include <stdio.h>
#include <stdlib.h>
#include <string.h>

#include "reamertan.h"

enum { LEAST = 10, GREATEST = 1002, SIZE_MOST = 256, REPAIR = 20, RANDOM = 20, IDS = GREATEST + REPAIR + RANDOM, SURPLUS = 2 };

// An object and what both make of it. Symbols lie one behind another.
struct trial {
    uint32_t symbols, size, ids;
    uint64_t length;
    uint32_t id[IDS];
    uint8_t object[GREATEST * SIZE_MOST], here[IDS * SIZE_MOST], there[IDS * SIZE_MOST], back[GREATEST * SIZE_MOST];
    uint8_t configuration[REAMERTAN_CONFIGURATION_BYTES];
};

static void fail(const struct trial *trial, const char *what) {
    fprintf(stderr, "K = %" PRIu32 ", T = %" PRIu32 ", F = %" PRIu64 ": %s\n", trial->symbols, trial->size, trial->length, what);
    exit(1);
}

static uint64_t state;

static uint32_t below(uint32_t bound) {
    state = state * 6364136223846793005 + 1442695040888963407;
    return (uint32_t)((state >> 32) % bound);
}

// An object of 10 to 1002 symbols, whose last one may be short.
static void draw(struct trial *trial) {
    memset(trial->object, 0, sizeof trial->object);
    trial->symbols = LEAST + below(GREATEST - LEAST + 1);
    trial->size = RQ_AL * (1 + below(SIZE_MOST / RQ_AL));
    trial->length = (uint64_t)trial->symbols * trial->size - below(trial->size);
    for (uint64_t at = 0; at < trial->length; at++) trial->object[at] = (uint8_t)below(256);
}

// All source ids, the next ones, and some random ones.
static void draw_ids(struct trial *trial) {
    trial->ids = trial->symbols + REPAIR + RANDOM;
    for (uint32_t at = 0; at < trial->ids; at++)
        trial->id[at] = at < trial->symbols + REPAIR ? at : trial->symbols + REPAIR + below((1 << 24) - trial->symbols - REPAIR);
}

static void configure(struct trial *trial, const rq_t *rq) {
    struct reamertan_parameters parameters = {rq_F(rq), rq_T(rq), rq_N(rq), (uint8_t)rq_Z(rq), rq_Al(rq)};
    if (rq_Z(rq) != 1 || rq_K(rq) != trial->symbols) fail(trial, "liblcrq cuts the object otherwise");
    if (reamertan_write_configuration(&parameters, trial->configuration)) fail(trial, "no configuration");
}

static void encode_there(struct trial *trial, rq_t *rq) {
    if (rq_encode(rq, trial->object, trial->length)) fail(trial, "liblcrq doesn't encode");
    for (uint32_t at = 0; at < trial->ids; at++) {
        rq_pid_t id = htonl(trial->id[at]) >> 8;
        const uint8_t *symbol = rq_symbol(rq, &id, trial->there + (size_t)at * trial->size, 0);
        if (!symbol || rq_pid2esi(id) != trial->id[at]) fail(trial, "liblcrq makes no symbol");
        memmove(trial->there + (size_t)at * trial->size, symbol, trial->size);
    }
}

static void encode_here(struct trial *trial) {
    reamertan_encoder *encoder = NULL;
    uint8_t packet[REAMERTAN_PAYLOAD_ID_BYTES + SIZE_MOST];
    if (reamertan_encoder_open(&encoder, trial->configuration, trial->object, trial->length)) fail(trial, "no encoder here");
    for (uint32_t at = 0; at < trial->ids; at++) {
        if (reamertan_encoder_write(encoder, 0, trial->id[at], 1, packet, REAMERTAN_PAYLOAD_ID_BYTES + trial->size)) fail(trial, "no packet here");
        memcpy(trial->here + (size_t)at * trial->size, packet + REAMERTAN_PAYLOAD_ID_BYTES, trial->size);
    }
    reamertan_encoder_close(&encoder);
}

static void exchange(uint8_t *symbols, uint32_t a, uint32_t b, uint32_t size) {
    uint8_t kept[SIZE_MOST];
    memcpy(kept, symbols + (size_t)a * size, size);
    memcpy(symbols + (size_t)a * size, symbols + (size_t)b * size, size);
    memcpy(symbols + (size_t)b * size, kept, size);
}

// Puts ids and symbols in a random order: the first ones then are those that come.
static void shuffle(struct trial *trial) {
    for (uint32_t last = trial->ids - 1; last > 0; last--) {
        uint32_t other = below(last + 1), kept = trial->id[last];
        trial->id[last] = trial->id[other];
        trial->id[other] = kept;
        exchange(trial->here, last, other, trial->size);
        exchange(trial->there, last, other, trial->size);
    }
}

static void add(struct trial *trial, uint32_t at, reamertan_decoder *decoder) {
    bool completes = false;
    uint8_t packet[REAMERTAN_PAYLOAD_ID_BYTES + SIZE_MOST] = {0};
    for (int octet = 1; octet < 4; octet++) packet[octet] = (uint8_t)(trial->id[at] >> 8 * (3 - octet));
    memcpy(packet + REAMERTAN_PAYLOAD_ID_BYTES, trial->there + (size_t)at * trial->size, trial->size);
    if (reamertan_decoder_add_packet(decoder, packet, REAMERTAN_PAYLOAD_ID_BYTES + trial->size, &completes)) fail(trial, "a packet is refused here");
}

// Whether symbols of liblcrq are enough here: then the object has to come back.
static bool decode_here(struct trial *trial, uint32_t count) {
    reamertan_decoder *decoder = NULL;
    if (reamertan_decoder_open(&decoder, trial->configuration)) fail(trial, "no decoder here");
    for (uint32_t at = 0; at < count; at++) add(trial, at, decoder);
    uint8_t answer = reamertan_decoder_write_object(decoder, trial->back, trial->length);
    reamertan_decoder_close(&decoder);
    if (answer == REAMERTAN_DONE && memcmp(trial->back, trial->object, trial->length) != 0) fail(trial, "another object comes back here");
    return answer == REAMERTAN_DONE;
}

// The same there, of symbols that were made here.
static bool decode_there(struct trial *trial, uint32_t count) {
    rq_t *rq = rq_init(trial->length, (uint16_t)trial->size);
    uint8_t *back = calloc(rq ? rq_KP(rq) : 0, trial->size);
    if (!back) fail(trial, "memory was refused");
    bool answers = rq_decode(rq, back, trial->here, trial->id, count) == 0;
    if (answers && memcmp(back, trial->object, trial->length) != 0) fail(trial, "another object comes back from liblcrq");
    free(back);
    rq_free(rq);
    return answers;
}

// How many of the two answer some K + SURPLUS symbols of the other.
static void run(struct trial *trial, uint32_t answers[2], uint64_t *compared) {
    draw(trial);
    draw_ids(trial);
    rq_t *rq = rq_init(trial->length, (uint16_t)trial->size);
    if (!rq) fail(trial, "liblcrq takes no such object");
    configure(trial, rq);
    encode_there(trial, rq);
    rq_free(rq);
    encode_here(trial);
    if (memcmp(trial->here, trial->there, (size_t)trial->ids * trial->size) != 0) fail(trial, "symbols differ");
    *compared += trial->ids;
    shuffle(trial);
    answers[0] += decode_here(trial, trial->symbols + SURPLUS);
    answers[1] += decode_there(trial, trial->symbols + SURPLUS);
}

int main(int count, char **words) {
    if (count != 3) {
        fputs("usage: interworking CONFIGURATIONS SEED\n", stderr);
        return 2;
    }
    static struct trial trial;
    uint32_t trials = (uint32_t)strtoul(words[1], NULL, 10), answers[2] = {0};
    uint64_t compared = 0;
    state = strtoull(words[2], NULL, 10);
    for (uint32_t at = 0; at < trials; at++) run(&trial, answers, &compared);
    printf("%" PRIu32 " objects: %" PRIu64 " symbols are equal; of K + %d symbols of the other, the library answered %" PRIu32
           " objects and liblcrq %" PRIu32 ", none of them otherwise\n", trials, compared, SURPLUS, answers[0], answers[1]);
    return answers[0] != trials || answers[1] != trials;
}
