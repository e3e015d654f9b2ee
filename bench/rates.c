// MB/s of the library that is installed in PREFIX, of blocks of K symbols of T bytes.
//
//     cc -O2 -IPREFIX/include bench/rates.c PREFIX/lib/libreamertan.a -o rates
//     taskset -c 1 ./rates ROUNDS            as root by `chrt -f 10` before it, no other program gets the core
//     ./rates WORK K T TIMES
//
// Prints for each K and T the MB of the block a second of encoding it with one repair packet for each ten source symbols by a plan that is
// there, of encoding it with its plan, and of decoding it from K packets, each tenth source packet lost. In a round each work is done as often
// as takes SAMPLE seconds; of large blocks there are fewer rounds. Since a machine's speed may change from moment to moment, it is the rate
// that a tenth of the rounds is above. Of large blocks much of the time may be that of pages that malloc gives back and takes again; in glibc's
// MALLOC_TRIM_THRESHOLD_=4000000000 MALLOC_MMAP_THRESHOLD_=4000000000 before the program keep them.
//
// With four words it does one of these works, 0, 1 or 2, so many times on one block, and prints nothing: bench/instructions counts what that takes.
#define _POSIX_C_SOURCE 199309L
#include <stdio.h>
#include <stdlib.h>
#include <string.h>
#include <time.h>

#include "reamertan.h"

enum { COUNTS = 7, SIZES = 2, WORKS = 3, ROUNDS_MOST = 99, LARGE = 10120 };

static const double SAMPLE = 0.02;
static const uint16_t counts[COUNTS] = {10, 101, 248, 497, 1002, 10120, 56403}, sizes[SIZES] = {1280, 64};

// A block, its coders and what they fill.
struct block {
    uint16_t symbols, size;
    uint32_t repair;
    size_t length, packet;
    uint8_t configuration[REAMERTAN_CONFIGURATION_BYTES];
    uint8_t *bytes, *packets, *back;
    reamertan_plan *plan;
    reamertan_block_encoder *encoder;
    reamertan_decoder *decoder;
};

static void done(uint8_t answer) {
    if (answer == REAMERTAN_DONE) return;
    fprintf(stderr, "%s\n", reamertan_answer_text(answer));
    exit(1);
}

static void *take(size_t bytes) {
    void *memory = calloc(1, bytes);
    if (!memory) done(REAMERTAN_OUT_OF_MEMORY);
    return memory;
}

static void make_plan(struct block *block) {
    reamertan_plan_close(&block->plan);
    done(reamertan_plan_open(&block->plan, block->symbols));
}

static void encode(struct block *block) {
    reamertan_block_encoder_close(&block->encoder);
    done(reamertan_block_encoder_open(&block->encoder, block->plan, block->configuration, 0, block->bytes, block->length));
    done(reamertan_block_encoder_write(block->encoder, 0, block->symbols + block->repair, block->packets,
                                       (block->symbols + block->repair) * block->packet));
}

static void make_plan_and_encode(struct block *block) {
    make_plan(block);
    encode(block);
}

static void add(struct block *block, uint32_t at) {
    bool completes = false;
    done(reamertan_decoder_add_packet(block->decoder, block->packets + at * block->packet, block->packet, &completes));
}

// Every (K / repair)-th source packet is lost, as many as there are repair packets.
static void decode(struct block *block) {
    uint32_t step = block->symbols / block->repair, all = block->symbols + block->repair;
    reamertan_decoder_close(&block->decoder);
    done(reamertan_decoder_open(&block->decoder, block->configuration));
    for (uint32_t at = 0; at < all; at++) {
        bool is_lost = at < block->symbols && at % step == 0 && at / step < block->repair;
        if (!is_lost) add(block, at);
    }
    // K packets that don't determine the block: two more do.
    if (!reamertan_decoder_is_complete(block->decoder))
        for (uint32_t at = 0; at < 2; at++) add(block, at * step);
    done(reamertan_decoder_write_object(block->decoder, block->back, block->length));
}

static struct block make_block(uint16_t symbols, uint16_t size) {
    struct block made = {.symbols = symbols, .size = size, .repair = symbols / 10, .packet = REAMERTAN_PAYLOAD_ID_BYTES + (size_t)size};
    made.length = (size_t)symbols * size;
    made.bytes = take(made.length);
    made.back = take(made.length);
    made.packets = take((symbols + made.repair) * made.packet);
    for (size_t at = 0; at < made.length; at++) made.bytes[at] = (uint8_t)((at * 2654435761) >> 16);
    struct reamertan_parameters parameters = {made.length, size, 1, 1, 1};
    done(reamertan_write_configuration(&parameters, made.configuration));
    return made;
}

static void free_block(struct block *block) {
    reamertan_plan_close(&block->plan);
    reamertan_block_encoder_close(&block->encoder);
    reamertan_decoder_close(&block->decoder);
    free(block->bytes);
    free(block->back);
    free(block->packets);
}

static double now(void) {
    struct timespec time;
    clock_gettime(CLOCK_MONOTONIC, &time);
    return (double)time.tv_sec + (double)time.tv_nsec * 1e-9;
}

// Seconds that a work takes once.
static double sample(void (*work)(struct block *), struct block *block) {
    double start = now(), spent = 0;
    int times = 0;
    while (spent < SAMPLE) {
        work(block);
        times++;
        spent = now() - start;
    }
    return spent / times;
}

static int ascending(const void *a, const void *b) {
    double first = *(const double *)a, second = *(const double *)b;
    return (first > second) - (first < second);
}

static void (*const works[WORKS])(struct block *) = {encode, make_plan_and_encode, decode};

static void repeat(int work, uint16_t symbols, uint16_t size, int times) {
    struct block block = make_block(symbols, size);
    make_plan_and_encode(&block);
    for (int at = 0; at < times; at++) works[work](&block);
    free_block(&block);
}

static void measure(uint16_t symbols, uint16_t size, int rounds) {
    struct block block = make_block(symbols, size);
    double seconds[WORKS][ROUNDS_MOST];
    make_plan_and_encode(&block);
    for (int at = 0; at < rounds * WORKS; at++) seconds[at % WORKS][at / WORKS] = sample(works[at % WORKS], &block);
    printf("%6u%6u", size, symbols);
    for (int work = 0; work < WORKS; work++) {
        qsort(seconds[work], (size_t)rounds, sizeof(double), ascending);
        printf("%9.0f", (double)block.length / 1e6 / seconds[work][rounds / 10]);
    }
    puts("");
    free_block(&block);
}

int main(int count, char **words) {
    int is_help = count == 2 && (strcmp(words[1], "--help") == 0 || strcmp(words[1], "-h") == 0);
    int rounds = count == 2 ? atoi(words[1]) : 0;
    if (count == 5) {
        int work = atoi(words[1]), symbols = atoi(words[2]), size = atoi(words[3]);
        if (work < 0 || work >= WORKS || symbols < 10 || symbols > 56403 || size < 1 || size > UINT16_MAX) return 2;
        repeat(work, (uint16_t)symbols, (uint16_t)size, atoi(words[4]));
        return 0;
    }
    if (is_help || rounds < 1 || rounds > ROUNDS_MOST) {
        fprintf(is_help ? stdout : stderr, "usage: rates ROUNDS      from 1 to %d\n       rates WORK K T TIMES\n", ROUNDS_MOST);
        return is_help ? 0 : 2;
    }
    printf("MB/s, %s\n     T     K   by a plan  plan too   decode\n", reamertan_processor());
    for (int size = 0; size < SIZES; size++)
        for (int at = 0; at < COUNTS; at++) measure(counts[at], sizes[size], counts[at] < LARGE ? rounds : (rounds + 3) / 4);
    return 0;
}
