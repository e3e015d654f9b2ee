// As `layout`, by the decoder of the library, and of all choices: prints how many determine a block, and how many don't.
#include <inttypes.h>
#include <stdio.h>
#include <stdlib.h>

#include "choices.h"
#include "reamertan.h"

static void check(uint8_t answer) {
    if (answer == REAMERTAN_DONE) return;
    fprintf(stderr, "%s\n", reamertan_answer_text(answer));
    exit(1);
}

static void open_decoder(uint32_t symbols, reamertan_decoder **decoder) {
    uint8_t configuration[REAMERTAN_CONFIGURATION_BYTES];
    check(reamertan_cut(symbols, 1, (uint16_t)symbols, configuration));
    check(reamertan_decoder_open(decoder, configuration));
}

// Ids alone decide, so that each symbol is a zero octet.
static void add_shard(reamertan_decoder *decoder, uint32_t first, uint32_t packets) {
    bool completes = false;
    for (uint32_t id = first; id < first + packets; id++) {
        const uint8_t packet[] = {0, (uint8_t)(id >> 16), (uint8_t)(id >> 8), (uint8_t)id, 0};
        check(reamertan_decoder_add_packet(decoder, packet, sizeof packet, &completes));
    }
}

static bool determines(const struct choices *choices) {
    reamertan_decoder *decoder = NULL;
    open_decoder(choices->layout.symbols, &decoder);
    for (uint32_t at = 0; at < choices->layout.wanted; at++)
        add_shard(decoder, choices->layout.packets * choices->chosen[at], choices->layout.packets);
    bool complete = reamertan_decoder_is_complete(decoder);
    reamertan_decoder_close(&decoder);
    return complete;
}

int main(int count, char **words) {
    struct choices choices;
    if (!read_choices(count, words, &choices)) {
        fputs("usage: certificate N K PACKETS SYMBOLS SAMPLED SEED\n", stderr);
        return 2;
    }
    uint64_t counts[2] = {0};
    while (next_choice(&choices)) counts[determines(&choices)]++;
    printf("%" PRIu64 " %" PRIu64 "\n", counts[1], counts[0]);
    return 0;
}
