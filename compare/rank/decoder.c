// Reads the sets of ids that `sets` writes, and answers as it does, by the decoder of the library: an octet for each set.
#include <stdio.h>
#include <stdlib.h>

#include "reamertan.h"

enum { IDS_MOST = 1 << 16 };

static void check(uint8_t answer) {
    if (answer == REAMERTAN_DONE) return;
    fprintf(stderr, "%s\n", reamertan_answer_text(answer));
    exit(1);
}

static void open_decoder(uint32_t symbols, reamertan_decoder **decoder) {
    uint8_t configuration[REAMERTAN_CONFIGURATION_BYTES];
    check(reamertan_cut(symbols, 1, (uint16_t)symbols, configuration));
    check(reamertan_decoder_open(decoder, configuration));
}

// Ids alone decide, so that each symbol is a zero octet.
static void add(reamertan_decoder *decoder, uint32_t id, bool *completes) {
    const uint8_t packet[] = {0, (uint8_t)(id >> 16), (uint8_t)(id >> 8), (uint8_t)id, 0};
    check(reamertan_decoder_add_packet(decoder, packet, sizeof packet, completes));
}

// How many ids it took beyond K', or 3 where K' + 2 don't do.
static uint32_t needed(const uint32_t *ids, uint32_t symbols) {
    reamertan_decoder *decoder = NULL;
    uint32_t taken = 0;
    bool completes = false;
    open_decoder(symbols, &decoder);
    while (taken < symbols + 2 && !completes) add(decoder, ids[taken++], &completes);
    reamertan_decoder_close(&decoder);
    return completes ? taken - symbols : 3;
}

int main(void) {
    static uint32_t set[IDS_MOST];
    uint32_t symbols;
    while (fread(&symbols, sizeof symbols, 1, stdin) == 1) {
        if (symbols > IDS_MOST - 3 || fread(set, sizeof *set, symbols + 3, stdin) != symbols + 3) return 1;
        if (putchar((int)needed(set, symbols)) == EOF) return 1;
    }
    return fflush(stdout) ? 1 : 0;
}
