/* An object block after block, as one that is larger than memory: all blocks have one size, so that one plan makes
 * their encoders. Of each block a decoder of its own takes the packets that aren't lost, in one call, and holds nothing
 * of the others. A copy of it that was made before has none of them. */
#include <stdio.h>
#include <stdlib.h>
#include <string.h>

#include "reamertan.h"

#define SYMBOL_SIZE 64
#define BLOCKS 8
#define SOURCE_SYMBOLS 101
#define REPAIR_SYMBOLS 12
/* As many of a block's first packets are lost. */
#define LOST 10

#define BLOCK_BYTES (SOURCE_SYMBOLS * SYMBOL_SIZE)
#define PACKET_BYTES (REAMERTAN_PAYLOAD_ID_BYTES + SYMBOL_SIZE)
#define PACKETS (SOURCE_SYMBOLS + REPAIR_SYMBOLS)

static void check(const char *call, uint8_t answer)
{
    if (answer == REAMERTAN_DONE)
        return;
    fprintf(stderr, "%s: %s\n", call, reamertan_answer_text(answer));
    exit(1);
}

/* Fills `packets` with those of a block. */
static void send_block(const uint8_t *configuration, uint8_t block, const uint8_t *bytes, reamertan_plan *plan,
                       uint8_t packets[PACKETS * PACKET_BYTES])
{
    reamertan_block_encoder *encoder = NULL;
    check("block_encoder_open",
          reamertan_block_encoder_open(&encoder, plan, configuration, block, bytes, BLOCK_BYTES));
    check("block_encoder_write",
          reamertan_block_encoder_write(encoder, 0, PACKETS, packets, PACKETS * PACKET_BYTES));
    reamertan_block_encoder_close(&encoder);
}

/* Fills `bytes` with a block, of packets the first of which are lost. */
static void receive_block(const uint8_t *configuration, uint8_t block, const uint8_t *packets,
                          uint8_t bytes[BLOCK_BYTES])
{
    reamertan_block_decoder *decoder = NULL, *copy = NULL;
    uint32_t missing = 0;
    check("block_decoder_open", reamertan_block_decoder_open(&decoder, configuration, block, BLOCK_BYTES));
    check("block_decoder_copy", reamertan_block_decoder_copy(decoder, &copy));
    check("block_decoder_add_packets",
          reamertan_block_decoder_add_packets(decoder, packets + LOST * PACKET_BYTES, (PACKETS - LOST) * PACKET_BYTES));
    check("block_decoder_write", reamertan_block_decoder_write(decoder, bytes, BLOCK_BYTES));
    check("block_decoder_missing", reamertan_block_decoder_missing(copy, &missing));
    if (missing != SOURCE_SYMBOLS || !reamertan_block_decoder_is_complete(decoder))
        exit(1);
    reamertan_block_decoder_close(&decoder);
    reamertan_block_decoder_close(&copy);
}

int main(void)
{
    static uint8_t object[BLOCKS * BLOCK_BYTES], back[sizeof object], packets[PACKETS * PACKET_BYTES];
    uint8_t configuration[REAMERTAN_CONFIGURATION_BYTES];
    for (size_t at = 0; at < sizeof object; at++)
        object[at] = (uint8_t)(at * 2654435761U >> 13);
    check("cut", reamertan_cut(sizeof object, SYMBOL_SIZE, SOURCE_SYMBOLS, configuration));
    reamertan_plan *plan = NULL;
    check("plan_open", reamertan_plan_open(&plan, SOURCE_SYMBOLS));
    for (unsigned block = 0; block < BLOCKS; block++) {
        send_block(configuration, (uint8_t)block, object + block * BLOCK_BYTES, plan, packets);
        receive_block(configuration, (uint8_t)block, packets, back + block * BLOCK_BYTES);
    }
    reamertan_plan_close(&plan);
    int same = memcmp(object, back, sizeof object) == 0;
    printf("%zu bytes in %d blocks, one after another by one plan: %s\n", sizeof object, BLOCKS,
           same ? "the same" : "others");
    return !same;
}
