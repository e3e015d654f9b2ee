/* The packets of an object by two threads over one encoder: each has a pointer of its own to it, by which it writes
 * half of the packets of each block straight into the buffer that both fill, and which it closes. Who is last frees
 * the encoder. The packets are those that one call makes. */
#include <pthread.h>
#include <stdio.h>
#include <stdlib.h>
#include <string.h>

#include "reamertan.h"

#define SYMBOL_SIZE 64
#define BLOCKS 8
#define SOURCE_SYMBOLS 101
#define REPAIR_SYMBOLS 12

#define PACKET_BYTES (REAMERTAN_PAYLOAD_ID_BYTES + SYMBOL_SIZE)
#define PACKETS (SOURCE_SYMBOLS + REPAIR_SYMBOLS)

static uint8_t object[BLOCKS * SOURCE_SYMBOLS * SYMBOL_SIZE];
static uint8_t by_one[BLOCKS][PACKETS * PACKET_BYTES], by_two[BLOCKS][PACKETS * PACKET_BYTES];

static void check(const char *call, uint8_t answer)
{
    if (answer == REAMERTAN_DONE)
        return;
    fprintf(stderr, "%s: %s\n", call, reamertan_answer_text(answer));
    exit(1);
}

/* A thread's pointer to the encoder, and which of each block's packets are its own. */
struct share {
    reamertan_encoder *encoder;
    uint32_t first, end;
};

static void *write_share(void *given)
{
    struct share *share = given;
    uint32_t first = share->first, count = share->end - first;
    for (unsigned block = 0; block < BLOCKS; block++)
        check("encoder_write",
              reamertan_encoder_write(share->encoder, (uint8_t)block, first, count,
                                      by_two[block] + first * PACKET_BYTES, count * PACKET_BYTES));
    reamertan_encoder_close(&share->encoder);
    return NULL;
}

int main(void)
{
    uint8_t configuration[REAMERTAN_CONFIGURATION_BYTES];
    for (size_t at = 0; at < sizeof object; at++)
        object[at] = (uint8_t)(at * 2654435761U >> 13);
    check("cut", reamertan_cut(sizeof object, SYMBOL_SIZE, SOURCE_SYMBOLS, configuration));
    check("encode", reamertan_encode(configuration, object, sizeof object, REPAIR_SYMBOLS, by_one[0], sizeof by_one));

    struct share shares[] = {{NULL, 0, PACKETS / 2}, {NULL, PACKETS / 2, PACKETS}};
    check("encoder_open", reamertan_encoder_open(&shares[0].encoder, configuration, object, sizeof object));
    check("encoder_share", reamertan_encoder_share(shares[0].encoder, &shares[1].encoder));
    pthread_t other;
    if (pthread_create(&other, NULL, write_share, &shares[1]) != 0)
        exit(1);
    write_share(&shares[0]);
    pthread_join(other, NULL);

    int same = memcmp(by_one, by_two, sizeof by_one) == 0;
    printf("%zu bytes of packets by two threads over one encoder: %s\n", sizeof by_two, same ? "the same" : "others");
    return !same;
}
