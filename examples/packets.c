/* A file packet by packet: it is cut into at least four source blocks, an encoder makes source and repair
 * packets as long as they are wanted, every tenth is lost, and a decoder takes the others. Each block is
 * written once a packet completes it. Then both files are compared. */
#include <stdbool.h>
#include <stdio.h>
#include <stdlib.h>
#include <string.h>

#include "reamertan.h"

#define SYMBOL_SIZE 1280
#define PACKET_BYTES (REAMERTAN_PAYLOAD_ID_BYTES + SYMBOL_SIZE)
#define LEAST_BLOCKS 4

static void check(const char *call, uint8_t answer)
{
    if (answer == REAMERTAN_DONE)
        return;
    fprintf(stderr, "%s: %s\n", call, reamertan_answer_text(answer));
    exit(1);
}

/* The whole file, and how many bytes it has. */
static uint8_t *read_file(const char *name, size_t *length)
{
    FILE *file = fopen(name, "rb");
    if (!file || fseek(file, 0, SEEK_END) != 0)
        exit(1);
    *length = (size_t)ftell(file);
    uint8_t *bytes = malloc(*length);
    rewind(file);
    if (!bytes || fread(bytes, 1, *length, file) != *length)
        exit(1);
    fclose(file);
    return bytes;
}

/* Writes the configuration of a file in blocks that are coded fast, of which a small file has smaller ones. Answers how
 * many there are. */
static unsigned cut_file(size_t length, uint8_t *configuration)
{
    size_t symbols = (length + SYMBOL_SIZE - 1) / SYMBOL_SIZE, most = (symbols + LEAST_BLOCKS - 1) / LEAST_BLOCKS;
    if (most > REAMERTAN_FAST_BLOCK)
        most = REAMERTAN_FAST_BLOCK;
    check("cut", reamertan_cut(length, SYMBOL_SIZE, (uint16_t)most, configuration));
    struct reamertan_parameters cut;
    reamertan_read_configuration(configuration, &cut);
    return cut.source_blocks;
}

/* Writes the bytes of a block that is complete to their place in the file. */
static void write_block(reamertan_decoder *decoder, const uint8_t *configuration, uint8_t block, uint8_t *back,
                        size_t length)
{
    struct reamertan_range range;
    check("block_range", reamertan_block_range(configuration, block, &range));
    size_t end = range.end < length ? range.end : length;
    check("write_block", reamertan_decoder_write_block(decoder, block, back + range.start, end - range.start));
}

int main(int count, char **words)
{
    if (count != 2)
        return fprintf(stderr, "usage: packets FILE\n"), 4;
    size_t length;
    uint8_t *object = read_file(words[1], &length), *back = malloc(length);
    uint8_t configuration[REAMERTAN_CONFIGURATION_BYTES], packet[PACKET_BYTES];
    unsigned blocks = cut_file(length, configuration), sent = 0, lost = 0, written = 0;
    if (!back)
        return 1;

    reamertan_encoder *encoder = NULL;
    reamertan_decoder *decoder = NULL;
    check("encoder_open", reamertan_encoder_open(&encoder, configuration, object, length));
    check("decoder_open", reamertan_decoder_open(&decoder, configuration));
    bool completed[256] = {false};
    for (uint32_t id = 0; written < blocks; id++)
        for (unsigned block = 0; block < blocks; block++) {
            if (completed[block])
                continue;
            check("encoder_write", reamertan_encoder_write(encoder, (uint8_t)block, id, 1, packet, sizeof packet));
            if (++sent % 10 == 0) {
                lost++;
                continue;
            }
            check("decoder_add_packet",
                  reamertan_decoder_add_packet(decoder, packet, sizeof packet, &completed[block]));
            if (completed[block])
                write_block(decoder, configuration, (uint8_t)block, back, length), written++;
        }
    bool complete = reamertan_decoder_is_complete(decoder);
    reamertan_encoder_close(&encoder);
    reamertan_decoder_close(&decoder);
    bool same = complete && memcmp(object, back, length) == 0;
    printf("%zu bytes in %u blocks, %u packets sent, %u lost: %s\n", length, written, sent, lost,
           same ? "the same" : "another file");
    free(object), free(back);
    return !same;
}
