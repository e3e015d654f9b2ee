/* Sends a file to a stream that lacks each tenth packet, and gets it back: there_and_back FILE STREAM */
#include <stdio.h>
#include <stdlib.h>
#include <string.h>

#include "reamertan.h"

#define SYMBOL_SIZE 1280
#define PACKET_BYTES (REAMERTAN_PAYLOAD_ID_BYTES + SYMBOL_SIZE)

static void must(int is_good, const char *what, int answer)
{
    if (!is_good) {
        fprintf(stderr, "%s: %d\n", what, answer);
        exit(1);
    }
}

static uint8_t *contents(const char *name, size_t *length)
{
    FILE *file = fopen(name, "rb");
    must(file && fseek(file, 0, SEEK_END) == 0, name, 0);
    *length = (size_t)ftell(file);
    rewind(file);
    uint8_t *bytes = malloc(*length + 1);
    must(bytes && fread(bytes, 1, *length, file) == *length, name, 0);
    fclose(file);
    return bytes;
}

int main(int count, char **words)
{
    must(count == 3, "there_and_back FILE STREAM", 0);
    size_t length, came;
    uint8_t header[REAMERTAN_CONFIGURATION_BYTES], *object = contents(words[1], &length);
    int answer = reamertan_cut(length, SYMBOL_SIZE, REAMERTAN_FAST_BLOCK, header);
    must(answer == REAMERTAN_DONE, "configuration", answer);
    uint32_t repair = 60; /* of each block, which has at most 497 source symbols */
    uint64_t bytes;
    answer = reamertan_packets_length(header, repair, &bytes);
    must(answer == REAMERTAN_DONE, "packets", answer);
    uint8_t *packets = malloc(bytes);
    must(packets != NULL, "malloc", REAMERTAN_OUT_OF_MEMORY);
    answer = reamertan_encode(header, object, length, repair, packets, bytes);
    must(answer == REAMERTAN_DONE, "encode", answer);

    FILE *file = fopen(words[2], "wb");
    must(file && fwrite(header, sizeof header, 1, file) == 1, words[2], 0);
    for (size_t i = 0; i < bytes / PACKET_BYTES; i++)
        must(i % 10 == 3 || fwrite(packets + PACKET_BYTES * i, PACKET_BYTES, 1, file) == 1, words[2], 0);
    must(fclose(file) == 0, words[2], 0);

    uint8_t *stream = contents(words[2], &came), *back = malloc(length);
    must(back && came >= sizeof header, words[2], 0);
    answer = reamertan_decode(stream, stream + sizeof header, came - sizeof header, back, length);
    must(answer == REAMERTAN_DONE, "decode", answer);
    must(memcmp(object, back, length) == 0, "another file came back", answer);
    puts("the file is the same");
    free(object), free(packets), free(stream), free(back);
}
