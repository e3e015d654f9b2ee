// The program over a code.
//
//     CODE encode K N SIZE BLOCKS LOST OBJECT PIECES     reads the object, writes all pieces
//     CODE decode K N SIZE BLOCKS LOST PIECES OBJECT     reads all pieces, looks at those that aren't lost, writes the object
//
// LOST: how many pieces of each block are lost, the first ones; or `tenth`, each piece with a chance of one in ten. Prints the
// seconds that the code took, without reading and writing, and how many blocks had no answer.
#define _POSIX_C_SOURCE 199309L
#include "pieces.h"

#include <stdio.h>
#include <stdlib.h>
#include <string.h>
#include <time.h>

void must(bool is_so, const char *what) {
    if (is_so) return;
    fprintf(stderr, "%s\n", what);
    exit(1);
}

void *take(size_t bytes) {
    void *memory = calloc(1, bytes ? bytes : 1);
    must(memory != NULL, "memory was refused");
    return memory;
}

static double now(void) {
    struct timespec time;
    clock_gettime(CLOCK_MONOTONIC, &time);
    return (double)time.tv_sec + (double)time.tv_nsec * 1e-9;
}

static uint8_t *read_file(const char *path, size_t length) {
    uint8_t *bytes = take(length);
    FILE *file = fopen(path, "rb");
    must(file && fread(bytes, 1, length, file) == length, "a file is too short");
    fclose(file);
    return bytes;
}

static void write_file(const char *path, const uint8_t *bytes, size_t length) {
    FILE *file = fopen(path, "wb");
    must(file && fwrite(bytes, 1, length, file) == length && fclose(file) == 0, "a file isn't written");
}

// Touched before the time is taken, so that no page is new then.
static uint8_t *touched(size_t bytes) {
    uint8_t *memory = take(bytes);
    memset(memory, 1, bytes);
    return memory;
}

static size_t piece_size(const struct work *work) {
    return HEADER + work->size;
}

static void put_source(const struct work *work, uint32_t block, const uint8_t *source, uint8_t *pieces) {
    for (uint32_t piece = 0; piece < work->source; piece++) {
        uint8_t *at = pieces + piece * piece_size(work);
        label(work, block, piece, at);
        memcpy(at + HEADER, source + (size_t)piece * work->size, work->size);
    }
}

static double encode_all(const struct work *work, const uint8_t *object, uint8_t *pieces) {
    size_t block_bytes = (size_t)work->source * work->size, stride = work->pieces * piece_size(work);
    for (uint32_t block = 0; block < work->blocks; block++) put_source(work, block, object + block * block_bytes, pieces + block * stride);
    double start = now();
    begin(work, true);
    for (uint32_t block = 0; block < work->blocks; block++)
        encode(work, block, object + block * block_bytes, pieces + block * stride + work->source * piece_size(work));
    return now() - start;
}

// Which pieces are lost: all programs draw the same.
static bool *lose(const struct work *work, const char *word) {
    bool *lost = take((size_t)work->blocks * work->pieces);
    uint32_t first = strcmp(word, "tenth") ? (uint32_t)strtoul(word, NULL, 10) : 0;
    uint64_t state = 1;
    for (size_t at = 0; at < (size_t)work->blocks * work->pieces; at++) {
        state = state * 6364136223846793005 + 1442695040888963407;
        lost[at] = first ? at % work->pieces < first : (state >> 32) % 10 == 0;
    }
    return lost;
}

static void get_source(const struct work *work, const uint8_t *pieces, const bool *lost, uint8_t *source) {
    for (uint32_t piece = 0; piece < work->source; piece++)
        if (!lost[piece]) memcpy(source + (size_t)piece * work->size, pieces + piece * piece_size(work) + HEADER, work->size);
}

static double decode_all(const struct work *work, const uint8_t *pieces, const bool *lost, uint8_t *object, uint32_t *failures) {
    size_t block_bytes = (size_t)work->source * work->size, stride = work->pieces * piece_size(work);
    for (uint32_t block = 0; block < work->blocks; block++)
        get_source(work, pieces + block * stride, lost + block * work->pieces, object + block * block_bytes);
    double start = now();
    begin(work, false);
    for (uint32_t block = 0; block < work->blocks; block++)
        *failures += !decode(work, block, pieces + block * stride, lost + block * work->pieces, object + block * block_bytes);
    return now() - start;
}

int main(int count, char **words) {
    if (count != 9) {
        fputs("usage: CODE encode|decode K N SIZE BLOCKS LOST IN OUT\n", stderr);
        return 2;
    }
    uint32_t numbers[4], failures = 0;
    for (int at = 0; at < 4; at++) numbers[at] = (uint32_t)strtoul(words[2 + at], NULL, 10);
    struct work work = {numbers[0], numbers[1], numbers[2], numbers[3]};
    bool encodes = strcmp(words[1], "encode") == 0;
    size_t object = (size_t)work.source * work.size * work.blocks, all = work.pieces * piece_size(&work) * work.blocks;
    must(work.source > 0 && work.source < work.pieces && work.size > 0, "that is no work");
    uint8_t *in = read_file(words[7], encodes ? object : all), *out = touched(encodes ? all : object);
    double seconds = encodes ? encode_all(&work, in, out) : decode_all(&work, in, lose(&work, words[6]), out, &failures);
    write_file(words[8], out, encodes ? all : object);
    printf("%.9f %u\n", seconds, failures);
    return 0;
}
