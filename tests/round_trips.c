/* Random objects there and back, with losses, by buffers, packet by packet, block by block, and by two threads that
 * share the encoder of the object and those of its blocks, made by plans: as many as the first word says, from the seed
 * that the second word is. Ends with 0 where each that was answered was the object, and all ways did the same. */
#include <pthread.h>
#include <stdio.h>
#include <stdlib.h>
#include <string.h>

#include "reamertan.h"

/* Source symbols of a block of the objects that are drawn, and blocks of an object. */
#define MOST_SYMBOLS 2000
#define MOST_BLOCKS 255

static uint64_t state;

/* Of blocks of so many symbols. */
static reamertan_plan *plans[MOST_SYMBOLS + 1];

/* A number below a bound: the high bits of a linear congruence. */
static uint32_t below(uint32_t bound)
{
    state = state * 6364136223846793005u + 1442695040888963407u;
    return (uint32_t)(state >> 32) % bound;
}

static uint8_t *bytes_of(size_t count)
{
    /* Where there are none, the address is one, too. */
    uint8_t *bytes = calloc(count + 1, 1);
    if (!bytes)
        exit(1);
    return bytes;
}

/* An object, and its packets, of `size` bytes each. */
struct object {
    uint8_t configuration[REAMERTAN_CONFIGURATION_BYTES];
    uint32_t repair;
    uint8_t *bytes, *packets;
    size_t length, size, count;
};

/* Those of its packets that came, and what the decoder of buffers made of them. */
struct came {
    uint8_t *packets, *back;
    size_t count;
    int answer;
};

/* Whether an encoder makes the same packets one by one. */
static int sends_one_by_one(const struct object *object)
{
    reamertan_encoder *encoder = NULL;
    uint8_t *made = bytes_of(object->size);
    int good = reamertan_encoder_open(&encoder, object->configuration, object->bytes, object->length) == REAMERTAN_DONE;
    for (size_t i = 0; i < object->count; i++) {
        const uint8_t *id = object->packets + object->size * i;
        uint32_t esi = (uint32_t)id[1] << 16 | (uint32_t)id[2] << 8 | id[3];
        good &= reamertan_encoder_write(encoder, id[0], esi, 1, made, object->size) == REAMERTAN_DONE
                && memcmp(made, id, object->size) == 0;
    }
    reamertan_encoder_close(&encoder);
    free(made);
    return good;
}

/* Whether a decoder answers packets that came as buffers do: the first half one by one, and the others in one call, by
 * a copy of the decoder. */
static int receives_one_by_one(const struct object *object, const struct came *came)
{
    reamertan_decoder *decoder = NULL, *copy = NULL;
    size_t size = object->size, length = object->length, half = came->count / 2, rest = came->count - half;
    uint8_t *again = bytes_of(length);
    bool completes = false;
    int good = reamertan_decoder_open(&decoder, object->configuration) == REAMERTAN_DONE;
    for (size_t i = 0; i < half; i++)
        good &= reamertan_decoder_add_packet(decoder, came->packets + size * i, size, &completes) == REAMERTAN_DONE;
    good &= reamertan_decoder_copy(decoder, &copy) == REAMERTAN_DONE;
    reamertan_decoder_close(&decoder);
    good &= reamertan_decoder_add_packets(copy, came->packets + size * half, size * rest) == REAMERTAN_DONE;
    good &= reamertan_decoder_is_complete(copy) == (came->answer == REAMERTAN_DONE);
    good &= reamertan_decoder_write_object(copy, again, length) == came->answer;
    good &= came->answer != REAMERTAN_DONE || memcmp(again, came->back, length) == 0;
    reamertan_decoder_close(&copy);
    free(again);
    return good;
}

/* Whether both decoders have the block that the object has. */
static int has_same_block(const struct object *object, reamertan_decoder *whole, reamertan_block_decoder *alone,
                          uint8_t block, struct reamertan_range range)
{
    size_t all = range.end - range.start, left = object->length - range.start, length = all < left ? all : left;
    uint8_t *by_object = bytes_of(length), *by_block = bytes_of(all);
    uint32_t missing = 1;
    int good = reamertan_decoder_write_block(whole, block, by_object, length) == REAMERTAN_DONE
               && reamertan_block_decoder_write(alone, by_block, all) == REAMERTAN_DONE
               && reamertan_block_decoder_missing(alone, &missing) == REAMERTAN_DONE && missing == 0
               && memcmp(by_object, object->bytes + range.start, length) == 0
               && memcmp(by_object, by_block, length) == 0;
    free(by_object), free(by_block);
    return good;
}

/* Whether one decoder of an object and decoders of its blocks are told the same, packet by packet: a block is complete
 * in both by the packet that completes it, and has the same bytes. */
static int receives_by_blocks(const struct object *object, const struct came *came)
{
    reamertan_decoder *whole = NULL;
    reamertan_block_decoder *blocks[MOST_BLOCKS] = {NULL};
    int good = reamertan_decoder_open(&whole, object->configuration) == REAMERTAN_DONE;
    for (size_t i = 0; i < came->count; i++) {
        const uint8_t *packet = came->packets + object->size * i;
        reamertan_block_decoder **block = &blocks[packet[0]];
        struct reamertan_range range;
        bool completes = false;
        good &= reamertan_block_range(object->configuration, packet[0], &range) == REAMERTAN_DONE;
        if (!*block)
            good &= reamertan_block_decoder_open(block, object->configuration, packet[0], range.end - range.start)
                    == REAMERTAN_DONE;
        bool was_complete = reamertan_block_decoder_is_complete(*block);
        good &= reamertan_decoder_add_packet(whole, packet, object->size, &completes) == REAMERTAN_DONE;
        good &= reamertan_block_decoder_add_packets(*block, packet, object->size) == REAMERTAN_DONE;
        good &= completes == (!was_complete && reamertan_block_decoder_is_complete(*block));
        if (completes)
            good &= has_same_block(object, whole, *block, packet[0], range);
    }
    for (unsigned block = 0; block < MOST_BLOCKS; block++)
        reamertan_block_decoder_close(&blocks[block]);
    reamertan_decoder_close(&whole);
    return good;
}

/* A thread, with its pointers to the encoders of an object and of its blocks. It writes half of each block's packets,
 * by both encoders. */
struct writer {
    reamertan_encoder *object;
    reamertan_block_encoder *blocks[MOST_BLOCKS];
    uint8_t *by_object, *by_block;
    size_t size;
    uint32_t counts[MOST_BLOCKS]; /* of each block's packets */
    unsigned block_count, half;
    int good;
};

static void *write_half(void *given)
{
    struct writer *writer = given;
    size_t start = 0;
    for (unsigned block = 0; block < writer->block_count; block++) {
        uint32_t first = writer->half ? writer->counts[block] / 2 : 0;
        uint32_t count = writer->half ? writer->counts[block] - first : writer->counts[block] / 2;
        size_t at = start + first * writer->size, length = count * writer->size;
        writer->good &= reamertan_encoder_write(writer->object, (uint8_t)block, first, count, writer->by_object + at,
                                                length) == REAMERTAN_DONE;
        writer->good &= reamertan_block_encoder_write(writer->blocks[block], first, count, writer->by_block + at,
                                                      length) == REAMERTAN_DONE;
        reamertan_block_encoder_close(&writer->blocks[block]);
        start += writer->counts[block] * writer->size;
    }
    reamertan_encoder_close(&writer->object);
    return NULL;
}

/* A further pointer to the plan of blocks of so many symbols. It is kept, but each second one that is opened is closed,
 * before its encoders have made a packet. */
static int find_plan(size_t symbols, reamertan_plan **plan)
{
    static unsigned opened;
    if (plans[symbols])
        return reamertan_plan_share(plans[symbols], plan) == REAMERTAN_DONE;
    int good = reamertan_plan_open(&plans[symbols], (uint16_t)symbols) == REAMERTAN_DONE
               && reamertan_plan_share(plans[symbols], plan) == REAMERTAN_DONE;
    if (opened++ % 2 == 0)
        reamertan_plan_close(&plans[symbols]);
    return good;
}

/* Opens the encoder of a block in both writers, by a plan which is then closed. */
static int open_block(const struct object *object, uint8_t block, struct writer writers[2])
{
    reamertan_plan *plan = NULL;
    struct reamertan_range range;
    int good = reamertan_block_range(object->configuration, block, &range) == REAMERTAN_DONE;
    size_t length = range.end - range.start, symbols = length / (object->size - REAMERTAN_PAYLOAD_ID_BYTES);
    size_t end = range.end < object->length ? range.end : object->length;
    uint8_t *bytes = bytes_of(length);
    if (range.start < end)
        memcpy(bytes, object->bytes + range.start, end - range.start);
    good &= find_plan(symbols, &plan);
    good &= reamertan_block_encoder_open(&writers[0].blocks[block], plan, object->configuration, block, bytes, length)
            == REAMERTAN_DONE;
    reamertan_plan_close(&plan);
    free(bytes);
    writers[0].counts[block] = writers[1].counts[block] = (uint32_t)symbols + object->repair;
    good &= reamertan_block_encoder_share(writers[0].blocks[block], &writers[1].blocks[block]) == REAMERTAN_DONE;
    return good;
}

/* Opens all encoders of an object in both writers. */
static int open_writers(const struct object *object, struct writer writers[2])
{
    int good = reamertan_encoder_open(&writers[0].object, object->configuration, object->bytes, object->length)
                   == REAMERTAN_DONE
               && reamertan_encoder_share(writers[0].object, &writers[1].object) == REAMERTAN_DONE;
    for (unsigned block = 0; block < writers[0].block_count; block++)
        good &= open_block(object, (uint8_t)block, writers);
    return good;
}

/* Whether two threads make the same packets, by encoders that they share. */
static int by_threads(const struct object *object)
{
    size_t length = object->count * object->size;
    struct reamertan_parameters cut;
    reamertan_read_configuration(object->configuration, &cut);
    struct writer first = {.by_object = bytes_of(length), .by_block = bytes_of(length), .size = object->size,
                           .block_count = cut.source_blocks, .good = 1};
    struct writer writers[] = {first, first};
    writers[1].half = 1;
    int good = open_writers(object, writers);
    pthread_t other;
    if (pthread_create(&other, NULL, write_half, &writers[1]) != 0)
        exit(1);
    write_half(&writers[0]);
    pthread_join(other, NULL);
    good &= writers[0].good && writers[1].good && memcmp(first.by_object, object->packets, length) == 0
            && memcmp(first.by_block, object->packets, length) == 0;
    free(first.by_object), free(first.by_block);
    return good;
}

/* Draws a configuration and a number of repair packets a block until they are taken: less memory than some packets need
 * is refused. One object in a hundred is larger, so that blocks have up to 2000 symbols. Answers how many bytes the
 * packets take. */
static uint64_t draw(struct object *object)
{
    for (;;) {
        uint64_t bytes;
        object->length = 1 + below(below(100) == 0 ? 16000 : 2000);
        uint16_t size = (uint16_t)(8 + below(120));
        uint64_t memory = 1u << (8 + below(16));
        object->repair = below(8);
        if (reamertan_derive_configuration(object->length, size, memory, object->configuration) == REAMERTAN_DONE
            && reamertan_packets_length(object->configuration, object->repair, &bytes) == REAMERTAN_DONE)
            return bytes;
    }
}

/* Whether a random object's packets are made by buffers. */
static int make_object(struct object *object)
{
    uint64_t bytes = draw(object);
    struct reamertan_parameters cut;
    reamertan_read_configuration(object->configuration, &cut);
    object->size = REAMERTAN_PAYLOAD_ID_BYTES + cut.symbol_size;
    object->count = bytes / object->size;
    object->bytes = bytes_of(object->length);
    object->packets = bytes_of(bytes);
    for (size_t i = 0; i < object->length; i++)
        object->bytes[i] = (uint8_t)below(256);
    return reamertan_encode(object->configuration, object->bytes, object->length, object->repair,
                            object->packets, bytes) == REAMERTAN_DONE;
}

/* Loses each packet with a chance of one in ten, and has any come twice. */
static void send(const struct object *object, struct came *came)
{
    size_t size = object->size;
    came->packets = bytes_of(2 * object->count * size);
    for (size_t i = 0; i < object->count; i++)
        for (uint32_t times = below(10) == 0 ? 0 : 1 + (below(10) == 0); times > 0; times--)
            memcpy(came->packets + size * came->count++, object->packets + size * i, size);
}

/* Whether one object came back, or too little of it came. */
static int round_trip(int *answered)
{
    struct object object = {.repair = 0};
    struct came came = {.count = 0};
    int good = make_object(&object);
    send(&object, &came);
    came.back = bytes_of(object.length);
    came.answer = reamertan_decode(object.configuration, came.packets, came.count * object.size, came.back,
                                   object.length);
    *answered += came.answer == REAMERTAN_DONE;
    good &= came.answer == REAMERTAN_DONE ? memcmp(object.bytes, came.back, object.length) == 0
                                          : came.answer == REAMERTAN_INCOMPLETE;
    good &= sends_one_by_one(&object) & receives_one_by_one(&object, &came) & receives_by_blocks(&object, &came)
            & by_threads(&object);
    free(object.bytes), free(object.packets), free(came.packets), free(came.back);
    return good;
}

int main(int count, char **words)
{
    int trips = count == 3 ? atoi(words[1]) : 100, answered = 0;
    state = count == 3 ? strtoull(words[2], NULL, 10) : 1;
    for (int i = 0; i < trips; i++)
        if (!round_trip(&answered)) {
            fprintf(stderr, "round trip %d failed\n", i);
            return 1;
        }
    for (size_t symbols = 0; symbols <= MOST_SYMBOLS; symbols++)
        reamertan_plan_close(&plans[symbols]);
    printf("%d round trips, %d answered\n", trips, answered);
    return 0;
}
