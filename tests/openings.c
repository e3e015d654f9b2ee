/* Opens, shares or copies, and closes each kind of coder, as often as the first word says, and asks how many bytes are
 * taken then: none more than before. Then memory is refused at each place in turn where that takes any, and none is left
 * taken either. A pointer that shares a large encoder takes few bytes, and the last one that is closed gives back what
 * the encoder took. It is linked by -Wl,--wrap=malloc,--wrap=realloc,--wrap=free, so that it counts what the library
 * takes. */
#include <limits.h>
#include <malloc.h>
#include <stdio.h>
#include <stdlib.h>

#include "reamertan.h"

enum { SMALL = 10, LARGE = 10000, SYMBOL_SIZE = 16, SHARED_MOST = 256 };

/* Ten symbols in one block. */
static const uint8_t HEADER[] = {0, 0, 0, 0, SMALL * SYMBOL_SIZE, 0, 0, SYMBOL_SIZE, 1, 0, 1, 1};
static const uint8_t OBJECT[LARGE * SYMBOL_SIZE];

static size_t taken;
/* How many times memory is granted before it is refused once. */
static long granted = LONG_MAX;
static int failures;

void *__real_malloc(size_t size);
void *__real_realloc(void *memory, size_t size);
void __real_free(void *memory);
void *__wrap_malloc(size_t size);
void *__wrap_realloc(void *memory, size_t size);
void __wrap_free(void *memory);

void *__wrap_malloc(size_t size)
{
    void *memory = granted-- == 0 ? NULL : __real_malloc(size);
    taken += malloc_usable_size(memory);
    return memory;
}

void *__wrap_realloc(void *memory, size_t size)
{
    size_t before = malloc_usable_size(memory);
    void *moved = granted-- == 0 ? NULL : __real_realloc(memory, size);
    if (moved)
        taken += malloc_usable_size(moved) - before;
    return moved;
}

void __wrap_free(void *memory)
{
    taken -= malloc_usable_size(memory);
    __real_free(memory);
}

static void check(uint8_t answer)
{
    if (answer == REAMERTAN_DONE)
        return;
    fprintf(stderr, "%s\n", reamertan_answer_text(answer));
    exit(1);
}

static void expect(const char *what, size_t most, size_t found)
{
    if (found <= most)
        return;
    fprintf(stderr, "%s: %zu bytes, and not at most %zu\n", what, found, most);
    failures++;
}

/* Each opens a coder, uses it and makes a further pointer to it, up to what is refused, and closes both. */

static uint8_t encoders(void)
{
    reamertan_encoder *coder = NULL, *twin = NULL;
    uint8_t answer = reamertan_encoder_open(&coder, HEADER, OBJECT, SMALL * SYMBOL_SIZE);
    if (answer == REAMERTAN_DONE)
        answer = reamertan_encoder_share(coder, &twin);
    reamertan_encoder_close(&coder);
    reamertan_encoder_close(&twin);
    return answer;
}

static uint8_t plans(void)
{
    reamertan_plan *coder = NULL, *twin = NULL;
    uint8_t answer = reamertan_plan_open(&coder, SMALL);
    if (answer == REAMERTAN_DONE)
        answer = reamertan_plan_share(coder, &twin);
    reamertan_plan_close(&coder);
    reamertan_plan_close(&twin);
    return answer;
}

/* By one plan. */
static reamertan_plan *plan;

static uint8_t block_encoders(void)
{
    reamertan_block_encoder *coder = NULL, *twin = NULL;
    uint8_t answer = reamertan_block_encoder_open(&coder, plan, HEADER, 7, OBJECT, SMALL * SYMBOL_SIZE);
    if (answer == REAMERTAN_DONE)
        answer = reamertan_block_encoder_share(coder, &twin);
    reamertan_block_encoder_close(&coder);
    reamertan_block_encoder_close(&twin);
    return answer;
}

static uint8_t decoders(void)
{
    const uint8_t packet[REAMERTAN_PAYLOAD_ID_BYTES + SYMBOL_SIZE] = {0};
    reamertan_decoder *coder = NULL, *twin = NULL;
    bool completes = false;
    uint8_t answer = reamertan_decoder_open(&coder, HEADER);
    if (answer == REAMERTAN_DONE)
        answer = reamertan_decoder_add_packet(coder, packet, sizeof packet, &completes);
    if (answer == REAMERTAN_DONE)
        answer = reamertan_decoder_copy(coder, &twin);
    reamertan_decoder_close(&coder);
    reamertan_decoder_close(&twin);
    return answer;
}

static uint8_t block_decoders(void)
{
    const uint8_t packet[REAMERTAN_PAYLOAD_ID_BYTES + SYMBOL_SIZE] = {7};
    reamertan_block_decoder *coder = NULL, *twin = NULL;
    uint8_t answer = reamertan_block_decoder_open(&coder, HEADER, 7, SMALL * SYMBOL_SIZE);
    if (answer == REAMERTAN_DONE)
        answer = reamertan_block_decoder_add_packets(coder, packet, sizeof packet);
    if (answer == REAMERTAN_DONE)
        answer = reamertan_block_decoder_copy(coder, &twin);
    reamertan_block_decoder_close(&coder);
    reamertan_block_decoder_close(&twin);
    return answer;
}

/* Does so many times, and then once for each time that it takes memory, with that one refused. */
static void repeat(const char *what, uint8_t (*once)(void), long times)
{
    size_t before = taken;
    long refusals = 0;
    for (long time = 0; time < times; time++)
        check(once());
    expect(what, before, taken);
    for (bool is_refused = true; is_refused; refusals += is_refused) {
        granted = refusals;
        uint8_t answer = once();
        is_refused = granted < 0;
        granted = LONG_MAX;
        if (!is_refused || answer != REAMERTAN_OUT_OF_MEMORY)
            check(answer);
        expect(what, before, taken);
    }
    printf("%s: memory was refused at %ld places\n", what, refusals);
}

/* What a further pointer to a large encoder takes, and what is left of it. */
static void sharing(void)
{
    uint8_t header[REAMERTAN_CONFIGURATION_BYTES];
    reamertan_encoder *coder = NULL, *twin = NULL;
    size_t before = taken;
    check(reamertan_cut(sizeof OBJECT, SYMBOL_SIZE, LARGE, header));
    check(reamertan_encoder_open(&coder, header, OBJECT, sizeof OBJECT));
    size_t alone = taken;
    check(reamertan_encoder_share(coder, &twin));
    expect("a pointer that shares a large encoder", alone + SHARED_MOST, taken);
    reamertan_encoder_close(&coder);
    expect("the encoder, which one pointer holds", alone, taken);
    expect("an encoder that the last pointer still holds", taken - 1, before);
    reamertan_encoder_close(&twin);
    expect("a closed encoder", before, taken);
}

int main(int count, char **words)
{
    long times = count == 2 ? atol(words[1]) : 1000;
    repeat("encoders", encoders, times);
    repeat("plans", plans, times);
    check(reamertan_plan_open(&plan, SMALL));
    repeat("encoders of blocks", block_encoders, times);
    reamertan_plan_close(&plan);
    repeat("decoders", decoders, times);
    repeat("decoders of blocks", block_decoders, times);
    sharing();
    printf("%ld coders of each kind were opened, shared or copied, and closed: %zu bytes are left\n", times, taken);
    return failures != 0 || taken != 0;
}
