/* What calls refuse, each by its number, and that the caller's buffers are as they were then; and the bytes that they
 * write, by rows that are worked by hand from RFC 6330, and by repair symbols of the Rust crate `raptorq` 2.0.1. */
#include <stdio.h>
#include <string.h>

#include "reamertan.h"

/* Three bytes in symbols of two, and their packets. */
static const uint8_t HEADER[REAMERTAN_CONFIGURATION_BYTES] = {0, 0, 0, 0, 3, 0, 0, 2, 1, 0, 1, 1};
static const uint8_t OBJECT[3] = {7, 8, 9};
static const uint8_t PACKETS[12] = {0, 0, 0, 0, 7, 8, 0, 0, 0, 1, 9, 0};
/* A symbol of one byte, of which repair symbol 133 is zero, whatever the byte is: one of both was forged. */
static const uint8_t ONE[REAMERTAN_CONFIGURATION_BYTES] = {0, 0, 0, 0, 1, 0, 0, 1, 1, 0, 1, 1};
static const uint8_t FORGED[10] = {0, 0, 0, 133, 1, 0, 0, 0, 0, 7};
/* Two symbols of two sub-blocks. */
static const uint8_t HALVES[REAMERTAN_CONFIGURATION_BYTES] = {0, 0, 0, 0, 12, 0, 0, 6, 1, 0, 2, 2};
static const uint8_t UNTOUCHED[32] = {170, 170, 170, 170, 170, 170, 170, 170, 170, 170, 170};

static _Alignas(8) uint8_t buffer[32];
static int failures;

static void expect(const char *what, int wanted, int answer)
{
    if (answer != wanted || memcmp(buffer, UNTOUCHED, sizeof buffer) != 0) {
        fprintf(stderr, "%s: %d, not %d\n", what, answer, wanted);
        failures++;
    }
    memcpy(buffer, UNTOUCHED, sizeof buffer);
}

static void configurations(void)
{
    struct reamertan_parameters long_one = {942574504276u, 2, 1, 1, 1}, unaligned = {3, 2, 1, 1, 0};
    struct reamertan_parameters odd = {3, 3, 1, 1, 2}, large = {56404, 1, 1, 1, 1};
    expect("too long", 1, reamertan_write_configuration(&long_one, buffer));
    expect("alignment of 0", 2, reamertan_write_configuration(&unaligned, buffer));
    expect("misaligned", 3, reamertan_write_configuration(&odd, buffer));
    expect("too many symbols", 4, reamertan_write_configuration(&large, buffer));
    expect("packets of 0 bytes", 15, reamertan_derive_configuration(3, 0, 1 << 20, buffer));
    expect("no bytes", 16, reamertan_derive_configuration(0, 2, 1 << 20, buffer));
    expect("derived too long", 1, reamertan_derive_configuration(942574504276u, 2, 1 << 20, buffer));
    expect("no memory to fit", 17, reamertan_derive_configuration(3, 2, 1, buffer));
    expect("too many blocks", 18, reamertan_derive_configuration(20000000, 1, 1 << 20, buffer));
    uint8_t changed[REAMERTAN_CONFIGURATION_BYTES] = {0};
    expect("symbols of 0 bytes", 5, reamertan_check_configuration(changed));
    memcpy(changed, HEADER, sizeof changed), changed[8] = 0;
    expect("no blocks", 6, reamertan_check_configuration(changed));
    memcpy(changed, HEADER, sizeof changed), changed[2] = 255;
    expect("over the table", 7, reamertan_check_configuration(changed));
}

static void cuts(void)
{
    uint8_t header[REAMERTAN_CONFIGURATION_BYTES];
    struct reamertan_parameters cut;
    expect("symbols of 0 bytes", 5, reamertan_cut(3, 0, 1, buffer));
    expect("no bytes", 16, reamertan_cut(0, 2, 1, buffer));
    expect("blocks of no symbols", 18, reamertan_cut(3, 2, 0, buffer));
    expect("256 blocks", 18, reamertan_cut(256, 1, 1, buffer));
    expect("far too long", 18, reamertan_cut(UINT64_MAX, 1, 65535, buffer));
    expect("too long", 1, reamertan_cut(942574504276u, 65535, 65535, buffer));
    expect("too many symbols", 4, reamertan_cut(56404, 1, 65535, buffer));
    expect("255 blocks", 0, reamertan_cut(255, 1, 1, header));
    expect("blocks of 497", 0, reamertan_cut(1000000, 1280, REAMERTAN_FAST_BLOCK, header));
    reamertan_read_configuration(header, &cut);
    expect("two of them", 2, cut.source_blocks);
    expect("coders take them", 0, reamertan_check_configuration(header));
}

/* RFC 6330, 4.3: packets of at most so many bytes, and decoders of so much memory; and blocks of so many symbols. */
static void headers(void)
{
    static const uint8_t one[] = {0, 0, 0, 39, 16, 0, 5, 120, 1, 0, 1, 8};
    static const uint8_t cut_in_3[] = {0, 0, 0, 39, 16, 0, 1, 240, 1, 0, 3, 8};
    static const uint8_t cut_in_6[] = {0, 0, 0, 1, 144, 0, 1, 240, 1, 0, 6, 8};
    static const uint8_t two[] = {0, 0, 15, 66, 64, 0, 5, 0, 2, 0, 1, 1};
    uint8_t header[REAMERTAN_CONFIGURATION_BYTES];
    expect("10000 in 1400", 0, reamertan_derive_configuration(10000, 1400, REAMERTAN_DEFAULT_DECODER_MEMORY, header));
    expect("is one sub-block", 0, memcmp(header, one, sizeof one));
    expect("10000 in 500", 0, reamertan_derive_configuration(10000, 500, 5000, header));
    expect("are three", 0, memcmp(header, cut_in_3, sizeof cut_in_3));
    expect("400 in 500", 0, reamertan_derive_configuration(400, 500, 1000, header));
    expect("are six", 0, memcmp(header, cut_in_6, sizeof cut_in_6));
    expect("a million in 1280", 0, reamertan_cut(1000000, 1280, 497, header));
    expect("are two blocks", 0, memcmp(header, two, sizeof two));
}

/* RFC 6330, 4.4.1.2: symbols of two sub-blocks, and blocks of which some have no symbol. */
static void bytes(void)
{
    static const uint8_t blocks[REAMERTAN_CONFIGURATION_BYTES] = {0, 0, 0, 0, 3, 0, 0, 2, 5, 0, 1, 1};
    static const uint8_t numbers[] = {0, 1, 2, 3, 4, 5, 6, 7, 8, 9, 10, 11};
    static const uint8_t by_halves[] = {0, 0, 0, 0, 0, 1, 2, 3, 8, 9, 0, 0, 0, 1, 4, 5, 6, 7, 10, 11};
    static const uint8_t by_blocks[] = {0, 0, 0, 0, 7, 8, 1, 0, 0, 0, 9, 0};
    reamertan_encoder *sender = NULL;
    reamertan_decoder *receiver = NULL;
    uint8_t made[20];
    expect("two symbols", 0, reamertan_encoder_open(&sender, HALVES, numbers, 12));
    expect("their packets", 0, reamertan_encoder_write(sender, 0, 0, 2, made, 20));
    expect("by halves", 0, memcmp(made, by_halves, 20));
    reamertan_encoder_close(&sender);
    expect("no symbols yet", 0, reamertan_decoder_open(&receiver, HALVES));
    expect("both", 0, reamertan_decoder_add_packets(receiver, by_halves, 20));
    expect("the object", 0, reamertan_decoder_write_object(receiver, made, 12));
    expect("its bytes", 0, memcmp(made, numbers, 12));
    reamertan_decoder_close(&receiver);
    expect("five blocks", 0, reamertan_encode(blocks, OBJECT, 3, 0, made, 12));
    expect("two packets", 0, memcmp(made, by_blocks, 12));
    expect("from them", 0, reamertan_decode(blocks, by_blocks, 12, made, 3));
    expect("the object", 0, memcmp(made, OBJECT, 3));
}

/* The crate's repair symbols, which have two sub-blocks too, and the object from them alone. */
static void repairs(void)
{
    static const uint8_t object[] = {108, 130, 165, 98, 203, 128, 141, 16, 214, 50, 190, 137};
    static const uint8_t repair[] = {0, 0, 0, 2, 0xb2, 0x7c, 0x6c, 0xb4, 0x4c, 0x40,
                                     0, 0, 0, 3, 0x4f, 0x45, 0xba, 0x21, 0xa0, 0x38};
    reamertan_encoder *sender = NULL;
    uint8_t made[40];
    expect("two and two packets", 0, reamertan_encode(HALVES, object, 12, 2, made, 40));
    expect("two are repair", 0, memcmp(made + 20, repair, 20));
    expect("opened", 0, reamertan_encoder_open(&sender, HALVES, object, 12));
    expect("repair alone", 0, reamertan_encoder_write(sender, 0, 2, 2, made, 20));
    expect("the same", 0, memcmp(made, repair, 20));
    reamertan_encoder_close(&sender);
    expect("from repair alone", 0, reamertan_decode(HALVES, repair, 20, made, 12));
    expect("the object", 0, memcmp(made, object, 12));
}

static void senders(void)
{
    reamertan_encoder *sender = NULL, *twin = NULL;
    expect("2 bytes of 3", 8, reamertan_encoder_open(&sender, HEADER, OBJECT, 2));
    expect("none was opened", 1, sender == NULL);
    reamertan_encoder_close(&sender);
    expect("opened", 0, reamertan_encoder_open(&sender, HEADER, OBJECT, 3));
    expect("shared", 0, reamertan_encoder_share(sender, &twin));
    reamertan_encoder_close(&sender);
    expect("closed", 1, sender == NULL);
    expect("an id of 25 bits", 11, reamertan_encoder_write(twin, 1, 1 << 24, 1, buffer, 6));
    expect("of no block", 14, reamertan_encoder_write(twin, 1, 0, 1, buffer, 5));
    expect("room for 5", 24, reamertan_encoder_write(twin, 0, 0, 1, buffer, 5));
    expect("room for less", 24, reamertan_encoder_write(twin, 0, 0, 2, buffer, 11));
    expect("no packet", 0, reamertan_encoder_write(twin, 0, 1 << 24, 0, buffer, 0));
    reamertan_encoder_close(&twin);
}

static void receivers(void)
{
    reamertan_decoder *receiver = NULL, *copy = NULL;
    const uint8_t foreign[] = {1, 0, 0, 0, 7, 8, 0, 0, 0, 0, 7, 8};
    uint8_t back[3], over[REAMERTAN_CONFIGURATION_BYTES] = {0};
    uint32_t *missing = (uint32_t *)(void *)buffer;
    bool completes = true;
    expect("symbols of 0 bytes", 5, reamertan_decoder_open(&receiver, over));
    expect("none was opened", 1, receiver == NULL);
    expect("opened", 0, reamertan_decoder_open(&receiver, HEADER));
    expect("bytes of no block", 14, reamertan_decoder_write_block(receiver, 1, buffer, 3));
    expect("packets missing of no block", 14, reamertan_decoder_missing(receiver, 1, missing));
    expect("a cut id", 12, reamertan_decoder_add_packet(receiver, PACKETS, 3, &completes));
    expect("completes nothing", 0, completes);
    expect("a foreign block", 14, reamertan_decoder_add_packet(receiver, foreign, 4, &completes));
    expect("a cut symbol", 13, reamertan_decoder_add_packet(receiver, PACKETS, 5, &completes));
    expect("a packet and a half", 13, reamertan_decoder_add_packets(receiver, PACKETS, 9));
    expect("a foreign block of two", 14, reamertan_decoder_add_packets(receiver, foreign, 12));
    expect("no packets", 0, reamertan_decoder_add_packets(receiver, PACKETS, 0));
    expect("no packet yet", 25, reamertan_decoder_write_object(receiver, buffer, 3));
    expect("one", 0, reamertan_decoder_add_packet(receiver, PACKETS, 6, &completes));
    expect("one of two", 25, reamertan_decoder_write_object(receiver, buffer, 2));
    expect("a block of two", 25, reamertan_decoder_write_block(receiver, 0, buffer, 3));
    expect("not complete", 0, completes | reamertan_decoder_is_complete(receiver));
    expect("copied", 0, reamertan_decoder_copy(receiver, &copy));
    expect("the other", 0, reamertan_decoder_add_packet(receiver, PACKETS + 6, 6, &completes));
    expect("complete", 1, completes & reamertan_decoder_is_complete(receiver));
    expect("the other again", 0, reamertan_decoder_add_packet(receiver, PACKETS + 6, 6, &completes));
    expect("completes no more", 0, completes);
    expect("another buffer", 24, reamertan_decoder_write_object(receiver, buffer, 2));
    expect("the object", 0, reamertan_decoder_write_object(receiver, back, 3));
    expect("its bytes", 0, memcmp(back, OBJECT, 3));
    memset(back, 0, sizeof back);
    expect("a block with its padding", 24, reamertan_decoder_write_block(receiver, 0, buffer, 4));
    expect("the block", 0, reamertan_decoder_write_block(receiver, 0, back, 3));
    expect("its bytes", 0, memcmp(back, OBJECT, 3));
    expect("the copy", 25, reamertan_decoder_write_object(copy, buffer, 3));
    reamertan_decoder_close(&receiver);
    reamertan_decoder_close(&copy);
    expect("closed", 1, receiver == NULL && copy == NULL);
}

static void block_receivers(void)
{
    reamertan_block_decoder *receiver = NULL, *empty = NULL, *copy = NULL;
    uint8_t back[4], zeros[REAMERTAN_CONFIGURATION_BYTES] = {0};
    const uint8_t packets[] = {9, 0, 0, 0, 7, 8, 9, 0, 0, 1, 9, 0};
    expect("symbols of 0 bytes", 5, reamertan_block_decoder_open(&receiver, zeros, 9, 3));
    expect("over the table", 7, reamertan_block_decoder_open(&receiver, HEADER, 9, UINT64_MAX));
    reamertan_block_decoder_close(&receiver);
    expect("no symbols", 0, reamertan_block_decoder_open(&empty, HEADER, 255, 0));
    expect("complete", 1, reamertan_block_decoder_is_complete(empty));
    expect("no bytes", 0, reamertan_block_decoder_write(empty, buffer, 0));
    expect("opened", 0, reamertan_block_decoder_open(&receiver, HEADER, 9, 3));
    expect("a packet and a half", 13, reamertan_block_decoder_add_packets(receiver, packets, 9));
    expect("another block's", 14, reamertan_block_decoder_add_packets(receiver, PACKETS, 12));
    expect("one", 0, reamertan_block_decoder_add_packets(receiver, packets, 6));
    expect("one of two", 25, reamertan_block_decoder_write(receiver, buffer, 3));
    expect("copied", 0, reamertan_block_decoder_copy(receiver, &copy));
    expect("both", 0, reamertan_block_decoder_add_packets(receiver, packets, 12));
    expect("complete", 1, reamertan_block_decoder_is_complete(receiver));
    expect("the copy isn't", 0, reamertan_block_decoder_is_complete(copy));
    expect("without its padding", 24, reamertan_block_decoder_write(receiver, buffer, 3));
    expect("the block", 0, reamertan_block_decoder_write(receiver, back, 4));
    expect("its bytes", 0, memcmp(back, (const uint8_t[]){7, 8, 9, 0}, 4));
    reamertan_block_decoder_close(&receiver);
    reamertan_block_decoder_close(&empty);
    reamertan_block_decoder_close(&copy);
}

static void contradictions(void)
{
    reamertan_decoder *receiver = NULL;
    reamertan_block_decoder *block = NULL;
    uint32_t *missing = (uint32_t *)(void *)buffer;
    bool completes = false;
    expect("a forged packet", 22, reamertan_decode(ONE, FORGED, 10, buffer, 1));
    expect("opened", 0, reamertan_decoder_open(&receiver, ONE));
    expect("one of both", 0, reamertan_decoder_add_packet(receiver, FORGED, 5, &completes));
    expect("the other", 22, reamertan_decoder_add_packet(receiver, FORGED + 5, 5, &completes));
    expect("one again", 22, reamertan_decoder_add_packet(receiver, FORGED, 5, &completes));
    expect("no object", 25, reamertan_decoder_write_object(receiver, buffer, 1));
    expect("no block", 25, reamertan_decoder_write_block(receiver, 0, buffer, 1));
    expect("no count", 22, reamertan_decoder_missing(receiver, 0, missing));
    expect("nothing is complete", 0, completes | reamertan_decoder_is_complete(receiver));
    reamertan_decoder_close(&receiver);
    expect("a block", 0, reamertan_block_decoder_open(&block, ONE, 0, 1));
    expect("both", 22, reamertan_block_decoder_add_packets(block, FORGED, 10));
    expect("one again", 22, reamertan_block_decoder_add_packets(block, FORGED, 5));
    expect("no bytes", 25, reamertan_block_decoder_write(block, buffer, 1));
    expect("no count", 22, reamertan_block_decoder_missing(block, missing));
    reamertan_block_decoder_close(&block);
}

static void plans(void)
{
    reamertan_plan *plan = NULL, *twin = NULL;
    reamertan_block_encoder *block = NULL, *shared = NULL;
    const uint8_t bytes[] = {7, 8, 9, 0}, zeros[REAMERTAN_CONFIGURATION_BYTES] = {0};
    uint8_t packets[12];
    expect("a plan over the table", 7, reamertan_plan_open(&plan, 56404));
    expect("none was opened", 1, plan == NULL);
    reamertan_plan_close(&plan);
    expect("a plan", 0, reamertan_plan_open(&plan, 2));
    expect("a further pointer to it", 0, reamertan_plan_share(plan, &twin));
    reamertan_plan_close(&plan);
    expect("symbols of 0 bytes", 5, reamertan_block_encoder_open(&block, twin, zeros, 0, bytes, 3));
    expect("half a symbol", 8, reamertan_block_encoder_open(&block, twin, HEADER, 0, bytes, 3));
    expect("one symbol of two", 10, reamertan_block_encoder_open(&block, twin, HEADER, 0, bytes, 2));
    expect("none was opened", 1, block == NULL);
    reamertan_block_encoder_close(&block);
    expect("two symbols", 0, reamertan_block_encoder_open(&block, twin, HEADER, 0, bytes, 4));
    reamertan_plan_close(&twin);
    expect("a further pointer to it", 0, reamertan_block_encoder_share(block, &shared));
    reamertan_block_encoder_close(&block);
    expect("an id of 25 bits", 11, reamertan_block_encoder_write(shared, (1 << 24) - 1, 2, buffer, 12));
    expect("room for one", 24, reamertan_block_encoder_write(shared, 0, 2, buffer, 6));
    expect("no packet", 0, reamertan_block_encoder_write(shared, 1 << 24, 0, buffer, 0));
    expect("both packets", 0, reamertan_block_encoder_write(shared, 0, 2, packets, 12));
    expect("their bytes", 0, memcmp(packets, PACKETS, 12));
    reamertan_block_encoder_close(&shared);
}

/* Each answer has a text of its own, and other numbers have one in common. */
static void texts(void)
{
    const char *none = reamertan_answer_text(REAMERTAN_INCOMPLETE + 1);
    for (uint8_t answer = REAMERTAN_DONE; answer <= REAMERTAN_INCOMPLETE; answer++) {
        bool is_one = answer != 19 && answer != 20 && answer != 23;
        expect("the text of an answer", is_one, strcmp(reamertan_answer_text(answer), none) != 0);
    }
    expect("the library of this header", 1, reamertan_version() == REAMERTAN_VERSION);
}

int main(void)
{
    memcpy(buffer, UNTOUCHED, sizeof buffer);
    configurations();
    cuts();
    headers();
    bytes();
    repairs();
    senders();
    receivers();
    block_receivers();
    contradictions();
    plans();
    texts();
    expect("no such block", 14, reamertan_block_range(HEADER, 1, (struct reamertan_range *)(void *)buffer));
    expect("too many ids", 11, reamertan_packets_length(HEADER, 1 << 24, (uint64_t *)(void *)buffer));
    expect("another length", 8, reamertan_encode(HEADER, OBJECT, 2, 0, buffer, 12));
    expect("ids for none", 11, reamertan_encode(HEADER, OBJECT, 3, 1 << 24, buffer, 12));
    expect("room for less", 24, reamertan_encode(HEADER, OBJECT, 3, 0, buffer, 11));
    expect("room for more", 24, reamertan_encode(HEADER, OBJECT, 3, 0, buffer, 13));
    expect("a cut id", 12, reamertan_decode(HEADER, PACKETS, 9, buffer, 3));
    expect("a cut symbol", 13, reamertan_decode(HEADER, PACKETS, 11, buffer, 3));
    expect("a foreign block", 14, reamertan_decode(HEADER, (const uint8_t[]){1, 0, 0, 0, 7, 8}, 6, buffer, 3));
    expect("one packet of two", 25, reamertan_decode(HEADER, PACKETS, 6, buffer, 3));
    expect("no packet", 25, reamertan_decode(HEADER, PACKETS, 0, buffer, 3));
    expect("another buffer", 24, reamertan_decode(HEADER, PACKETS, 12, buffer, 2));
    printf("%d calls answered otherwise than they may, by the library for %s\n", failures, reamertan_processor());
    return failures != 0;
}
