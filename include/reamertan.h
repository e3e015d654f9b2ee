/* Reamertan: a RaptorQ erasure codec (RFC 6330) that is proved.
 *
 * An object is cut into source blocks, a block into source symbols of T bytes. A packet is a payload
 * id of 4 bytes and a symbol, so 4 + T bytes. Any packets of a block that determine it give it back,
 * whichever they are: mostly as many as it has source symbols.
 *
 * A configuration says how an object is cut. Sender and receiver need the same one. It crosses as the
 * 12 bytes of RFC 6330, 3.3 (Common and Scheme-Specific FEC Object Transmission Information), which go
 * before the packets in a stream. Any 12 bytes may be handed in.
 *
 * A call that answers another number than REAMERTAN_DONE leaves the caller's buffers as they were, but for `completes`. A buffer
 * that is to be filled has exactly the length of what is written, and may be uninitialised.
 *
 * A coder is kept behind a pointer: an encoder of an object or of a block, a plan, a decoder of an object or of a
 * block. `open`, and what shares or copies a coder, writes a pointer over a null one. `close` frees the coder and
 * makes the pointer null; over a null one it does nothing. A coder that isn't closed leaks.
 *
 * The library takes memory by malloc and realloc and gives it back by free, and starts no thread. It is
 * proved for programs that keep to this, which nothing looks for:
 *   no pointer is null, also where its length is 0, but the one that `open`, `share` or `copy` writes over, which has
 *     to be null, and the one that `close` makes null, which may be. `data()` of an empty vector of C++ may be null:
 *     hand in any other address then;
 *   where a call takes a coder, the pointer is one that a call of the same kind of coder wrote, and that wasn't
 *     closed since. Nothing but these calls reads or writes what it points to, or copies it;
 *   what a call writes overlaps nothing else that it is handed;
 *   a bool that a call writes over has a value before: `bool completes = false;`;
 *   calls may be made from any thread, several at a time, but of one pointer to a coder one at a time. A pointer goes to
 *     another thread in the order of a lock, of a thread's start or join, or of a sequentially consistent atomic;
 *   the three come from one allocator, and align a block to each power of two up to 16 that divides its size,
 *     as those of the C library do;
 *   no call is made from a signal handler, nor in a process that a process with threads forked, before it
 *     executes another program;
 *   a call finds 32 KiB of stack. The most that one took in a thread of its own, of 10 to 56403 symbols a block, was
 *     12 KiB.
 *
 * `./install PREFIX` puts the library in place, and `pkg-config --cflags --libs reamertan` says how to link it.
 *
 * A library for x86-64 holds two builds: for x86-64-v2; and for x86-64-v3, which has AVX2, BMI2 and others more. The
 * first call looks which of them the machine's processor has, and from then on each call goes to the greatest. The
 * lines of C that look and choose aren't proved. `install` also makes a library with one build, and one for aarch64, as
 * a static library alone; `pkg-config --variable=processor reamertan` names what a library is for. No call looks
 * whether the machine has at least that. Where an x86-64 machine hasn't, glibc's loader starts no program that GNU's ld
 * linked with the library, but ends it with 127 and a line that says why. What is linked statically, or by another
 * linker, runs until a call ends it (SIGILL).
 *
 * `reamertan_processor` and `reamertan_answer_text` answer constants, so that a program in another language reads no
 * header. They are written in C, and not proved. Any processor of the architecture runs them, so that a program may ask
 * which build runs before it makes another call. What they point at is there as long as the library is loaded.
 */
#ifndef REAMERTAN_H
#define REAMERTAN_H

#include <stdbool.h>
#include <stddef.h>
#include <stdint.h>

#ifdef __cplusplus
extern "C" {
#endif

/* The version of this header, and of the library that is installed with it. `install` reads it here. While the
 * major version is 0, another minor version may have other calls. */
#define REAMERTAN_VERSION_MAJOR 0
#define REAMERTAN_VERSION_MINOR 1
#define REAMERTAN_VERSION_PATCH 0

/* The same in one number, as `reamertan_version` answers it. */
#define REAMERTAN_VERSION \
    (REAMERTAN_VERSION_MAJOR * 1000000 + REAMERTAN_VERSION_MINOR * 1000 + REAMERTAN_VERSION_PATCH)

/* The bytes of a configuration, and of a payload id before its symbol. */
#define REAMERTAN_CONFIGURATION_BYTES 12
#define REAMERTAN_PAYLOAD_ID_BYTES 4

/* The decoder's memory, in bytes, of a default configuration. */
#define REAMERTAN_DEFAULT_DECODER_MEMORY 10485760

/* Source blocks of at most so many symbols are coded fastest, and none has more than the second number. */
#define REAMERTAN_FAST_BLOCK 497
#define REAMERTAN_GREATEST_BLOCK 56403

/* What calls answer. Refusals have the numbers of the codec's `Error::code`: those from 1 to 23 and, in later
 * versions, from 32 on. Those from 24 to 31 are for what this library answers beside them. Made by errors/make_lists. */
enum reamertan_answer {
    /* The call did what it is for. */
    REAMERTAN_DONE = 0,
    /* The object is longer than 942574504275 bytes. */
    REAMERTAN_TRANSFER_TOO_LONG = 1,
    /* The symbol alignment is 0. */
    REAMERTAN_ALIGNMENT_ZERO = 2,
    /* The symbol alignment doesn't divide the symbol size. */
    REAMERTAN_MISALIGNED = 3,
    /* A source block has more than 56403 symbols. */
    REAMERTAN_TOO_MANY_SYMBOLS = 4,
    /* The symbol size is 0. */
    REAMERTAN_SYMBOL_SIZE_ZERO = 5,
    /* The number of source blocks is 0. */
    REAMERTAN_SOURCE_BLOCKS_ZERO = 6,
    /* A source block has more symbols than the table's greatest row, 56403. */
    REAMERTAN_BLOCK_OVER_TABLE = 7,
    /* The object has another length than its configuration says. */
    REAMERTAN_WRONG_DATA_LENGTH = 8,
    /* A row of the table doesn't determine the intermediate symbols. */
    REAMERTAN_SINGULAR = 9,
    /* A plan was made for another number of source symbols than a block has, or over another row of the table. */
    REAMERTAN_PLAN_MISMATCH = 10,
    /* A block would need encoding symbol ids above 2^24 - 1. */
    REAMERTAN_ESI_TOO_LARGE = 11,
    /* A packet is shorter than its payload id. */
    REAMERTAN_PACKET_TOO_SHORT = 12,
    /* A packet's payload has another length than a symbol. */
    REAMERTAN_WRONG_PAYLOAD_SIZE = 13,
    /* A source block that a packet or a call names is none of the object's. */
    REAMERTAN_UNKNOWN_BLOCK = 14,
    /* The packet size is 0. */
    REAMERTAN_PACKET_SIZE_ZERO = 15,
    /* The object's length is 0. */
    REAMERTAN_TRANSFER_LENGTH_ZERO = 16,
    /* No row of the table fits the decoder's memory. */
    REAMERTAN_MEMORY_REQUIREMENT_TOO_SMALL = 17,
    /* The object would need more than 255 source blocks. */
    REAMERTAN_TOO_MANY_BLOCKS = 18,
    /* malloc or realloc refused. */
    REAMERTAN_OUT_OF_MEMORY = 21,
    /* The packets of a block determine it, and no block fits all of them: some are damaged or forged. */
    REAMERTAN_CONTRADICTION = 22,
    /* A buffer that is to be filled has another length than what is to be written. */
    REAMERTAN_WRONG_BUFFER = 24,
    /* The packets don't determine the object, or the block asked for, or some of them contradict each other. */
    REAMERTAN_INCOMPLETE = 25
};

/* What a call answered, in words. Each number has a text, and those that are no answers have one in common. */
const char *reamertan_answer_text(uint8_t answer);

/* The version of the library that is linked or loaded: its REAMERTAN_VERSION. */
uint32_t reamertan_version(void);

/* The processor that the build which runs is for: "x86-64-v2", "x86-64-v3" or "aarch64". */
const char *reamertan_processor(void);

/* ---- Configurations */

/* The numbers of a configuration. */
struct reamertan_parameters {
    uint64_t transfer_length; /* F: the object's length, in bytes */
    uint16_t symbol_size;     /* T: in bytes */
    uint16_t sub_blocks;      /* N: of a source block; 0 is read as 1 */
    uint8_t source_blocks;    /* Z */
    uint8_t alignment;        /* Al: in bytes */
};

/* Bytes of an object: from `start` on and before `end`. */
struct reamertan_range {
    uint64_t start;
    uint64_t end;
};

/* Writes the configuration of an object of `object_length` bytes in symbols of `symbol_size` bytes, cut into as few
 * source blocks as have at most `block_symbols` symbols each, with one sub-block and an alignment of 1. Coders take it.
 * Blocks of REAMERTAN_FAST_BLOCK symbols are coded 4 to 7 times as fast as those of REAMERTAN_GREATEST_BLOCK, where a
 * symbol has 1280 bytes, and twice as fast at 64; of larger blocks more packets can stand for a lost one.
 *
 * Refuses, in this order: SYMBOL_SIZE_ZERO, TRANSFER_LENGTH_ZERO, TOO_MANY_BLOCKS, also where `block_symbols` is 0,
 * TRANSFER_TOO_LONG, TOO_MANY_SYMBOLS. */
uint8_t reamertan_cut(uint64_t object_length, uint16_t symbol_size, uint16_t block_symbols,
                      uint8_t configuration[REAMERTAN_CONFIGURATION_BYTES]);

/* Writes the configuration of an object of `object_length` bytes in packets of at most `packet_size`
 * bytes of payload, each of whose sub-blocks fits `decoder_memory` bytes (RFC 6330, 4.3), with
 * REAMERTAN_DEFAULT_DECODER_MEMORY that of the Rust crate `raptorq`. Blocks have up to 56403 symbols:
 * `reamertan_cut` makes smaller ones, which are faster.
 *
 * Refuses, in this order: PACKET_SIZE_ZERO, TRANSFER_LENGTH_ZERO, TRANSFER_TOO_LONG,
 * MEMORY_REQUIREMENT_TOO_SMALL, TOO_MANY_BLOCKS. OUT_OF_MEMORY may come before any. */
uint8_t reamertan_derive_configuration(uint64_t object_length, uint16_t packet_size,
                                       uint64_t decoder_memory,
                                       uint8_t configuration[REAMERTAN_CONFIGURATION_BYTES]);

/* Writes the configuration of these numbers.
 *
 * Refuses, in this order: TRANSFER_TOO_LONG, ALIGNMENT_ZERO, MISALIGNED, TOO_MANY_SYMBOLS. Whether
 * coders take it is what `reamertan_check_configuration` says. */
uint8_t reamertan_write_configuration(const struct reamertan_parameters *parameters,
                                      uint8_t configuration[REAMERTAN_CONFIGURATION_BYTES]);

/* Reads the numbers of any 12 bytes. */
void reamertan_read_configuration(const uint8_t configuration[REAMERTAN_CONFIGURATION_BYTES],
                                  struct reamertan_parameters *parameters);

/* Whether coders take a configuration.
 *
 * Refuses, in this order: SYMBOL_SIZE_ZERO, ALIGNMENT_ZERO, MISALIGNED, SOURCE_BLOCKS_ZERO,
 * BLOCK_OVER_TABLE. OUT_OF_MEMORY may come before any. */
uint8_t reamertan_check_configuration(const uint8_t configuration[REAMERTAN_CONFIGURATION_BYTES]);

/* Writes where source block `block` begins and where it ends in the object, in bytes (RFC 6330, 4.4.1.2).
 * It has (end - start) / T source symbols. The last blocks can end past the object, which is filled up
 * with zeros. The blocks have the numbers from 0 to Z - 1.
 *
 * Refuses, in this order: SYMBOL_SIZE_ZERO, SOURCE_BLOCKS_ZERO, TOO_MANY_SYMBOLS, UNKNOWN_BLOCK.
 * OUT_OF_MEMORY may come before any. */
uint8_t reamertan_block_range(const uint8_t configuration[REAMERTAN_CONFIGURATION_BYTES],
                              uint8_t block, struct reamertan_range *range);

/* Writes how many bytes the packets of an object take, those of its source symbols and of `repair`
 * repair symbols a block: (Kt + Z * repair) * (4 + T), Kt being F / T, rounded up. It is the
 * `packets_length` of `reamertan_encode`.
 *
 * Refuses, in this order: what `reamertan_check_configuration` refuses, ESI_TOO_LARGE. OUT_OF_MEMORY
 * may come before any. */
uint8_t reamertan_packets_length(const uint8_t configuration[REAMERTAN_CONFIGURATION_BYTES],
                                 uint32_t repair, uint64_t *length);

/* ---- Whole objects */

/* Fills `packets` with the packets of an object: block by block those of its source symbols, and then
 * of `repair` repair symbols. `packets_length` has to be what they take together, as
 * `reamertan_packets_length` says. They are made in as many bytes of memory and then copied, since memory may be
 * refused at any block: `reamertan_encoder_write` makes packets where the caller wants them.
 *
 * Refuses, in this order: what `reamertan_check_configuration` refuses, WRONG_DATA_LENGTH, SINGULAR,
 * ESI_TOO_LARGE, WRONG_BUFFER. OUT_OF_MEMORY may come before any. */
uint8_t reamertan_encode(const uint8_t configuration[REAMERTAN_CONFIGURATION_BYTES],
                         const uint8_t *object, size_t object_length, uint32_t repair,
                         uint8_t *packets, size_t packets_length);

/* Fills `object` with the object of packets, in any order, each any number of times, where they
 * determine it. They lie one behind another in `packets`. `object_length` has to be the object's, F. Of
 * packets that aren't all of one object, as forged or damaged ones, a block is what the first of its packets say
 * that determine it, the first of each id; those behind them aren't looked at. So they may give other bytes,
 * CONTRADICTION, INCOMPLETE or WRONG_BUFFER.
 *
 * Refuses, in this order:
 *   PACKET_TOO_SHORT, where the last packet is shorter than its id;
 *   what `reamertan_check_configuration` refuses;
 *   of the first packet that is refused UNKNOWN_BLOCK, or WRONG_PAYLOAD_SIZE (the last packet may be cut
 *     short), or CONTRADICTION: with it those of its block, which has no answer yet, determine the block,
 *     and no block fits them all;
 *   INCOMPLETE;
 *   WRONG_BUFFER.
 * OUT_OF_MEMORY may come before any. */
uint8_t reamertan_decode(const uint8_t configuration[REAMERTAN_CONFIGURATION_BYTES],
                         const uint8_t *packets, size_t packets_length, uint8_t *object,
                         size_t object_length);

/* ---- Senders */

/* Makes the packets of an object. */
typedef struct reamertan_encoder reamertan_encoder;

/* Solves the equations of source blocks of one number of symbols, whatever their bytes and their symbols' size. */
typedef struct reamertan_plan reamertan_plan;

/* Makes the packets of a source block. */
typedef struct reamertan_block_encoder reamertan_block_encoder;

/* Makes the encoder of an object. The object's bytes aren't needed any more.
 *
 * Refuses, in this order: what `reamertan_check_configuration` refuses, WRONG_DATA_LENGTH, SINGULAR.
 * OUT_OF_MEMORY may come before any. Where it refuses, the pointer stays null. */
uint8_t reamertan_encoder_open(reamertan_encoder **encoder,
                               const uint8_t configuration[REAMERTAN_CONFIGURATION_BYTES],
                               const uint8_t *object, size_t object_length);

/* Fills `packets` with `count` packets of source block `block`, those of the encoding symbol ids from `first` on, one
 * behind another: below the block's number of source symbols those of source symbols, and else of repair symbols.
 * `packets_length` has to be `count` * (4 + T). No memory is taken.
 *
 * Refuses, in this order: ESI_TOO_LARGE where `first` + `count` is above 2^24, UNKNOWN_BLOCK, WRONG_BUFFER. */
uint8_t reamertan_encoder_write(reamertan_encoder *encoder, uint8_t block, uint32_t first, uint32_t count,
                                uint8_t *packets, size_t packets_length);

/* Makes `twin` a further pointer to the encoder, without a copy. Each is used and closed by itself, and one may be used
 * by one thread while the other is used by another. The last one that is closed frees the encoder.
 *
 * Refuses OUT_OF_MEMORY. Where it refuses, `twin` stays null. */
uint8_t reamertan_encoder_share(reamertan_encoder *encoder, reamertan_encoder **twin);

/* Frees an encoder, unless another pointer shares it, and makes the pointer null. Does nothing over a null pointer. */
void reamertan_encoder_close(reamertan_encoder **encoder);

/* Makes the plan of source blocks of `source_symbols` symbols: most of the work of an encoder of small symbols, which
 * blocks of one size share.
 *
 * Refuses, in this order: BLOCK_OVER_TABLE, SINGULAR. OUT_OF_MEMORY may come before any. Where it refuses, the pointer
 * stays null. */
uint8_t reamertan_plan_open(reamertan_plan **plan, uint16_t source_symbols);

/* Makes `twin` a further pointer to the plan, as `reamertan_encoder_share` does. */
uint8_t reamertan_plan_share(reamertan_plan *plan, reamertan_plan **twin);

/* Frees a plan, unless another pointer shares it, and makes the pointer null. Does nothing over a null pointer. */
void reamertan_plan_close(reamertan_plan **plan);

/* Makes the encoder of source block `block` by a plan. Neither the plan is needed any more, nor the bytes. Of the
 * configuration the symbol size is read, the number of sub-blocks and the alignment. The bytes are all of the block's,
 * with the zeros that fill up the last one: `end` - `start` of `reamertan_block_range`.
 *
 * Refuses, in this order: SYMBOL_SIZE_ZERO, ALIGNMENT_ZERO, MISALIGNED, WRONG_DATA_LENGTH where the bytes aren't whole
 * symbols, PLAN_MISMATCH where the plan is for another number of them. OUT_OF_MEMORY may come before any. Where it
 * refuses, the pointer to an encoder stays null. */
uint8_t reamertan_block_encoder_open(reamertan_block_encoder **encoder, reamertan_plan *plan,
                                     const uint8_t configuration[REAMERTAN_CONFIGURATION_BYTES], uint8_t block,
                                     const uint8_t *bytes, size_t length);

/* Fills `packets` with `count` packets of the block, as `reamertan_encoder_write` does.
 *
 * Refuses, in this order: ESI_TOO_LARGE, WRONG_BUFFER. */
uint8_t reamertan_block_encoder_write(reamertan_block_encoder *encoder, uint32_t first, uint32_t count,
                                      uint8_t *packets, size_t packets_length);

/* Makes `twin` a further pointer to the encoder, as `reamertan_encoder_share` does. */
uint8_t reamertan_block_encoder_share(reamertan_block_encoder *encoder, reamertan_block_encoder **twin);

/* Frees an encoder, unless another pointer shares it, and makes the pointer null. Does nothing over a null pointer. */
void reamertan_block_encoder_close(reamertan_block_encoder **encoder);

/* ---- Receivers */

/* Takes the packets of an object. */
typedef struct reamertan_decoder reamertan_decoder;

/* Takes the packets of a source block. */
typedef struct reamertan_block_decoder reamertan_block_decoder;

/* Makes the decoder of an object.
 *
 * Refuses what `reamertan_check_configuration` refuses. OUT_OF_MEMORY may come before any. Where it
 * refuses, the pointer stays null. */
uint8_t reamertan_decoder_open(reamertan_decoder **decoder,
                               const uint8_t configuration[REAMERTAN_CONFIGURATION_BYTES]);

/* Takes a packet, 4 bytes of payload id and a symbol, and writes whether its block, of the number in its first byte, is
 * complete by it: true for the packet that completes it, and false for any other, also where it is refused. A packet
 * that was taken before changes nothing, unless memory was refused before: then its block is tried again.
 *
 * Refuses, in this order: PACKET_TOO_SHORT, UNKNOWN_BLOCK, WRONG_PAYLOAD_SIZE; the decoder then holds what it
 * held. And then CONTRADICTION, where with the packet those of its block, which has no answer yet, determine the block
 * and no block fits them all: it is taken, each later packet of its block is refused so too, and the object is never
 * complete. OUT_OF_MEMORY may come before any of these but PACKET_TOO_SHORT, and then the packet may be taken or
 * not, unless it is one to be refused by the first three; hand it in again. */
uint8_t reamertan_decoder_add_packet(reamertan_decoder *decoder, const uint8_t *packet, size_t packet_length,
                                     bool *completes);

/* Takes packets that lie one behind another, each of 4 + T bytes, in their order, as `reamertan_decoder_add_packet`
 * takes each.
 *
 * Refuses, in this order: WRONG_PAYLOAD_SIZE, before a packet is taken, where `packets_length` isn't that of whole
 * packets; and of the first packet that is refused UNKNOWN_BLOCK or CONTRADICTION, as `reamertan_decoder_add_packet`
 * does. OUT_OF_MEMORY may come of any packet. Those before it are taken then, and those behind it aren't: after
 * OUT_OF_MEMORY hand in all of them again. */
uint8_t reamertan_decoder_add_packets(reamertan_decoder *decoder, const uint8_t *packets, size_t packets_length);

/* Whether the object is complete, which each of its blocks then is. */
bool reamertan_decoder_is_complete(reamertan_decoder *decoder);

/* Writes how many packets more source block `block` needs at least, of ids that weren't taken yet: with
 * fewer it isn't complete, whichever they are. That is the number of its source symbols less that of the ids
 * that were taken, or 1 where these are as many and don't determine the block. It is 0 where the block is
 * complete, or where memory was refused for its answer: its next packet has it tried again.
 *
 * Refuses, in this order: UNKNOWN_BLOCK, CONTRADICTION where the packets of the block were found to contradict each
 * other. */
uint8_t reamertan_decoder_missing(reamertan_decoder *decoder, uint8_t block, uint32_t *packets);

/* Fills `bytes` with the object's bytes in source block `block`, where the packets that were taken determine
 * the block. So a receiver writes each block to its place, from `start` of `reamertan_block_range` on, by a buffer
 * for one block. The decoder itself holds all blocks until it is closed. `length` has to be their number,
 * `end` - `start`, but they end where the object does, and a block behind it has none. Those of all blocks one
 * behind another are what `reamertan_decoder_write_object` writes.
 *
 * Refuses, in this order: UNKNOWN_BLOCK, INCOMPLETE, WRONG_BUFFER. */
uint8_t reamertan_decoder_write_block(reamertan_decoder *decoder, uint8_t block, uint8_t *bytes, size_t length);

/* Fills `object` with the object, where the packets that were taken determine it. `object_length` has to
 * be the object's, F. What is written is the object where the packets are the object's: packets that were
 * forged, or damaged but for their ids, and don't contradict each other, give other bytes. No memory is taken.
 *
 * Refuses, in this order: INCOMPLETE, WRONG_BUFFER. */
uint8_t reamertan_decoder_write_object(reamertan_decoder *decoder, uint8_t *object, size_t object_length);

/* Makes `twin` a further decoder, with the packets and answers of this one. From then on each takes packets by itself.
 *
 * Refuses OUT_OF_MEMORY. Where it refuses, `twin` stays null. */
uint8_t reamertan_decoder_copy(reamertan_decoder *decoder, reamertan_decoder **twin);

/* Frees a decoder, and makes the pointer null. Does nothing over a null pointer. */
void reamertan_decoder_close(reamertan_decoder **decoder);

/* Makes the decoder of source block `block` alone, of as many source symbols as cover `length` bytes: `end` - `start` of
 * `reamertan_block_range`. Of the configuration the symbol size is read, the number of sub-blocks and the alignment. A
 * block of no symbols is complete from the start.
 *
 * Refuses, in this order: SYMBOL_SIZE_ZERO, ALIGNMENT_ZERO, MISALIGNED, BLOCK_OVER_TABLE. OUT_OF_MEMORY may come before
 * any. Where it refuses, the pointer stays null. */
uint8_t reamertan_block_decoder_open(reamertan_block_decoder **decoder,
                                     const uint8_t configuration[REAMERTAN_CONFIGURATION_BYTES], uint8_t block,
                                     uint64_t length);

/* Takes packets that lie one behind another, each of 4 + T bytes, in their order, as `reamertan_decoder_add_packet`
 * takes each.
 *
 * Refuses, in this order: WRONG_PAYLOAD_SIZE, before a packet is taken, where `packets_length` isn't that of whole
 * packets; and of the first packet that is refused UNKNOWN_BLOCK where it is another block's, or CONTRADICTION.
 * OUT_OF_MEMORY may come of any packet. Those before it are taken then, and those behind it aren't: after OUT_OF_MEMORY
 * hand in all of them again. */
uint8_t reamertan_block_decoder_add_packets(reamertan_block_decoder *decoder, const uint8_t *packets,
                                            size_t packets_length);

/* Whether the block is complete. */
bool reamertan_block_decoder_is_complete(reamertan_block_decoder *decoder);

/* Writes how many packets more the block needs at least, as `reamertan_decoder_missing` does.
 *
 * Refuses CONTRADICTION where its packets were found to contradict each other. */
uint8_t reamertan_block_decoder_missing(reamertan_block_decoder *decoder, uint32_t *packets);

/* Fills `bytes` with the block, where the packets that were taken determine it: all of its source symbols, with the zeros
 * that fill up the last one. `length` has to be theirs, K * T. No memory is taken.
 *
 * Refuses, in this order: INCOMPLETE, WRONG_BUFFER. */
uint8_t reamertan_block_decoder_write(reamertan_block_decoder *decoder, uint8_t *bytes, size_t length);

/* Makes `twin` a further decoder, as `reamertan_decoder_copy` does. */
uint8_t reamertan_block_decoder_copy(reamertan_block_decoder *decoder, reamertan_block_decoder **twin);

/* Frees a decoder, and makes the pointer null. Does nothing over a null pointer. */
void reamertan_block_decoder_close(reamertan_block_decoder **decoder);

#ifdef __cplusplus
}
#endif

#endif
