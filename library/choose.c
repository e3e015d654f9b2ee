/* The library for every x86-64 processor: each call goes to the build for x86-64-v3 where this machine has that, and else to that
 * for x86-64-v2. Made by make_choose from include/reamertan.h. Nothing proves these lines. */
#include <stdatomic.h>

#include "processor.h"
#include "reamertan.h"

#define CHOSEN(call) (is_v3() ? v3_##call : v2_##call)

/* Threads that look at the same time find the same. */
static bool is_v3(void)
{
    static atomic_int level;
    int found = atomic_load_explicit(&level, memory_order_relaxed);
    if (found == 0) {
        found = processor_level();
        atomic_store_explicit(&level, found, memory_order_relaxed);
    }
    return found == 3;
}

const char *reamertan_processor(void)
{
    return is_v3() ? "x86-64-v3" : "x86-64-v2";
}

extern __typeof__(reamertan_version) v2_reamertan_version, v3_reamertan_version;
uint32_t reamertan_version(void)
{
    return CHOSEN(reamertan_version)();
}

extern __typeof__(reamertan_cut) v2_reamertan_cut, v3_reamertan_cut;
uint8_t reamertan_cut(uint64_t object_length, uint16_t symbol_size, uint16_t block_symbols,
                      uint8_t configuration[REAMERTAN_CONFIGURATION_BYTES])
{
    return CHOSEN(reamertan_cut)(object_length, symbol_size, block_symbols, configuration);
}

extern __typeof__(reamertan_derive_configuration) v2_reamertan_derive_configuration, v3_reamertan_derive_configuration;
uint8_t reamertan_derive_configuration(uint64_t object_length, uint16_t packet_size, uint64_t decoder_memory,
                                       uint8_t configuration[REAMERTAN_CONFIGURATION_BYTES])
{
    return CHOSEN(reamertan_derive_configuration)(object_length, packet_size, decoder_memory, configuration);
}

extern __typeof__(reamertan_write_configuration) v2_reamertan_write_configuration, v3_reamertan_write_configuration;
uint8_t reamertan_write_configuration(const struct reamertan_parameters *parameters,
                                      uint8_t configuration[REAMERTAN_CONFIGURATION_BYTES])
{
    return CHOSEN(reamertan_write_configuration)(parameters, configuration);
}

extern __typeof__(reamertan_read_configuration) v2_reamertan_read_configuration, v3_reamertan_read_configuration;
void reamertan_read_configuration(const uint8_t configuration[REAMERTAN_CONFIGURATION_BYTES],
                                  struct reamertan_parameters *parameters)
{
    CHOSEN(reamertan_read_configuration)(configuration, parameters);
}

extern __typeof__(reamertan_check_configuration) v2_reamertan_check_configuration, v3_reamertan_check_configuration;
uint8_t reamertan_check_configuration(const uint8_t configuration[REAMERTAN_CONFIGURATION_BYTES])
{
    return CHOSEN(reamertan_check_configuration)(configuration);
}

extern __typeof__(reamertan_block_range) v2_reamertan_block_range, v3_reamertan_block_range;
uint8_t reamertan_block_range(const uint8_t configuration[REAMERTAN_CONFIGURATION_BYTES], uint8_t block,
                              struct reamertan_range *range)
{
    return CHOSEN(reamertan_block_range)(configuration, block, range);
}

extern __typeof__(reamertan_packets_length) v2_reamertan_packets_length, v3_reamertan_packets_length;
uint8_t reamertan_packets_length(const uint8_t configuration[REAMERTAN_CONFIGURATION_BYTES], uint32_t repair,
                                 uint64_t *length)
{
    return CHOSEN(reamertan_packets_length)(configuration, repair, length);
}

extern __typeof__(reamertan_encode) v2_reamertan_encode, v3_reamertan_encode;
uint8_t reamertan_encode(const uint8_t configuration[REAMERTAN_CONFIGURATION_BYTES], const uint8_t *object,
                         size_t object_length, uint32_t repair, uint8_t *packets, size_t packets_length)
{
    return CHOSEN(reamertan_encode)(configuration, object, object_length, repair, packets, packets_length);
}

extern __typeof__(reamertan_decode) v2_reamertan_decode, v3_reamertan_decode;
uint8_t reamertan_decode(const uint8_t configuration[REAMERTAN_CONFIGURATION_BYTES], const uint8_t *packets,
                         size_t packets_length, uint8_t *object, size_t object_length)
{
    return CHOSEN(reamertan_decode)(configuration, packets, packets_length, object, object_length);
}

extern __typeof__(reamertan_encoder_open) v2_reamertan_encoder_open, v3_reamertan_encoder_open;
uint8_t reamertan_encoder_open(reamertan_encoder **encoder, const uint8_t configuration[REAMERTAN_CONFIGURATION_BYTES],
                               const uint8_t *object, size_t object_length)
{
    return CHOSEN(reamertan_encoder_open)(encoder, configuration, object, object_length);
}

extern __typeof__(reamertan_encoder_write) v2_reamertan_encoder_write, v3_reamertan_encoder_write;
uint8_t reamertan_encoder_write(reamertan_encoder *encoder, uint8_t block, uint32_t first, uint32_t count,
                                uint8_t *packets, size_t packets_length)
{
    return CHOSEN(reamertan_encoder_write)(encoder, block, first, count, packets, packets_length);
}

extern __typeof__(reamertan_encoder_share) v2_reamertan_encoder_share, v3_reamertan_encoder_share;
uint8_t reamertan_encoder_share(reamertan_encoder *encoder, reamertan_encoder **twin)
{
    return CHOSEN(reamertan_encoder_share)(encoder, twin);
}

extern __typeof__(reamertan_encoder_close) v2_reamertan_encoder_close, v3_reamertan_encoder_close;
void reamertan_encoder_close(reamertan_encoder **encoder)
{
    CHOSEN(reamertan_encoder_close)(encoder);
}

extern __typeof__(reamertan_plan_open) v2_reamertan_plan_open, v3_reamertan_plan_open;
uint8_t reamertan_plan_open(reamertan_plan **plan, uint16_t source_symbols)
{
    return CHOSEN(reamertan_plan_open)(plan, source_symbols);
}

extern __typeof__(reamertan_plan_share) v2_reamertan_plan_share, v3_reamertan_plan_share;
uint8_t reamertan_plan_share(reamertan_plan *plan, reamertan_plan **twin)
{
    return CHOSEN(reamertan_plan_share)(plan, twin);
}

extern __typeof__(reamertan_plan_close) v2_reamertan_plan_close, v3_reamertan_plan_close;
void reamertan_plan_close(reamertan_plan **plan)
{
    CHOSEN(reamertan_plan_close)(plan);
}

extern __typeof__(reamertan_block_encoder_open) v2_reamertan_block_encoder_open, v3_reamertan_block_encoder_open;
uint8_t reamertan_block_encoder_open(reamertan_block_encoder **encoder, reamertan_plan *plan,
                                     const uint8_t configuration[REAMERTAN_CONFIGURATION_BYTES], uint8_t block,
                                     const uint8_t *bytes, size_t length)
{
    return CHOSEN(reamertan_block_encoder_open)(encoder, plan, configuration, block, bytes, length);
}

extern __typeof__(reamertan_block_encoder_write) v2_reamertan_block_encoder_write, v3_reamertan_block_encoder_write;
uint8_t reamertan_block_encoder_write(reamertan_block_encoder *encoder, uint32_t first, uint32_t count,
                                      uint8_t *packets, size_t packets_length)
{
    return CHOSEN(reamertan_block_encoder_write)(encoder, first, count, packets, packets_length);
}

extern __typeof__(reamertan_block_encoder_share) v2_reamertan_block_encoder_share, v3_reamertan_block_encoder_share;
uint8_t reamertan_block_encoder_share(reamertan_block_encoder *encoder, reamertan_block_encoder **twin)
{
    return CHOSEN(reamertan_block_encoder_share)(encoder, twin);
}

extern __typeof__(reamertan_block_encoder_close) v2_reamertan_block_encoder_close, v3_reamertan_block_encoder_close;
void reamertan_block_encoder_close(reamertan_block_encoder **encoder)
{
    CHOSEN(reamertan_block_encoder_close)(encoder);
}

extern __typeof__(reamertan_decoder_open) v2_reamertan_decoder_open, v3_reamertan_decoder_open;
uint8_t reamertan_decoder_open(reamertan_decoder **decoder, const uint8_t configuration[REAMERTAN_CONFIGURATION_BYTES])
{
    return CHOSEN(reamertan_decoder_open)(decoder, configuration);
}

extern __typeof__(reamertan_decoder_add_packet) v2_reamertan_decoder_add_packet, v3_reamertan_decoder_add_packet;
uint8_t reamertan_decoder_add_packet(reamertan_decoder *decoder, const uint8_t *packet, size_t packet_length,
                                     bool *completes)
{
    return CHOSEN(reamertan_decoder_add_packet)(decoder, packet, packet_length, completes);
}

extern __typeof__(reamertan_decoder_add_packets) v2_reamertan_decoder_add_packets, v3_reamertan_decoder_add_packets;
uint8_t reamertan_decoder_add_packets(reamertan_decoder *decoder, const uint8_t *packets, size_t packets_length)
{
    return CHOSEN(reamertan_decoder_add_packets)(decoder, packets, packets_length);
}

extern __typeof__(reamertan_decoder_is_complete) v2_reamertan_decoder_is_complete, v3_reamertan_decoder_is_complete;
bool reamertan_decoder_is_complete(reamertan_decoder *decoder)
{
    return CHOSEN(reamertan_decoder_is_complete)(decoder);
}

extern __typeof__(reamertan_decoder_missing) v2_reamertan_decoder_missing, v3_reamertan_decoder_missing;
uint8_t reamertan_decoder_missing(reamertan_decoder *decoder, uint8_t block, uint32_t *packets)
{
    return CHOSEN(reamertan_decoder_missing)(decoder, block, packets);
}

extern __typeof__(reamertan_decoder_write_block) v2_reamertan_decoder_write_block, v3_reamertan_decoder_write_block;
uint8_t reamertan_decoder_write_block(reamertan_decoder *decoder, uint8_t block, uint8_t *bytes, size_t length)
{
    return CHOSEN(reamertan_decoder_write_block)(decoder, block, bytes, length);
}

extern __typeof__(reamertan_decoder_write_object) v2_reamertan_decoder_write_object, v3_reamertan_decoder_write_object;
uint8_t reamertan_decoder_write_object(reamertan_decoder *decoder, uint8_t *object, size_t object_length)
{
    return CHOSEN(reamertan_decoder_write_object)(decoder, object, object_length);
}

extern __typeof__(reamertan_decoder_copy) v2_reamertan_decoder_copy, v3_reamertan_decoder_copy;
uint8_t reamertan_decoder_copy(reamertan_decoder *decoder, reamertan_decoder **twin)
{
    return CHOSEN(reamertan_decoder_copy)(decoder, twin);
}

extern __typeof__(reamertan_decoder_close) v2_reamertan_decoder_close, v3_reamertan_decoder_close;
void reamertan_decoder_close(reamertan_decoder **decoder)
{
    CHOSEN(reamertan_decoder_close)(decoder);
}

extern __typeof__(reamertan_block_decoder_open) v2_reamertan_block_decoder_open, v3_reamertan_block_decoder_open;
uint8_t reamertan_block_decoder_open(reamertan_block_decoder **decoder,
                                     const uint8_t configuration[REAMERTAN_CONFIGURATION_BYTES], uint8_t block,
                                     uint64_t length)
{
    return CHOSEN(reamertan_block_decoder_open)(decoder, configuration, block, length);
}

extern __typeof__(reamertan_block_decoder_add_packets) v2_reamertan_block_decoder_add_packets, v3_reamertan_block_decoder_add_packets;
uint8_t reamertan_block_decoder_add_packets(reamertan_block_decoder *decoder, const uint8_t *packets,
                                            size_t packets_length)
{
    return CHOSEN(reamertan_block_decoder_add_packets)(decoder, packets, packets_length);
}

extern __typeof__(reamertan_block_decoder_is_complete) v2_reamertan_block_decoder_is_complete, v3_reamertan_block_decoder_is_complete;
bool reamertan_block_decoder_is_complete(reamertan_block_decoder *decoder)
{
    return CHOSEN(reamertan_block_decoder_is_complete)(decoder);
}

extern __typeof__(reamertan_block_decoder_missing) v2_reamertan_block_decoder_missing, v3_reamertan_block_decoder_missing;
uint8_t reamertan_block_decoder_missing(reamertan_block_decoder *decoder, uint32_t *packets)
{
    return CHOSEN(reamertan_block_decoder_missing)(decoder, packets);
}

extern __typeof__(reamertan_block_decoder_write) v2_reamertan_block_decoder_write, v3_reamertan_block_decoder_write;
uint8_t reamertan_block_decoder_write(reamertan_block_decoder *decoder, uint8_t *bytes, size_t length)
{
    return CHOSEN(reamertan_block_decoder_write)(decoder, bytes, length);
}

extern __typeof__(reamertan_block_decoder_copy) v2_reamertan_block_decoder_copy, v3_reamertan_block_decoder_copy;
uint8_t reamertan_block_decoder_copy(reamertan_block_decoder *decoder, reamertan_block_decoder **twin)
{
    return CHOSEN(reamertan_block_decoder_copy)(decoder, twin);
}

extern __typeof__(reamertan_block_decoder_close) v2_reamertan_block_decoder_close, v3_reamertan_block_decoder_close;
void reamertan_block_decoder_close(reamertan_block_decoder **decoder)
{
    CHOSEN(reamertan_block_decoder_close)(decoder);
}
