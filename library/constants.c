/* The calls that answer constants, for programs in languages that read no header. Nothing proves these lines. `install`
 * compiles them for any processor of the architecture, and names in REAMERTAN_PROCESSOR the one of the library. Where there are
 * several builds in it, library/choose.c says which one runs. */
#include "reamertan.h"

#ifdef REAMERTAN_PROCESSOR
const char *reamertan_processor(void)
{
    return REAMERTAN_PROCESSOR;
}
#endif

/* The cases are made by errors/make_lists. There is no `default`, so that a compiler warns where an answer has no text. */
const char *reamertan_answer_text(uint8_t answer)
{
    switch ((enum reamertan_answer)answer) {
    case REAMERTAN_DONE: return "done";
    case REAMERTAN_TRANSFER_TOO_LONG: return "the object is too long";
    case REAMERTAN_ALIGNMENT_ZERO: return "the symbol alignment is 0";
    case REAMERTAN_MISALIGNED: return "the symbol alignment doesn't divide the symbol size";
    case REAMERTAN_TOO_MANY_SYMBOLS: return "a source block has more than 56403 symbols";
    case REAMERTAN_SYMBOL_SIZE_ZERO: return "the symbol size is 0";
    case REAMERTAN_SOURCE_BLOCKS_ZERO: return "the number of source blocks is 0";
    case REAMERTAN_BLOCK_OVER_TABLE: return "a source block has more symbols than the table's greatest row";
    case REAMERTAN_WRONG_DATA_LENGTH: return "the object has another length than its configuration says";
    case REAMERTAN_SINGULAR: return "a row of the table doesn't determine the intermediate symbols";
    case REAMERTAN_PLAN_MISMATCH: return "the plan is of other blocks";
    case REAMERTAN_ESI_TOO_LARGE: return "an encoding symbol id is above 16777215";
    case REAMERTAN_PACKET_TOO_SHORT: return "a packet is shorter than its payload id";
    case REAMERTAN_WRONG_PAYLOAD_SIZE: return "a packet's payload has another length than a symbol";
    case REAMERTAN_UNKNOWN_BLOCK: return "the object has no such source block";
    case REAMERTAN_PACKET_SIZE_ZERO: return "the packet size is 0";
    case REAMERTAN_TRANSFER_LENGTH_ZERO: return "the object's length is 0";
    case REAMERTAN_MEMORY_REQUIREMENT_TOO_SMALL: return "no row of the table fits the decoder's memory";
    case REAMERTAN_TOO_MANY_BLOCKS: return "the object would need more than 255 source blocks";
    case REAMERTAN_OUT_OF_MEMORY: return "there is no memory";
    case REAMERTAN_CONTRADICTION: return "packets of a source block contradict each other";
    case REAMERTAN_WRONG_BUFFER: return "the buffer has another length than what is to be written";
    case REAMERTAN_INCOMPLETE: return "the packets don't determine it";
    }
    return "no answer of this version";
}
