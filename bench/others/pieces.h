// What codes that are compared have to do: from K source pieces of each block to make those from K to N - 1, and from K or
// more of the N to get lost source pieces back. bench/rivals says what is compared.
#ifndef PIECES_H
#define PIECES_H

#include <stdbool.h>
#include <stddef.h>
#include <stdint.h>

struct work {
    uint32_t source, pieces, size, blocks; // K, N, bytes of a source piece, blocks
};

// What each code defines. A piece has so many bytes before its symbol; source pieces are made of the object by `label`.
extern const size_t HEADER;
void label(const struct work *work, uint32_t block, uint32_t piece, uint8_t *header);

// Makes ready for `encode`, or for `decode`. What it takes counts as work.
void begin(const struct work *work, bool encodes);

// Fills the pieces behind the source pieces of a block, which lie one behind another.
void encode(const struct work *work, uint32_t block, const uint8_t *source, uint8_t *repair);

// Fills the lost source pieces of a block into `source`, which has the others: whether it can. Lost pieces mayn't be read.
bool decode(const struct work *work, uint32_t block, const uint8_t *pieces, const bool *lost, uint8_t *source);

// Memory of zeros, or none and the program's end.
void *take(size_t bytes);

// Ends the program with 1 where something isn't so.
void must(bool is_so, const char *what);

#endif
