// The time that sums of random symbols take, for a block that fits a cache and for one that doesn't.
//
//     cc -O3 -march=x86-64-v2 bench/sums.c -o sums
//     ./sums SYMBOLS TIMES SUMS     each symbol takes SUMS others, up to eight in one pass, TIMES over
//
// Prints the least nanoseconds a symbol, and an octet, so that the sums are made.
#define _POSIX_C_SOURCE 199309L
#include <emmintrin.h>
#include <stdint.h>
#include <stdio.h>
#include <stdlib.h>
#include <string.h>
#include <time.h>

#define SIZE 1280

static inline void add(uint8_t *dest, uint8_t **sources, int count) {
    for (int at = 0; at < SIZE; at += 16) {
        __m128i sum = _mm_loadu_si128((void *)(dest + at));
        for (int i = 0; i < count; i++) sum = _mm_xor_si128(sum, _mm_loadu_si128((void *)(sources[i] + at)));
        _mm_storeu_si128((void *)(dest + at), sum);
    }
}

// Where their number is known, no loop over the sources is left in the pass.
#define CASE(n) case n: add(dest, sources, n); break;
static void add_some(uint8_t *dest, uint8_t **sources, int count) {
    switch (count) { CASE(1) CASE(2) CASE(3) CASE(4) CASE(5) CASE(6) CASE(7) CASE(8) }
}

static void add_all(uint8_t *bytes, const uint32_t *chosen, size_t symbols, int sums) {
    for (size_t symbol = 0; symbol < symbols; symbol++, chosen += sums) {
        uint8_t *sources[8];
        for (int done = 0; done < sums; done += 8) {
            int count = sums - done < 8 ? sums - done : 8;
            for (int i = 0; i < count; i++) sources[i] = bytes + (size_t)chosen[done + i] * SIZE;
            add_some(bytes + symbol * SIZE, sources, count);
        }
    }
}

static double now(void) {
    struct timespec time;
    clock_gettime(CLOCK_MONOTONIC, &time);
    return time.tv_sec * 1e9 + time.tv_nsec;
}

int main(int count, char **words) {
    int is_help = count == 2 && (strcmp(words[1], "--help") == 0 || strcmp(words[1], "-h") == 0);
    size_t symbols = count == 4 ? strtoul(words[1], NULL, 10) : 0;
    int times = count == 4 ? atoi(words[2]) : 0, sums = count == 4 ? atoi(words[3]) : 0;
    if (symbols == 0 || times < 1 || sums < 1) {
        fputs("usage: sums SYMBOLS TIMES SUMS\n", is_help ? stdout : stderr);
        return is_help ? 0 : 2;
    }
    uint8_t *bytes = malloc(symbols * SIZE);
    uint32_t *chosen = malloc(symbols * sums * sizeof *chosen);
    if (!bytes || !chosen) return 1;
    memset(bytes, 1, symbols * SIZE);
    uint64_t x = 42;
    for (size_t i = 0; i < symbols * sums; i++) {
        x = x * 6364136223846793005u + 1442695040888963407u;
        chosen[i] = (x >> 33) % symbols;
    }
    double least = 1e30;
    for (int time = 0; time < times; time++) {
        double start = now();
        add_all(bytes, chosen, symbols, sums);
        double each = (now() - start) / symbols;
        if (each < least) least = each;
    }
    printf("%.0f (%d)\n", least, bytes[x % (symbols * SIZE)]);
    return 0;
}
