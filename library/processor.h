/* What this processor has, for the lines that choose a build. Nothing proves them. They are compiled for any processor of the
 * architecture, and by what gcc and clang both know: cpuid.h. */
#ifndef REAMERTAN_PROCESSOR_H
#define REAMERTAN_PROCESSOR_H

#include <cpuid.h>
#include <stdbool.h>

#define EXTENDED_FEATURES 0x80000001u

enum {
    /* What x86-64-v2 and x86-64-v3 ask for, by the leaves of CPUID: 1, 7 and the extended one. */
    V2_FIRST = bit_SSE3 | bit_SSSE3 | bit_CMPXCHG16B | bit_SSE4_1 | bit_SSE4_2 | bit_POPCNT,
    V2_EXTENDED = bit_LAHF_LM,
    V3_FIRST = bit_FMA | bit_MOVBE | bit_OSXSAVE | bit_AVX | bit_F16C,
    V3_SEVENTH = bit_BMI | bit_AVX2 | bit_BMI2,
    V3_EXTENDED = bit_LZCNT,
    /* The registers that the system saves: XMM and YMM. */
    SAVED = 6
};

static bool has_all(unsigned found, unsigned wanted)
{
    return (found & wanted) == wanted;
}

/* Whether the system saves vectors of 32 bytes. Asked only where there is XGETBV, which OSXSAVE says. */
static bool saves_vectors(void)
{
    unsigned low, high;
    __asm__ volatile("xgetbv" : "=a"(low), "=d"(high) : "c"(0));
    return has_all(low, SAVED);
}

/* 3 where the processor has x86-64-v3, 2 where it has x86-64-v2, and else 1. */
static int processor_level(void)
{
    unsigned a, b, d, unused, first = 0, seventh = 0, extended = 0;
    if (!__get_cpuid(1, &a, &b, &first, &d) || !__get_cpuid(EXTENDED_FEATURES, &a, &b, &extended, &d) ||
        !has_all(first, V2_FIRST) || !has_all(extended, V2_EXTENDED))
        return 1;
    if (!has_all(first, V3_FIRST) || !has_all(extended, V3_EXTENDED) || !__get_cpuid_count(7, 0, &a, &seventh, &unused, &d) ||
        !has_all(seventh, V3_SEVENTH) || !saves_vectors())
        return 2;
    return 3;
}

#endif
