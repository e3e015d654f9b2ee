/* The `main` of a program, which calls that of the greatest build that is linked in (REAMERTAN_V2, REAMERTAN_V3) and that this
 * machine's processor has. Nothing proves these lines. */
#include <malloc.h>
#include <stdio.h>

#include "processor.h"

int v2_main(int count, char **words, char **settings);
int v3_main(int count, char **words, char **settings);

int main(int count, char **words, char **settings)
{
    int level = processor_level();
    /* Blocks come and go: else their memory would go back to the system each time, which takes a seventh of receiving. */
    mallopt(M_MMAP_THRESHOLD, 32 << 20);
    mallopt(M_TRIM_THRESHOLD, 64 << 20);
#ifdef REAMERTAN_V3
    if (level >= 3)
        return v3_main(count, words, settings);
#endif
#ifdef REAMERTAN_V2
    if (level >= 2)
        return v2_main(count, words, settings);
#endif
    fprintf(stderr, "%s: this machine lacks the processor that it was built for (it has x86-64-v%d)\n", count > 0 ? words[0] : "?", level);
    return 127;
}
