/* The functions by which the library takes memory, for ARM: the toolchain has them for x86-64 alone. Nothing proves these
   lines. They do what its own do: over malloc, realloc and free, where a request of no bytes takes `align` bytes. The
   answer comes back in two registers: whether there is memory, and where. */
#include <stddef.h>
#include <stdlib.h>

struct taken {
    size_t is_there;
    void *block;
};

static char nothing;

static struct taken taken(void *block) {
    struct taken answer = {block != NULL, block != NULL ? block : &nothing};
    return answer;
}

struct taken rattle_alloc(size_t size, size_t align) {
    return taken(malloc(size != 0 ? size : align));
}

struct taken rattle_realloc(void *block, size_t old_size, size_t size, size_t align) {
    (void)old_size;
    return taken(realloc(block, size != 0 ? size : align));
}

void rattle_dealloc(void *block) {
    free(block);
}
