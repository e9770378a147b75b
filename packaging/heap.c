/* What the library asks of the C library's heap: memory, more or less of it, and its end. Rattle's
 * compiler calls these by these names (`libc::heap` of the toolchain says what each owes). */
#include <stdbool.h>
#include <stddef.h>
#include <stdlib.h>

/* What is asked for has an alignment of at most 16, which malloc's memory has. */
_Static_assert(_Alignof(max_align_t) >= 16, "malloc's memory is aligned to less than 16 bytes");

/* Whether there is memory, and where. Where there is none it is an address that nobody uses. */
struct tried {
    bool granted;
    void *memory;
};

static char nowhere;

static struct tried tried(void *memory)
{
    return (struct tried){memory != NULL, memory != NULL ? memory : &nowhere};
}

/* Blocks of no bytes have an address of their alignment too. */
static size_t asked(size_t bytes, size_t alignment)
{
    return bytes != 0 ? bytes : alignment;
}

struct tried rattle_alloc(size_t bytes, size_t alignment)
{
    return tried(malloc(asked(bytes, alignment)));
}

struct tried rattle_realloc(void *memory, size_t kept, size_t bytes, size_t alignment)
{
    (void)kept;
    return tried(realloc(memory, asked(bytes, alignment)));
}

void rattle_dealloc(void *memory)
{
    free(memory);
}
