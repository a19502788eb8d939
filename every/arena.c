/* malloc and free of the program: an arena for each thread, so that what one allocates doesn't depend on the others' schedule. A
 * block that is freed goes to the thread that freed it. Outside of runs malloc is the explorer's own, which never frees. */
#include "explorer.h"
#include <errno.h>
#include <stdlib.h>

/* Before each block its size, and of a freed one the next of its size. At the beginning of an arena the freed blocks by sizes, in
 * multiples of 16 up to 1024, and of each power of two above. */
typedef struct block { uint64_t size; struct block *next; } block;
enum { SMALL = 64, SIZES = SMALL + 16, HEAD = SIZES * sizeof(block *) };
typedef struct { block *freed[SIZES]; } arena_head;

static arena_head *arena_of(int number) { return (arena_head *)(E->arena + (size_t)number * ARENA_BYTES); }

static int class_of(uint64_t *size)
{
    *size = (*size + 15) & ~15ull;
    if (*size <= 16 * SMALL)
        return *size ? (int)(*size / 16) - 1 : 0;
    int class = SMALL;
    uint64_t power = 16 * SMALL * 2;
    for (; power < *size && class < SIZES - 1; power *= 2)
        class++;
    *size = power;
    return class;
}

static void *own_block(size_t size)
{
    static char *next, *end;
    size = ((size + 15) & ~15ul) + sizeof(block);
    if ((size_t)(end - next) < size) {
        size_t chunk = size > 1 << 20 ? size : 1 << 20;
        next = own_memory(chunk);
        end = next + chunk;
    }
    block *made = (block *)next;
    next += size;
    made->size = size - sizeof(block);
    return made + 1;
}

void *malloc(size_t wanted)
{
    uint64_t size = wanted ? wanted : 1;
    if (!E || !E->running)
        return own_block(size);
    arena_head *arena = arena_of(R.me);
    int class = class_of(&size);
    block *found = arena->freed[class];
    if (found) {
        arena->freed[class] = found->next;
        found->next = NULL;
        return found + 1;
    }
    size_t *used = &R.used[R.me];
    *used = *used ? *used : HEAD;
    if (*used + sizeof(block) + size > ARENA_BYTES) {
        errno = ENOMEM;
        return NULL;
    }
    found = (block *)((char *)arena + *used);
    *used += sizeof(block) + size;
    found->size = size;
    return found + 1;
}

void free(void *at)
{
    if (!at || !E || !E->running || !is_programs((uintptr_t)at))
        return;
    block *of = (block *)at - 1;
    uint64_t size = of->size;
    arena_head *arena = arena_of(R.me);
    R.used[R.me] = R.used[R.me] ? R.used[R.me] : HEAD;
    touch(at, size, true, false, (uintptr_t)__builtin_return_address(0));
    clear_bytes(at, size);
    int class = class_of(&size);
    of->next = arena->freed[class];
    arena->freed[class] = of;
}

void *calloc(size_t count, size_t size)
{
    if (size && count > (size_t)-1 / size)
        return NULL;
    void *made = malloc(count * size);
    if (made)
        clear_bytes(made, count * size);
    return made;
}

void *realloc(void *at, size_t size)
{
    void *made = malloc(size);
    if (at && made) {
        uint64_t had = ((block *)at - 1)->size;
        copy_bytes(made, at, had < size ? had : size);
        free(at);
    }
    return made;
}

void *aligned_alloc(size_t alignment, size_t size)
{
    if (alignment > 16)
        stop(2, "the program asks for memory aligned to %zu bytes; the arena has 16", alignment);
    return malloc(size);
}

int posix_memalign(void **at, size_t alignment, size_t size)
{
    *at = aligned_alloc(alignment, size);
    return *at ? 0 : ENOMEM;
}
