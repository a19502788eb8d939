#include "notes.h"
#include <stdatomic.h>
#include <stddef.h>

/* How many notes can be told at once, a power of 2, and in how many places one may stand. */
enum { NOTES = 4096, REACH = 64 };

/* A note stands in one place while it tells something. Only the call that has the note changes that place. */
static struct { _Atomic(const void *) block; _Atomic uintptr_t chip; } notes[NOTES];

static size_t place_at(const void *block, size_t distance)
{
    uint64_t hash = (uint64_t)((uintptr_t)block >> 4) * 0x9e3779b97f4a7c15u;
    return (size_t)((hash >> 40) + distance) & (NOTES - 1);
}

void notes_keep(const void *block, uintptr_t chip)
{
    for (size_t distance = 0; distance < REACH; distance++) {
        size_t at = place_at(block, distance);
        const void *nothing = NULL;
        if (!atomic_compare_exchange_strong_explicit(&notes[at].block, &nothing, block, memory_order_relaxed, memory_order_relaxed))
            continue;
        atomic_store_explicit(&notes[at].chip, chip, memory_order_relaxed);
        return;
    }
}

uintptr_t notes_chip(const void *block)
{
    for (size_t distance = 0; distance < REACH; distance++) {
        size_t at = place_at(block, distance);
        if (atomic_load_explicit(&notes[at].block, memory_order_relaxed) == block)
            return atomic_load_explicit(&notes[at].chip, memory_order_relaxed);
    }
    return 0;
}

void notes_drop(const void *block)
{
    for (size_t distance = 0; distance < REACH; distance++) {
        size_t at = place_at(block, distance);
        if (atomic_load_explicit(&notes[at].block, memory_order_relaxed) == block) {
            atomic_store_explicit(&notes[at].chip, 0, memory_order_relaxed);
            atomic_store_explicit(&notes[at].block, NULL, memory_order_relaxed);
            return;
        }
    }
}
