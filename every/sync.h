/* What the objects by which threads wait for each other are made of. */
#ifndef SYNC_H
#define SYNC_H
#include "explorer.h"
#include <time.h>

/* What is known of an object stands in its own first words, so it is memory that threads share like any other. All zero is one
 * that is free, as the initializers make it. */
typedef struct { uint32_t first, second; } words;
static inline words *words_of(const void *object) { return (words *)(uintptr_t)object; }

/* The words of what a thread waits for. */
static inline words *awaited(const thread *of) { return words_of(of->about); }

#define PC ((uintptr_t)__builtin_return_address(0))

/* A step at an object, when `may` lets it. */
static inline void step_at(const void *object, condition *may, uintptr_t pc) { touch_when(object, sizeof(words), pc, may); }

/* A step at an object for which a thread waits until this time: when `may` lets it, or when the time is up, whenever that is.
 * Whether it came in time. If it never comes in time there is only the other way. */
bool step_in_time(const void *object, condition *may, const struct timespec *until, uintptr_t pc);
#endif
