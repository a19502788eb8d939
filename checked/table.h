/* The table of the handles: which call is in which. It lies beside the chips, and has no lock.
 *
 * A handle stands in the table while it is open, and while a call is in it. So calls on closed handles are watched too, and
 * nothing is left of a chip that has ended.
 *
 * Each place of the table has a word that says who uses it. One compare-and-exchange of that word enters the handle, so no two
 * calls enter it. Only the call that is in a handle changes the place of that handle. */
#ifndef CCAN_CHECKED_TABLE_H
#define CCAN_CHECKED_TABLE_H
#include "argument.h"
#include <stdatomic.h>

/* How many handles have room, a power of 2. With 16384, four thousand chips can be open at once. */
#ifndef CCAN_CHECKED_PLACES
#define CCAN_CHECKED_PLACES 16384
#endif

/* Who is in a call: the number of the thread, as gettid gives it, the call, and whether it takes the whole chip. */
struct user {
    uint32_t thread;
    enum call call;
    bool whole_chip;
};

struct place {
    /* 0: the place is free. An even number: the address of the handle that stands here, and no call is in it. An odd number: a
     * call is in it, of the user that this number says. */
    _Alignas(64) _Atomic uint64_t use;
    _Atomic uint8_t port;          /* an enum port */
    _Atomic(const void *) insides; /* what the handle held when it was last left, NULL where it was closed */
    bool open;                     /* whether it was open then; not atomic, so the thread sanitizer watches it */
};

enum entry { ENTERED, IN_USE, NO_ROOM };

/* What is found on entering a handle. */
struct found {
    struct place *place; /* with ENTERED: where the handle stands */
    struct user other;   /* with IN_USE: who is in it */
    enum port port;      /* with IN_USE: which handle it is */
};

/* Enters a handle for a user. NO_ROOM: the handle is not in the table, and the table is full. */
enum entry table_enter(uintptr_t handle, enum port port, const struct user *user, struct found *out);

/* Leaves a handle that was entered. It stays in the table where it is open. */
void table_leave(uintptr_t handle, bool open, const void *insides);

/* Which handle the one at this address is, where it stands in the table; else what is given. */
enum port table_port(uintptr_t handle, enum port otherwise);

/* The address of an open handle that holds these insides, and its port; 0 where there is none. */
uintptr_t table_look_for(const void *insides, enum port *out);

#endif
