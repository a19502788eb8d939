#include "table.h"
#include "sanitizer.h"

/* The program orders the calls on one handle (promise 4). Under the thread sanitizer the table adds nothing to that order, so the
 * sanitizer reports two calls on one handle that the program does not order. */
#if FOR_THREAD_SANITIZER
#define ENTERING memory_order_relaxed
#define LEAVING memory_order_relaxed
#else
#define ENTERING memory_order_acquire
#define LEAVING memory_order_release
#endif

/* A handle stands in one of this many places, the first of which its hash gives. */
enum { REACH = 256 };
_Static_assert((CCAN_CHECKED_PLACES & (CCAN_CHECKED_PLACES - 1)) == 0 && CCAN_CHECKED_PLACES >= REACH, "places");
_Static_assert(CALL_COUNT <= 1 << 16, "the number of a call fits its place in a user's number");

/* The addresses of the handles, 0 where a place has none. They lie apart from the places, since these change with each call. */
static _Atomic uintptr_t handles[CCAN_CHECKED_PLACES];
static struct place places[CCAN_CHECKED_PLACES];

/* A user as an odd number: the thread in the upper half, then the call, then whether it takes the whole chip. */
static uint64_t number_of(const struct user *user)
{
    return (uint64_t)user->thread << 32 | (uint64_t)user->call << 2 | (uint64_t)user->whole_chip << 1 | 1;
}

static struct user user_of(uint64_t number)
{
    return (struct user){ (uint32_t)(number >> 32), (enum call)(number >> 2 & 0xffff), (number & 2) != 0 };
}

/* The index of the place at a distance from the first one of a handle. */
static size_t place_at(uintptr_t handle, size_t distance)
{
    uint64_t hash = (uint64_t)(handle >> 3) * 0x9e3779b97f4a7c15u;
    return (size_t)((hash >> 40) + distance) & (CCAN_CHECKED_PLACES - 1);
}

/* The place where a handle stands, NULL where it stands in none. */
static struct place *place_of(uintptr_t handle)
{
    for (size_t distance = 0; distance < REACH; distance++) {
        size_t at = place_at(handle, distance);
        if (atomic_load_explicit(&handles[at], memory_order_relaxed) == handle)
            return &places[at];
    }
    return NULL;
}

static void free_place(size_t at)
{
    places[at].open = false;
    atomic_store_explicit(&places[at].insides, NULL, memory_order_relaxed);
    atomic_store_explicit(&handles[at], 0, memory_order_relaxed);
    atomic_store_explicit(&places[at].use, 0, memory_order_release);
}

/* Whether a handle stands in a place other than this one. Where two threads give one handle a place at the same time, neither
 * has found one before. So each looks again afterwards, and at least one of them finds the other's place. */
static bool stands_elsewhere(uintptr_t handle, size_t here)
{
    for (size_t distance = 0; distance < REACH; distance++) {
        size_t at = place_at(handle, distance);
        if (at != here && atomic_load_explicit(&handles[at], memory_order_seq_cst) == handle)
            return true;
    }
    return false;
}

enum placing { PLACED, PLACED_BY_ANOTHER, PLACED_NOWHERE };

/* Gives a handle that has no place a free one, with this user in it. */
static enum placing give_place(uintptr_t handle, enum port port, const struct user *user, struct place **out)
{
    for (size_t distance = 0; distance < REACH; distance++) {
        size_t at = place_at(handle, distance);
        uint64_t nobody = 0;
        if (atomic_load_explicit(&places[at].use, memory_order_relaxed) != 0
            || !atomic_compare_exchange_strong_explicit(&places[at].use, &nobody, number_of(user), memory_order_acquire,
                memory_order_relaxed))
            continue;
        atomic_store_explicit(&places[at].port, (uint8_t)port, memory_order_relaxed);
        atomic_store_explicit(&handles[at], handle, memory_order_seq_cst);
        if (stands_elsewhere(handle, at)) {
            free_place(at);
            return PLACED_BY_ANOTHER;
        }
        *out = &places[at];
        return PLACED;
    }
    return PLACED_NOWHERE;
}

enum entry table_enter(uintptr_t handle, enum port port, const struct user *user, struct found *out)
{
    for (;;) {
        struct place *place = place_of(handle);
        if (place == NULL) {
            switch (give_place(handle, port, user, &out->place)) {
            case PLACED: return ENTERED;
            case PLACED_NOWHERE: return NO_ROOM;
            case PLACED_BY_ANOTHER: continue;
            }
        }
        uint64_t use = handle;
        if (atomic_compare_exchange_strong_explicit(&place->use, &use, number_of(user), ENTERING, memory_order_relaxed)) {
            out->place = place;
            return ENTERED;
        }
        /* A call is in the handle, if it still stands there. Otherwise its place was freed meanwhile. */
        out->port = (enum port)atomic_load_explicit(&place->port, memory_order_relaxed);
        if ((use & 1) != 0 && place_of(handle) == place) {
            out->other = user_of(use);
            return IN_USE;
        }
    }
}

void table_leave(uintptr_t handle, bool open, const void *insides)
{
    struct place *place = place_of(handle);
    if (!open) {
        free_place((size_t)(place - places));
        return;
    }
    place->open = true;
    atomic_store_explicit(&place->insides, insides, memory_order_relaxed);
    atomic_store_explicit(&place->use, handle, LEAVING);
}

enum port table_port(uintptr_t handle, enum port otherwise)
{
    struct place *place = place_of(handle);
    return place == NULL ? otherwise : (enum port)atomic_load_explicit(&place->port, memory_order_relaxed);
}

uintptr_t table_look_for(const void *insides, enum port *out)
{
    for (size_t at = 0; at < CCAN_CHECKED_PLACES; at++) {
        uintptr_t handle = atomic_load_explicit(&handles[at], memory_order_relaxed);
        if (handle != 0 && atomic_load_explicit(&places[at].insides, memory_order_relaxed) == insides) {
            *out = (enum port)atomic_load_explicit(&places[at].port, memory_order_relaxed);
            return handle;
        }
    }
    return 0;
}
