/* What a call of the checked library is given: its pointers, as the lines of calls.h list them. */
#ifndef CCAN_CHECKED_ARGUMENT_H
#define CCAN_CHECKED_ARGUMENT_H
#include <ccan.h>

/* The number of a call, from 1 on. */
enum call {
    CALL_NONE,
#define CALL(result, name, ...) CALL_##name,
#include "calls.h"
    CALL_COUNT
};

/* Which handle of a chip one is, or only that it is a host's. */
enum port { PORT_HOST, PORT_IF1, PORT_IF2, PORT_BUS };

enum kind { KIND_END, KIND_HOST, KIND_BUS, KIND_CHIP, KIND_NOTE, KIND_READ, KIND_WRITTEN };

/* A pointer that a call is given. */
struct argument {
    enum kind kind;
    enum port port;   /* with KIND_HOST and KIND_BUS: what is known of the handle; found out when it is entered */
    const char *name; /* as in calls.h */
    uintptr_t at;
    size_t bytes;     /* how many are there, 0 where nothing is read or written */
    size_t alignment;
};

#define ARGUMENT(kind, port, pointer, count) \
    { kind, port, #pointer, (uintptr_t)(pointer), (count) * sizeof *(pointer), __alignof__(*(pointer)) },
#define HOST(host) ARGUMENT(KIND_HOST, PORT_HOST, host, 1)
#define BUS(bus) ARGUMENT(KIND_BUS, PORT_BUS, bus, 1)
#define CHIP(chip) ARGUMENT(KIND_CHIP, PORT_HOST, chip, 1)
#define CHIPS(chips, count) ARGUMENT(KIND_CHIP, PORT_HOST, chips, count)
#define NOTE(note) ARGUMENT(KIND_NOTE, PORT_HOST, note, 1)
#define READS(from, count) ARGUMENT(KIND_READ, PORT_HOST, from, count)
#define WRITES(to, count) ARGUMENT(KIND_WRITTEN, PORT_HOST, to, count)
#define END { KIND_END, PORT_HOST, NULL, 0, 0, 1 }

/* Where a chip has the handle of a port, in bytes from its beginning. */
static inline size_t port_offset(enum port port)
{
    switch (port) {
    case PORT_HOST:
    case PORT_IF1: return offsetof(ccan_chip, if1);
    case PORT_IF2: return offsetof(ccan_chip, if2);
    case PORT_BUS: return offsetof(ccan_chip, bus);
    }
    return 0;
}

#endif
