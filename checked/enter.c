#define _GNU_SOURCE
#include "enter.h"
#include "notes.h"
#include "report.h"
#include "sanitizer.h"
#include <pthread.h>
#include <string.h>
#include <sys/stat.h>
#include <time.h>
#include <unistd.h>

/* What this thread does. */
static _Thread_local struct {
    uint32_t thread;   /* its number, 0 before its first call */
    enum call call;    /* the call that it is in, CALL_NONE where it is in none */
    struct subject on; /* the first handle or chip of that call */
    bool several;      /* whether the process had several threads when this thread called fork */
    const void *block; /* what the note of that call told before it, NULL for nothing */
} self;

/* ---- forks (promise 6) */

/* Whether this process is the child of a fork of a process with several threads. */
static bool forked;

/* The thread sanitizer, where the program has it, runs a thread of its own. */
extern void __tsan_init(void) __attribute__((weak));

static bool has_several_threads(void)
{
    struct stat threads;
    /* A link for the folder's name, one for the folder itself, and one for each thread. */
    nlink_t of_one_thread = __tsan_init == NULL ? 3 : 4;
    return stat("/proc/self/task", &threads) == 0 && threads.st_nlink > of_one_thread;
}

/* A thread that was joined may still be counted for a short time, so this waits for it: at most 20 milliseconds. */
static void before_fork(void)
{
    const struct timespec moment = { 0, 1000000 };
    self.several = has_several_threads();
    for (int times = 0; self.several && times < 20; times++) {
        nanosleep(&moment, NULL);
        self.several = has_several_threads();
    }
}

static void in_child(void)
{
    forked = forked || self.several;
    self.thread = 0;
}

__attribute__((constructor)) static void watch_forks(void) { pthread_atfork(before_fork, NULL, in_child); }

/* ---- pointers (promise 5) */

static void check_pointer(const struct user *user, const struct argument *argument)
{
    if (argument->at == 0 || (argument->at & (argument->alignment - 1)) != 0)
        report_pointer(user, argument);
}

static bool is_written(const struct argument *argument) { return argument->kind == KIND_WRITTEN || argument->kind == KIND_NOTE; }
static bool is_data(const struct argument *argument) { return argument->kind == KIND_READ || is_written(argument); }

/* Where the memory of an argument begins, and how many bytes it has: for a handle those of its chip, if it is known which. */
static uintptr_t memory_of(const struct argument *argument, size_t *bytes)
{
    bool is_handle = argument->kind == KIND_HOST || argument->kind == KIND_BUS;
    if (!is_handle || argument->port == PORT_HOST) {
        *bytes = argument->bytes;
        return argument->at;
    }
    *bytes = sizeof(ccan_chip);
    return argument->at - port_offset(argument->port);
}

/* Two handles may be of one chip, so at least one of the two is data. */
static void check_apart(const struct user *user, const struct argument *one, const struct argument *other)
{
    if (!is_data(one) && !is_data(other))
        return;
    size_t one_bytes, other_bytes;
    uintptr_t one_at = memory_of(one, &one_bytes), other_at = memory_of(other, &other_bytes);
    if (one_bytes != 0 && other_bytes != 0 && one_at < other_at + other_bytes && other_at < one_at + one_bytes)
        report_overlap(user, one, other);
}

/* Reads what the call reads, and writes what it writes, without a change. The sanitizers do not see what the proved library does,
 * so it is here that they find a pointer to no memory, or to memory that another thread uses. */
static void touch(const struct argument *argument)
{
    volatile unsigned char *bytes = (volatile unsigned char *)argument->at;
    for (size_t i = 0; i < argument->bytes; i++) {
        unsigned char byte = bytes[i];
        if (is_written(argument))
            bytes[i] = byte;
    }
}

/* ---- handles (promises 1, 2 and 3) */

/* What a handle holds. Both kinds of handles hold the same. */
struct held {
    unsigned char first; /* 0: closed, 1: open */
    const void *insides;
};

static struct held held_by(uintptr_t handle)
{
    struct held held;
    memcpy(&held.first, (const char *)handle + offsetof(ccan_host, ccan_private_full), 1);
    memcpy(&held.insides, (const char *)handle + offsetof(ccan_host, ccan_private_at), sizeof held.insides);
    return held;
}

/* Whether a handle of this port is what a call takes. */
static bool fits(enum port port, enum port wanted) { return port == wanted || (wanted == PORT_HOST && port != PORT_BUS); }

static void know_port(struct place *place, enum port port)
{
    atomic_store_explicit(&place->port, (uint8_t)port, memory_order_relaxed);
}

/* Compares what a handle holds with what it held when it was last left, and returns which handle it is, as far as that is known.
 * If it is closed, what the table knows may be old: of a chip that was let go without ccan_end (promise 7). */
static enum port check_held(const struct user *user, uintptr_t handle, enum port wanted, struct place *place)
{
    struct held held = held_by(handle);
    enum port known = (enum port)atomic_load_explicit(&place->port, memory_order_relaxed);
    struct subject subject = { handle, known, false };
    if (held.first == 0) {
        place->open = false;
        know_port(place, wanted);
        return wanted;
    }
    if (held.first != 1)
        report_no_chip(user, subject, held.first);
    if (!place->open)
        report_moved(user, subject, held.insides);
    if (held.insides != atomic_load_explicit(&place->insides, memory_order_relaxed))
        report_changed(user, subject);
    if (!fits(known, wanted))
        report_wrong_port(user, subject, wanted);
    return known;
}

/* Enters a handle, and returns which handle it is, as far as that is known. */
static enum port enter_handle(const struct user *user, uintptr_t handle, enum port port)
{
    struct found found;
    switch (table_enter(handle, port, user, &found)) {
    case ENTERED: return check_held(user, handle, port, found.place);
    case IN_USE: report_in_use(user, (struct subject){ handle, user->whole_chip ? port : found.port, false }, &found.other);
    case NO_ROOM: report_no_room(user, (struct subject){ handle, port, false });
    }
    return port;
}

static void leave_handle(uintptr_t handle)
{
    struct held held = held_by(handle);
    table_leave(handle, held.first == 1, held.insides);
}

/* ---- notes (promise 8) */

/* What a note leads to, NULL where it is empty. */
static const void *block_of(uintptr_t note)
{
    ccan_note told;
    memcpy(&told, (const void *)note, sizeof told);
    return told.ccan_private_full ? told.ccan_private_at : NULL;
}

/* Where the chip of a call's open handle begins; 0 where it is closed, or where it is not known which handle that is. */
static uintptr_t chip_of(const struct argument *arguments)
{
    bool is_handle = arguments->kind == KIND_HOST || arguments->kind == KIND_BUS;
    if (!is_handle || arguments->port == PORT_HOST || held_by(arguments->at).first != 1)
        return 0;
    return arguments->at - port_offset(arguments->port);
}

static void enter_note(const struct user *user, const struct argument *arguments, const struct argument *note)
{
    self.block = block_of(note->at);
    if (self.block == NULL || (user->call != CALL_ccan_heed && user->call != CALL_ccan_bus_heed))
        return;
    uintptr_t chip = chip_of(arguments), told_by = notes_chip(self.block);
    if (chip != 0 && told_by != 0 && chip != told_by)
        report_other_chip(user, (struct subject){ arguments->at, arguments->port, false }, told_by);
}

static void leave_note(const struct argument *arguments, const struct argument *note)
{
    const void *block = block_of(note->at);
    if (block == self.block)
        return;
    if (self.block != NULL)
        notes_drop(self.block);
    if (block != NULL && chip_of(arguments) != 0)
        notes_keep(block, chip_of(arguments));
}

/* ---- arguments */

static void enter_argument(const struct user *user, struct argument *argument)
{
    switch (argument->kind) {
    case KIND_HOST:
    case KIND_BUS:
        argument->port = enter_handle(user, argument->at, argument->port);
        break;
    case KIND_CHIP:
        for (uintptr_t chip = argument->at; chip < argument->at + argument->bytes; chip += sizeof(ccan_chip))
            for (enum port port = PORT_IF1; port <= PORT_BUS; port++)
                enter_handle(user, chip + port_offset(port), port);
        break;
    case KIND_NOTE:
    case KIND_READ:
    case KIND_WRITTEN:
    case KIND_END:
        break;
    }
}

static void leave_argument(const struct argument *argument)
{
    switch (argument->kind) {
    case KIND_HOST:
    case KIND_BUS:
        leave_handle(argument->at);
        break;
    case KIND_CHIP:
        for (uintptr_t chip = argument->at; chip < argument->at + argument->bytes; chip += sizeof(ccan_chip))
            for (enum port port = PORT_IF1; port <= PORT_BUS; port++)
                leave_handle(chip + port_offset(port));
        break;
    case KIND_NOTE:
    case KIND_READ:
    case KIND_WRITTEN:
    case KIND_END:
        break;
    }
}

/* The handle or chip of an argument. */
static struct subject subject_of(const struct argument *argument)
{
    return (struct subject){ argument->at, argument->port, argument->kind == KIND_CHIP };
}

/* The same, with what the table knows of it. */
static struct subject looked_up(struct subject subject)
{
    if (!subject.whole_chip)
        subject.port = table_port(subject.at, subject.port);
    return subject;
}

/* ---- calls */

static bool is_given_nothing(const struct argument *arguments) { return arguments->kind == KIND_END; }

void checked_enter(enum call call, struct argument *arguments)
{
    if (is_given_nothing(arguments))
        return;
    if (self.thread == 0)
        self.thread = (uint32_t)gettid();
    struct user user = { self.thread, call, arguments->kind == KIND_CHIP };
    if (forked)
        report_forked(&user);
    if (self.call != CALL_NONE)
        report_nested(&user, looked_up(subject_of(arguments)), self.call, looked_up(self.on));
    self.on = subject_of(arguments);
    self.call = call;
    atomic_signal_fence(memory_order_seq_cst);
    for (struct argument *argument = arguments; argument->kind != KIND_END; argument++)
        check_pointer(&user, argument);
    for (struct argument *argument = arguments; argument->kind != KIND_END; argument++) {
        user.whole_chip = argument->kind == KIND_CHIP;
        enter_argument(&user, argument);
    }
    for (struct argument *argument = arguments; argument->kind != KIND_END; argument++) {
        for (struct argument *other = arguments; other != argument; other++)
            check_apart(&user, other, argument);
        if ((FOR_THREAD_SANITIZER || FOR_ADDRESS_SANITIZER) && is_data(argument))
            touch(argument);
        if (argument->kind == KIND_NOTE)
            enter_note(&user, arguments, argument);
    }
}

void checked_leave(const struct argument *arguments)
{
    if (is_given_nothing(arguments))
        return;
    for (const struct argument *argument = arguments; argument->kind != KIND_END; argument++) {
        if (argument->kind == KIND_NOTE)
            leave_note(arguments, argument);
        leave_argument(argument);
    }
    atomic_signal_fence(memory_order_seq_cst);
    self.call = CALL_NONE;
}
