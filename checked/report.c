#include "report.h"
#include <stdlib.h>
#include <string.h>
#include <unistd.h>

static const char *const names[] = {
    [CALL_NONE] = "no call",
#define CALL(result, name, ...) [CALL_##name] = #name,
#include "calls.h"
};

/* A line that grows. What has no room in it is left out, but for its end. */
struct line {
    size_t length;
    char text[512];
};

static void add(struct line *line, const char *text)
{
    while (*text != 0 && line->length < sizeof line->text - 1)
        line->text[line->length++] = *text++;
}

static void add_number(struct line *line, uint64_t number, unsigned base)
{
    char digits[21];
    size_t at = sizeof digits - 1;
    digits[at] = 0;
    do {
        digits[--at] = "0123456789abcdef"[number % base];
        number /= base;
    } while (number != 0);
    add(line, &digits[at]);
}

static void add_address(struct line *line, uintptr_t address)
{
    add(line, "0x");
    add_number(line, address, 16);
}

static void add_thread(struct line *line, const struct user *user)
{
    add(line, "thread ");
    add_number(line, user->thread, 10);
}

static const char *port_name(enum port port)
{
    switch (port) {
    case PORT_HOST: return "a host's handle";
    case PORT_IF1: return "handle if1";
    case PORT_IF2: return "handle if2";
    case PORT_BUS: return "handle bus";
    }
    return "a handle";
}

static void add_subject(struct line *line, struct subject subject)
{
    if (!subject.whole_chip) {
        add(line, port_name(subject.port));
        add(line, subject.port == PORT_HOST ? " at " : " of ");
    }
    if (subject.whole_chip || subject.port != PORT_HOST)
        add(line, "the chip at ");
    add_address(line, subject.at - (subject.whole_chip ? 0 : port_offset(subject.port)));
}

/* "thread 12 calls ccan_set". */
static void add_call(struct line *line, const struct user *user)
{
    add_thread(line, user);
    add(line, " calls ");
    add(line, names[user->call]);
}

static struct line begin(void)
{
    struct line line = { 0, { 0 } };
    add(&line, "libccan_checked: ");
    return line;
}

/* "libccan_checked: thread 12 calls ccan_set on handle if1 of the chip at 0x1000". */
static struct line begin_call_on(const struct user *user, struct subject handle)
{
    struct line line = begin();
    add_call(&line, user);
    add(&line, " on ");
    add_subject(&line, handle);
    return line;
}

/* Writes the line with the promise that is broken, in parentheses, and aborts. */
static _Noreturn void end(struct line *line, const char *promise)
{
    if (promise != NULL) {
        add(line, " (");
        add(line, promise);
        add(line, " of ccan.h)");
    }
    line->text[line->length++] = '\n';
    for (size_t at = 0; at < line->length;) {
        ssize_t written = write(STDERR_FILENO, line->text + at, line->length - at);
        if (written <= 0)
            break;
        at += (size_t)written;
    }
    abort();
}

_Noreturn void report_in_use(const struct user *user, struct subject handle, const struct user *other)
{
    struct line line = begin();
    if (user->thread == other->thread) {
        add_call(&line, user);
        add(&line, " with ");
        add_subject(&line, handle);
        add(&line, " twice");
        end(&line, "promise 2");
    }
    struct subject chip = { handle.at - port_offset(handle.port), PORT_IF1, true };
    add_subject(&line, other->whole_chip ? chip : handle);
    add(&line, " is in ");
    add(&line, names[other->call]);
    add(&line, " in ");
    add_thread(&line, other);
    add(&line, ", and ");
    add_call(&line, user);
    if (user->whole_chip && !other->whole_chip) {
        add(&line, " on the whole chip");
    } else if (other->whole_chip && !user->whole_chip) {
        add(&line, " on its ");
        add(&line, port_name(handle.port));
    } else {
        add(&line, " on it");
    }
    end(&line, user->whole_chip || other->whole_chip ? "promise 3" : "promise 2");
}

_Noreturn void report_nested(const struct user *user, struct subject on, enum call outer, struct subject outer_on)
{
    struct line line = begin();
    add_subject(&line, outer_on);
    add(&line, " is in ");
    add(&line, names[outer]);
    add(&line, " in ");
    add_thread(&line, user);
    add(&line, ", and the same thread calls ");
    add(&line, names[user->call]);
    add(&line, " on ");
    if (on.at == outer_on.at && on.whole_chip == outer_on.whole_chip)
        add(&line, "it");
    else
        add_subject(&line, on);
    add(&line, " before that call has returned, as from a signal handler");
    end(&line, "promise 6");
}

_Noreturn void report_forked(const struct user *user)
{
    struct line line = begin();
    add_call(&line, user);
    add(&line, " in process ");
    add_number(&line, (uint64_t)getpid(), 10);
    add(&line, ", which is the child of a fork of a process with several threads");
    end(&line, "promise 6");
}

_Noreturn void report_no_chip(const struct user *user, struct subject handle, unsigned char first)
{
    struct line line = begin_call_on(user, handle);
    add(&line, ", whose memory never was a chip: the first byte of the handle is ");
    add_address(&line, first);
    add(&line, ". A chip begins as CCAN_CHIP_CLOSED, or by ccan_chip_init");
    end(&line, "promise 1");
}

_Noreturn void report_moved(const struct user *user, struct subject handle, const void *insides)
{
    struct subject from = { 0, PORT_HOST, false };
    from.at = table_look_for(insides, &from.port);
    struct line line = begin_call_on(user, handle);
    add(&line, ", which is open, but no call opened it at this address: ");
    if (from.at != 0) {
        add(&line, "it was copied or moved from ");
        add_subject(&line, from);
    } else {
        add(&line, "it was copied or moved, or its memory never was a chip");
    }
    end(&line, "promise 1");
}

_Noreturn void report_changed(const struct user *user, struct subject handle)
{
    struct line line = begin_call_on(user, handle);
    add(&line, ", whose insides changed after the last call on it: they were written or copied over");
    end(&line, "promise 1");
}

_Noreturn void report_wrong_port(const struct user *user, struct subject handle, enum port wanted)
{
    struct line line = begin_call_on(user, handle);
    add(&line, ", passed as ");
    add(&line, port_name(wanted));
    end(&line, "promise 5");
}

_Noreturn void report_pointer(const struct user *user, const struct argument *argument)
{
    struct line line = begin();
    add_call(&line, user);
    add(&line, " with ");
    add(&line, argument->name);
    if (argument->at == 0) {
        add(&line, ", which is null");
    } else {
        add(&line, " at ");
        add_address(&line, argument->at);
        add(&line, ", which is not aligned to ");
        add_number(&line, argument->alignment, 10);
    }
    end(&line, "promise 5");
}

_Noreturn void report_overlap(const struct user *user, const struct argument *one, const struct argument *other)
{
    struct line line = begin();
    add_call(&line, user);
    add(&line, " with ");
    add(&line, one->name);
    add(&line, " at ");
    add_address(&line, one->at);
    add(&line, " and ");
    add(&line, other->name);
    add(&line, " at ");
    add_address(&line, other->at);
    add(&line, ", which overlap");
    end(&line, "promise 5");
}

_Noreturn void report_other_chip(const struct user *user, struct subject handle, uintptr_t told_by)
{
    struct line line = begin_call_on(user, handle);
    add(&line, " with a note that a handle of the chip at ");
    add_address(&line, told_by);
    add(&line, " told");
    end(&line, "promise 8");
}

_Noreturn void report_no_room(const struct user *user, struct subject handle)
{
    struct line line = begin_call_on(user, handle);
    add(&line, ", and the checked library has no room for more handles. Too many chips are open for it, or were let go "
        "without ccan_end: compile it with a greater CCAN_CHECKED_PLACES than ");
    add_number(&line, CCAN_CHECKED_PLACES, 10);
    end(&line, NULL);
}
