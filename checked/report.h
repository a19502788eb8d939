/* The reports of the checked library: each is one line on standard error, and then the program aborts. They take no memory, so
 * they can come from everywhere. */
#ifndef CCAN_CHECKED_REPORT_H
#define CCAN_CHECKED_REPORT_H
#include "table.h"

/* A handle, or a whole chip by the address of its if1. */
struct subject {
    uintptr_t at;
    enum port port;
    bool whole_chip;
};

/* Promises 2 and 3: a call on a handle that another thread's call is in. Also: a handle that is given twice to one call. */
_Noreturn void report_in_use(const struct user *user, struct subject handle, const struct user *other);

/* Promises 2 and 6: a call of a thread that is in another call. */
_Noreturn void report_nested(const struct user *user, struct subject on, enum call outer, struct subject outer_on);

/* Promise 6: a call in the child of a fork. */
_Noreturn void report_forked(const struct user *user);

/* Promise 1: the memory of a handle was never made a closed one, as its first byte shows. */
_Noreturn void report_no_chip(const struct user *user, struct subject handle, unsigned char first);

/* Promise 1: an open handle that was opened at another address. */
_Noreturn void report_moved(const struct user *user, struct subject handle, const void *insides);

/* Promise 1: an open handle that was written since it was last left. */
_Noreturn void report_changed(const struct user *user, struct subject handle);

/* Promise 5: a handle that is not what the call takes. */
_Noreturn void report_wrong_port(const struct user *user, struct subject handle, enum port wanted);

/* Promise 5: a pointer that is null, or not aligned. */
_Noreturn void report_pointer(const struct user *user, const struct argument *argument);

/* Promise 5: two arguments that overlap. */
_Noreturn void report_overlap(const struct user *user, const struct argument *one, const struct argument *other);

/* Promise 8: a note that a handle of another chip told. */
_Noreturn void report_other_chip(const struct user *user, struct subject handle, uintptr_t told_by);

/* The table is full. */
_Noreturn void report_no_room(const struct user *user, struct subject handle);

#endif
