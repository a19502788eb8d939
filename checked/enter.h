/* The checks before and after a call of the checked library. */
#ifndef CCAN_CHECKED_ENTER_H
#define CCAN_CHECKED_ENTER_H
#include "argument.h"

/* Enters a call: checks what it is given, the last of which is END, and takes its handles. Where a promise of ccan.h is seen to
 * be broken, it reports that on standard error, and aborts. A call that is given neither a handle nor a chip is not checked. */
void checked_enter(enum call call, struct argument *arguments);

/* Leaves that call: lets go of its handles. */
void checked_leave(const struct argument *arguments);

#endif
