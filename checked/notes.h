/* Which chip told a note, for as long as the note tells it: by the block that the note leads to. */
#ifndef CCAN_CHECKED_NOTES_H
#define CCAN_CHECKED_NOTES_H
#include <stdint.h>

/* Keeps that the note with this block was told by a handle of the chip at this address. Where the table is full it is not kept, and
 * the note is not checked. */
void notes_keep(const void *block, uintptr_t chip);

/* The chip that told the note with this block; 0 where it is not known. */
uintptr_t notes_chip(const void *block);

/* The block is no note's any more. */
void notes_drop(const void *block);

#endif
