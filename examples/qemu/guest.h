/*
 * What the tests of guest.c need of Linux: its modules, and its interfaces
 * can0, can1 and so on, one for each card.
 */
#ifndef GUEST_H
#define GUEST_H

#include <linux/can.h>
#include <stdbool.h>
#include <stdint.h>

enum { CARDS = 3, RESTART_MS = 50 }; /* at most so many cards */

/* Says what came to be, and switches the machine off. */
void switch_off(void);

/* If this was not done, says what failed and why, and switches off. */
void must(bool done, const char *what);

double seconds(void);

void load_modules(void);

/* How many cards there are. */
uint32_t count_cards(void);

/*
 * Starts a card at 500 kbit/s in these modes, CAN_CTRLMODE_LOOPBACK and
 * CAN_CTRLMODE_LISTENONLY, and stops it. Its errors on the bus are counted.
 */
void start_card(uint32_t card, uint32_t modes);
void stop_card(uint32_t card);

/*
 * A socket of a card. With `own` it also receives what it has sent itself,
 * when that is sent.
 */
int open_socket(uint32_t card, bool own);

/* The lines of a file that name an interface. */
void print_lines_of(const char *path);

#endif
