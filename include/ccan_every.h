/* libccan-every: runs a C program that uses ccan.h under every schedule of its threads, its interrupts and the bus.
 *
 * The program stays as it is. It is compiled with -fsanitize=thread and linked with this library, which takes the place of libccan
 * and of the sanitizer's runtime:
 *
 *   cc -g -fsanitize=thread test.c driver.c $(pkg-config --cflags --libs ccan-every)
 *   ./a.out                 (clang needs -fno-sanitize-link-runtime besides)
 *
 * It begins at main, again and again; its threads, by pthread_create or by ccan_thread, go on one at a time, and before each step
 * the library chooses whose it is. What the program prints is the outcome of a schedule. The outcomes are listed, a failure
 * first, with the shortest history that was found. docs/EVERY.md begins with an example, and lists the options and the statuses.
 *
 * What a step is. Of a call of ccan.h: each place that ccan.h gives it in the chip's history; a change is one step, so CCAN_BUSY
 * and CCAN_SPENT never come. Of the program's memory: each access to a word that two threads use and one writes. Of a mutex, a
 * condition variable, a semaphore, another lock or a barrier: each call. Memory is sequentially consistent.
 *
 * Nothing of this library is proved. The chip is written in C once more, with steps that can be seen; it is compared with the
 * proved library in a test. The search and what it leaves out are tested against plain searches of all interleavings.
 *
 * Not seen, and refused with a word: files, sockets, signals, clocks unless the program has them stand still, processes, random
 * numbers, jumps, a second chip, and the calls of ccan.h for several chips on one bus, from ccan_begin to ccan_bit_time. Not seen,
 * and not noticed: code that was compiled without -fsanitize=thread, and assembler. */
#ifndef CCAN_EVERY_H
#define CCAN_EVERY_H
#include "ccan.h"
#ifdef __cplusplus
extern "C" {
#endif

/* Starts a thread, as pthread_create does. `name` is shown in the histories, and has to stay valid. */
void ccan_thread(const char *name, void (*body)(void));

/* An interrupt. Whenever the chip pulls its line, `handler` may run; while it runs, it doesn't begin again. `cpu` is the processor
 * on which it runs: with 0 one of its own, beside all threads; with 1 to 7 that of the threads that called ccan_on_cpu with it,
 * and none of these makes a step while it runs. Ten times faster than a loop that polls the line. */
void ccan_irq(const char *name, int cpu, void (*handler)(void));

/* The calling thread, and those that it starts from now on, are on this processor: 0 for one of its own, or 1 to 7. */
void ccan_on_cpu(int cpu);

/* Keeps interrupts of the caller's processor from beginning, until ccan_irq_on. Nothing for a thread with a processor of its own. */
void ccan_irq_off(void);
void ccan_irq_on(void);

/* One of 0 to count - 1. Each of them is gone through, wherever it is called. 0 if count is 0 or 1. At most 256. */
unsigned ccan_choose(unsigned count);

/* The end of a turn of a loop that waits for something. sched_yield, usleep, sleep, nanosleep and thrd_yield are the same. A turn
 * that changed nothing, and from which the thread goes on as from the turn before, is not made again until something that it looked
 * at has changed. If such turns are counted by the thread, the count stays (docs/EVERY.md, "Loops that wait"). */
void ccan_wait(void);

/* Has each clock stand still, for a program that computes the end of a wait with a time from the time now. Without it a search that
 * comes to a clock is refused. A wait with a time, such as pthread_cond_timedwait, ends by its time at any moment, and its thread
 * then reads that time next, once. If a clock is read, the summary says `whole but for clocks`. */
void ccan_stop_clocks(void);

/* Returns when no other thread can go on: each has ended, waits for what never comes, or looks in vain. Then the caller is alone,
 * and checks what came of it. */
void ccan_quiet(void);

/* What has to be so. If it isn't, the schedule is a failure of this text, which is formatted as by printf. */
#define ccan_require(holds, ...) ((holds) ? (void)0 : ccan_fail(__VA_ARGS__))

/* Ends the schedule as a failure of this text. */
void ccan_fail(const char *format, ...)
#if defined(__GNUC__)
    __attribute__((format(printf, 1, 2), noreturn))
#endif
    ;

/* A bus that most programs want, as a thread: the other nodes send these frames, each after the one before it, and the chip
 * sends what it is asked to, until nothing is left to send. In at most `faults` rounds, whichever, the frame is spoiled by a
 * CRC error; its sender then sends it again. `chip` is open, with a node for each frame; the frames are copied, at most 16. */
void ccan_bus_sends(ccan_chip *chip, const ccan_offer *frames, unsigned count, unsigned faults);

#ifdef __cplusplus
}
#endif
#endif
