/* What a search can't see, and so refuses with a word. */
#include <stddef.h>

void ccan_private_refuse(const char *call, const char *why);

#define REFUSED(call, why) \
    long call(void); \
    long call(void) \
    { \
        ccan_private_refuse(#call, why); \
        return -1; \
    }

#define FILES "files are no part of a state, and a search goes back and forth between states"
REFUSED(open, FILES)
REFUSED(open64, FILES)
REFUSED(creat, FILES)
REFUSED(read, FILES)
REFUSED(write, FILES)
REFUSED(fopen, FILES)
REFUSED(fopen64, FILES)
REFUSED(freopen, FILES)
REFUSED(tmpfile, FILES)
REFUSED(getchar, FILES)
REFUSED(fgets, FILES)
REFUSED(fread, FILES)
REFUSED(getline, FILES)
REFUSED(fgetc, FILES)
REFUSED(getc, FILES)
REFUSED(scanf, FILES)
REFUSED(__isoc99_scanf, FILES)
REFUSED(mkstemp, FILES)
REFUSED(unlink, FILES)
REFUSED(mmap, FILES)

#define SOCKETS "sockets are no part of a state; ccan_choose says what may come"
REFUSED(socket, SOCKETS)
REFUSED(select, SOCKETS)
REFUSED(poll, SOCKETS)
REFUSED(epoll_create1, SOCKETS)

#define SIGNALS "signals are not seen; ccan_irq is an interrupt"
REFUSED(signal, SIGNALS)
REFUSED(sigaction, SIGNALS)
REFUSED(raise, SIGNALS)
REFUSED(kill, SIGNALS)
REFUSED(pthread_kill, SIGNALS)
REFUSED(pthread_sigmask, SIGNALS)
REFUSED(sigprocmask, SIGNALS)
REFUSED(setitimer, SIGNALS)
REFUSED(timer_create, SIGNALS)

#define PROCESSES "a search has one process"
REFUSED(fork, PROCESSES)
REFUSED(vfork, PROCESSES)
REFUSED(execve, PROCESSES)
REFUSED(system, PROCESSES)

#define RANDOM "a schedule has to be the same each time; ccan_choose goes through all numbers"
REFUSED(rand, RANDOM)
REFUSED(random, RANDOM)
REFUSED(rand_r, RANDOM)
REFUSED(getrandom, RANDOM)

#define NOT_YET "a search does not have it yet"
REFUSED(sem_open, NOT_YET)
REFUSED(pthread_cancel, NOT_YET)
REFUSED(setjmp, NOT_YET)
REFUSED(_setjmp, NOT_YET)
