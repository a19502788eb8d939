/* Mutexes, condition variables, semaphores and pthread_once. */
#include "sync.h"
#include <errno.h>
#include <pthread.h>
#include <semaphore.h>

/* A mutex: who holds it, less 1; how often. A condition variable: who waits, and was not signalled, as a set of threads. A
 * semaphore: its value. */
static bool is_free(const thread *of) { return !awaited(of)->first; }
static bool has_value(const thread *of) { return awaited(of)->first > 0; }
static bool was_signalled(const thread *of) { return !(awaited(of)->first >> (of - R.threads) & 1); }

bool step_in_time(const void *object, condition *may, const struct timespec *until, uintptr_t pc)
{
    bool in_time = step_choosing(2) == 0;
    ME->may_stay = in_time;
    step_at(object, in_time ? may : NULL, pc);
    ME->may_stay = false;
    if (!in_time)
        ME->woke = *until;
    return in_time;
}

/* ---- mutexes */

static int take_mutex(pthread_mutex_t *mutex)
{
    words_of(mutex)->first = (uint32_t)R.me + 1;
    tell("locks %s", name_of_data((uintptr_t)mutex));
    return 0;
}

static int lock_mutex(pthread_mutex_t *mutex, uintptr_t pc)
{
    words *of = words_of(mutex);
    int kind = mutex->__data.__kind & 3;
    if (of->first == (uint32_t)R.me + 1 && kind == PTHREAD_MUTEX_RECURSIVE)
        return of->second++, 0;
    if (of->first == (uint32_t)R.me + 1 && kind == PTHREAD_MUTEX_ERRORCHECK)
        return EDEADLK;
    step_at(mutex, is_free, pc);
    return take_mutex(mutex);
}

static int unlock_mutex(pthread_mutex_t *mutex, uintptr_t pc)
{
    words *of = words_of(mutex);
    if (of->first != (uint32_t)R.me + 1)
        ccan_fail("%s unlocks %s, which it has not locked", ME->name, name_of_data((uintptr_t)mutex));
    if (of->second)
        return of->second--, 0;
    step_at(mutex, NULL, pc);
    of->first = 0;
    tell("unlocks %s", name_of_data((uintptr_t)mutex));
    return 0;
}

int pthread_mutex_init(pthread_mutex_t *mutex, const pthread_mutexattr_t *attributes)
{
    int kind = PTHREAD_MUTEX_NORMAL;
    if (attributes)
        pthread_mutexattr_gettype(attributes, &kind);
    *mutex = (pthread_mutex_t)PTHREAD_MUTEX_INITIALIZER;
    mutex->__data.__kind = kind;
    return 0;
}

int pthread_mutex_destroy(pthread_mutex_t *mutex) { return (void)mutex, 0; }
int pthread_mutex_lock(pthread_mutex_t *mutex) { return lock_mutex(mutex, PC); }
int pthread_mutex_unlock(pthread_mutex_t *mutex) { return unlock_mutex(mutex, PC); }

int pthread_mutex_trylock(pthread_mutex_t *mutex)
{
    step_at(mutex, NULL, PC);
    return words_of(mutex)->first ? EBUSY : take_mutex(mutex);
}

int pthread_mutex_timedlock(pthread_mutex_t *mutex, const struct timespec *until)
{
    step_in_time(mutex, is_free, until, PC);
    return words_of(mutex)->first ? ETIMEDOUT : take_mutex(mutex);
}

int pthread_mutex_clocklock(pthread_mutex_t *mutex, clockid_t clock, const struct timespec *until)
{
    (void)clock;
    step_in_time(mutex, is_free, until, PC);
    return words_of(mutex)->first ? ETIMEDOUT : take_mutex(mutex);
}

/* ---- condition variables: whom a signal wakes is a choice; nobody wakes without one */

int pthread_cond_init(pthread_cond_t *variable, const pthread_condattr_t *attributes)
{
    (void)attributes;
    *words_of(variable) = (words){ 0, 0 };
    return 0;
}

int pthread_cond_destroy(pthread_cond_t *variable) { return (void)variable, 0; }

static void wait_for_signal(pthread_cond_t *variable, pthread_mutex_t *mutex, uintptr_t pc)
{
    step_at(variable, NULL, pc);
    words_of(variable)->first |= 1u << R.me;
    tell("waits for %s", name_of_data((uintptr_t)variable));
    mark(mutex, sizeof(words), true);
    words_of(mutex)->first = 0;
}

int pthread_cond_wait(pthread_cond_t *variable, pthread_mutex_t *mutex)
{
    wait_for_signal(variable, mutex, PC);
    step_at(variable, was_signalled, PC);
    return lock_mutex(mutex, PC);
}

static int wait_in_time(pthread_cond_t *variable, pthread_mutex_t *mutex, const struct timespec *until, uintptr_t pc)
{
    wait_for_signal(variable, mutex, pc);
    bool in_time = step_in_time(variable, was_signalled, until, pc);
    words_of(variable)->first &= ~(1u << R.me);
    lock_mutex(mutex, pc);
    return in_time ? 0 : ETIMEDOUT;
}

int pthread_cond_timedwait(pthread_cond_t *variable, pthread_mutex_t *mutex, const struct timespec *until)
{
    return wait_in_time(variable, mutex, until, PC);
}

int pthread_cond_clockwait(pthread_cond_t *variable, pthread_mutex_t *mutex, clockid_t clock, const struct timespec *until)
{
    (void)clock;
    return wait_in_time(variable, mutex, until, PC);
}

int pthread_cond_signal(pthread_cond_t *variable)
{
    step_at(variable, NULL, PC);
    uint32_t waiting = words_of(variable)->first;
    for (uint32_t skip = step_choosing((uint32_t)__builtin_popcount(waiting)); skip; skip--)
        waiting &= waiting - 1;
    words_of(variable)->first &= ~(waiting & -waiting);
    tell("signals %s", name_of_data((uintptr_t)variable));
    return 0;
}

int pthread_cond_broadcast(pthread_cond_t *variable)
{
    step_at(variable, NULL, PC);
    words_of(variable)->first = 0;
    tell("wakes all at %s", name_of_data((uintptr_t)variable));
    return 0;
}

/* ---- semaphores */

int sem_init(sem_t *semaphore, int shared, unsigned value)
{
    (void)shared;
    *words_of(semaphore) = (words){ value, 0 };
    return 0;
}

int sem_destroy(sem_t *semaphore) { return (void)semaphore, 0; }

/* Takes one, or says with this error that none is there. */
static int take_one(sem_t *semaphore, int error)
{
    if (!words_of(semaphore)->first) {
        errno = error;
        return -1;
    }
    words_of(semaphore)->first--;
    tell("takes %s", name_of_data((uintptr_t)semaphore));
    return 0;
}

int sem_wait(sem_t *semaphore)
{
    step_at(semaphore, has_value, PC);
    return take_one(semaphore, 0);
}

int sem_trywait(sem_t *semaphore)
{
    step_at(semaphore, NULL, PC);
    return take_one(semaphore, EAGAIN);
}

int sem_timedwait(sem_t *semaphore, const struct timespec *until)
{
    step_in_time(semaphore, has_value, until, PC);
    return take_one(semaphore, ETIMEDOUT);
}

int sem_clockwait(sem_t *semaphore, clockid_t clock, const struct timespec *until)
{
    (void)clock;
    step_in_time(semaphore, has_value, until, PC);
    return take_one(semaphore, ETIMEDOUT);
}

int sem_post(sem_t *semaphore)
{
    step_at(semaphore, NULL, PC);
    words_of(semaphore)->first++;
    tell("posts %s", name_of_data((uintptr_t)semaphore));
    return 0;
}

int sem_getvalue(sem_t *semaphore, int *value)
{
    step_at(semaphore, NULL, PC);
    int found = (int)words_of(semaphore)->first;
    give(value, &found, sizeof found);
    return 0;
}

/* ---- once */

int pthread_once(pthread_once_t *once, void (*body)(void))
{
    touch(once, sizeof *once, true, true, PC);
    if (*once)
        return 0;
    *once = 1;
    body();
    return 0;
}
