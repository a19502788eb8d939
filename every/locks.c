/* Read-write locks, spin locks and barriers. */
#include "sync.h"
#include <errno.h>
#include <pthread.h>

/* ---- read-write locks: how many read, or WRITER and who writes, less 1 */

#define WRITER (1u << 31)
static bool may_read(const thread *of) { return !(awaited(of)->first & WRITER); }
static bool may_write(const thread *of) { return !awaited(of)->first; }

static int take_lock(pthread_rwlock_t *lock, bool writes)
{
    uint32_t *of = &words_of(lock)->first;
    *of = writes ? WRITER | ((uint32_t)R.me + 1) : *of + 1;
    tell(writes ? "locks %s to write" : "locks %s to read", name_of_data((uintptr_t)lock));
    return 0;
}

static bool is_taken(const pthread_rwlock_t *lock, bool writes)
{
    uint32_t of = words_of(lock)->first;
    return writes ? of != 0 : (of & WRITER) != 0;
}

/* A thread that has the lock to write would wait for itself. */
static int lock_when_free(pthread_rwlock_t *lock, bool writes, uintptr_t pc)
{
    if (words_of(lock)->first == (WRITER | ((uint32_t)R.me + 1)))
        return EDEADLK;
    step_at(lock, writes ? may_write : may_read, pc);
    return take_lock(lock, writes);
}

static int try_lock(pthread_rwlock_t *lock, bool writes, uintptr_t pc)
{
    step_at(lock, NULL, pc);
    return is_taken(lock, writes) ? EBUSY : take_lock(lock, writes);
}

static int lock_in_time(pthread_rwlock_t *lock, bool writes, const struct timespec *until, uintptr_t pc)
{
    step_in_time(lock, writes ? may_write : may_read, until, pc);
    return is_taken(lock, writes) ? ETIMEDOUT : take_lock(lock, writes);
}

int pthread_rwlock_init(pthread_rwlock_t *lock, const pthread_rwlockattr_t *attributes)
{
    (void)attributes;
    *words_of(lock) = (words){ 0, 0 };
    return 0;
}

int pthread_rwlock_destroy(pthread_rwlock_t *lock) { return (void)lock, 0; }
int pthread_rwlock_rdlock(pthread_rwlock_t *lock) { return lock_when_free(lock, false, PC); }
int pthread_rwlock_wrlock(pthread_rwlock_t *lock) { return lock_when_free(lock, true, PC); }
int pthread_rwlock_tryrdlock(pthread_rwlock_t *lock) { return try_lock(lock, false, PC); }
int pthread_rwlock_trywrlock(pthread_rwlock_t *lock) { return try_lock(lock, true, PC); }

int pthread_rwlock_timedrdlock(pthread_rwlock_t *lock, const struct timespec *until)
{
    return lock_in_time(lock, false, until, PC);
}

int pthread_rwlock_timedwrlock(pthread_rwlock_t *lock, const struct timespec *until)
{
    return lock_in_time(lock, true, until, PC);
}

int pthread_rwlock_clockrdlock(pthread_rwlock_t *lock, clockid_t clock, const struct timespec *until)
{
    (void)clock;
    return lock_in_time(lock, false, until, PC);
}

int pthread_rwlock_clockwrlock(pthread_rwlock_t *lock, clockid_t clock, const struct timespec *until)
{
    (void)clock;
    return lock_in_time(lock, true, until, PC);
}

int pthread_rwlock_unlock(pthread_rwlock_t *lock)
{
    uint32_t *of = &words_of(lock)->first;
    if (!*of || ((*of & WRITER) && *of != (WRITER | ((uint32_t)R.me + 1))))
        ccan_fail("%s unlocks %s, which it has not locked", ME->name, name_of_data((uintptr_t)lock));
    step_at(lock, NULL, PC);
    *of = *of & WRITER ? 0 : *of - 1;
    tell("unlocks %s", name_of_data((uintptr_t)lock));
    return 0;
}

/* ---- spin locks, which have one word: who holds it, less 1 */

static bool is_unlocked(const thread *of) { return !*(const uint32_t *)of->about; }

static int take_spin(pthread_spinlock_t *lock)
{
    *(volatile uint32_t *)lock = (uint32_t)R.me + 1;
    tell("locks %s", name_of_data((uintptr_t)lock));
    return 0;
}

int pthread_spin_init(pthread_spinlock_t *lock, int shared)
{
    (void)shared;
    *lock = 0;
    return 0;
}

int pthread_spin_destroy(pthread_spinlock_t *lock) { return (void)lock, 0; }

int pthread_spin_lock(pthread_spinlock_t *lock)
{
    touch_when((const void *)lock, sizeof *lock, PC, is_unlocked);
    return take_spin(lock);
}

int pthread_spin_trylock(pthread_spinlock_t *lock)
{
    touch_when((const void *)lock, sizeof *lock, PC, NULL);
    return *lock ? EBUSY : take_spin(lock);
}

int pthread_spin_unlock(pthread_spinlock_t *lock)
{
    if (*(volatile uint32_t *)lock != (uint32_t)R.me + 1)
        ccan_fail("%s unlocks %s, which it has not locked", ME->name, name_of_data((uintptr_t)lock));
    touch_when((const void *)lock, sizeof *lock, PC, NULL);
    *lock = 0;
    tell("unlocks %s", name_of_data((uintptr_t)lock));
    return 0;
}

/* ---- barriers: how many threads they are for; which wait there, as a set */

static bool was_let_go(const thread *of) { return !(awaited(of)->second >> (of - R.threads) & 1); }

int pthread_barrier_init(pthread_barrier_t *barrier, const pthread_barrierattr_t *attributes, unsigned count)
{
    (void)attributes;
    if (!count)
        return EINVAL;
    *words_of(barrier) = (words){ count, 0 };
    return 0;
}

int pthread_barrier_destroy(pthread_barrier_t *barrier) { return (void)barrier, 0; }

int pthread_barrier_wait(pthread_barrier_t *barrier)
{
    words *of = words_of(barrier);
    step_at(barrier, NULL, PC);
    of->second |= 1u << R.me;
    tell("comes to %s", name_of_data((uintptr_t)barrier));
    if ((uint32_t)__builtin_popcount(of->second) == of->first) {
        of->second = 0;
        return PTHREAD_BARRIER_SERIAL_THREAD;
    }
    step_at(barrier, was_let_go, PC);
    tell("goes on from %s", name_of_data((uintptr_t)barrier));
    return 0;
}
