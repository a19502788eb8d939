/* The threads, mutexes and condition variables of C11, which are those of POSIX under other names. */
#include "explorer.h"
#include <errno.h>
#include <pthread.h>
#include <threads.h>

static int code_of(int error)
{
    switch (error) {
    case 0:
        return thrd_success;
    case EBUSY:
        return thrd_busy;
    case ETIMEDOUT:
        return thrd_timedout;
    default:
        return thrd_error;
    }
}

/* ---- threads */

int thrd_create(thrd_t *id, thrd_start_t body, void *argument)
{
    return code_of(pthread_create(id, NULL, (void *(*)(void *))(uintptr_t)body, argument));
}

int thrd_join(thrd_t id, int *result)
{
    void *returned = NULL;
    pthread_join(id, &returned);
    int number = (int)(intptr_t)returned;
    if (result)
        give(result, &number, sizeof number);
    return thrd_success;
}

int thrd_detach(thrd_t id) { return code_of(pthread_detach(id)); }
thrd_t thrd_current(void) { return pthread_self(); }
int thrd_equal(thrd_t one, thrd_t other) { return one == other; }
void thrd_exit(int result) { pthread_exit((void *)(intptr_t)result); }

/* ---- mutexes */

int mtx_init(mtx_t *mutex, int kind)
{
    pthread_mutex_t *of = (pthread_mutex_t *)mutex;
    pthread_mutex_init(of, NULL);
    of->__data.__kind = kind & mtx_recursive ? PTHREAD_MUTEX_RECURSIVE : PTHREAD_MUTEX_NORMAL;
    return thrd_success;
}

void mtx_destroy(mtx_t *mutex) { (void)mutex; }
int mtx_lock(mtx_t *mutex) { return code_of(pthread_mutex_lock((pthread_mutex_t *)mutex)); }
int mtx_trylock(mtx_t *mutex) { return code_of(pthread_mutex_trylock((pthread_mutex_t *)mutex)); }
int mtx_unlock(mtx_t *mutex) { return code_of(pthread_mutex_unlock((pthread_mutex_t *)mutex)); }

int mtx_timedlock(mtx_t *mutex, const struct timespec *until)
{
    return code_of(pthread_mutex_timedlock((pthread_mutex_t *)mutex, until));
}

/* ---- condition variables */

int cnd_init(cnd_t *variable) { return code_of(pthread_cond_init((pthread_cond_t *)variable, NULL)); }
void cnd_destroy(cnd_t *variable) { (void)variable; }
int cnd_signal(cnd_t *variable) { return code_of(pthread_cond_signal((pthread_cond_t *)variable)); }
int cnd_broadcast(cnd_t *variable) { return code_of(pthread_cond_broadcast((pthread_cond_t *)variable)); }

int cnd_wait(cnd_t *variable, mtx_t *mutex)
{
    return code_of(pthread_cond_wait((pthread_cond_t *)variable, (pthread_mutex_t *)mutex));
}

int cnd_timedwait(cnd_t *variable, mtx_t *mutex, const struct timespec *until)
{
    return code_of(pthread_cond_timedwait((pthread_cond_t *)variable, (pthread_mutex_t *)mutex, until));
}

/* ---- once */

void call_once(once_flag *flag, void (*body)(void)) { pthread_once((pthread_once_t *)flag, body); }
