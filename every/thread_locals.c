/* What each thread of the program has of its own: thread-local variables, and the values of keys.
 *
 * All threads run in one of the system's, and so their thread-local variables have one place. While a thread does not run, its own are
 * kept at the top of its stack, which is part of a state. */
#include "explorer.h"
#include <errno.h>
#include <link.h>
#include <pthread.h>
#include <threads.h>

/* ---- thread-local variables */

enum { MOST_BYTES = 4096 };

/* Where they are in the thread that runs, and how many bytes. How they begin: the first so many as given, the others zero; in the main
 * thread as they stand before main. */
static char *place, *before_main;
static const char *first;
static size_t size, given;

static int look_for_them(struct dl_phdr_info *info, size_t bytes, void *unused)
{
    (void)bytes, (void)unused;
    for (int i = 0; i < info->dlpi_phnum; i++) {
        const ElfW(Phdr) *segment = &info->dlpi_phdr[i];
        if (segment->p_type != PT_TLS || !segment->p_memsz)
            continue;
        if (segment->p_memsz > MOST_BYTES)
            stop(2, "the program has more than %d bytes of thread-local variables", MOST_BYTES);
        place = info->dlpi_tls_data;
        first = (const char *)info->dlpi_addr + segment->p_vaddr;
        size = segment->p_memsz;
        given = segment->p_filesz;
        before_main = own_pool(size);
        copy_bytes(before_main, place, size);
    }
    return 1; /* the first one is the program itself */
}

void begin_thread_locals(void) { dl_iterate_phdr(look_for_them, NULL); }

/* The bytes at the top of each stack. */
size_t room_of_thread_locals(void) { return (size + 63) & ~(size_t)63; }

static char *kept(const thread *of) { return (char *)of->stack_top - room_of_thread_locals(); }

/* Those of a new thread, whose stack is zero there. */
void first_thread_locals(const thread *of)
{
    bool is_main = of == R.threads;
    copy_bytes(kept(of), is_main ? before_main : first, is_main ? size : given);
}

void put_thread_locals(const thread *of) { copy_bytes(place, kept(of), size); }
void keep_thread_locals(const thread *of) { copy_bytes(kept(of), place, size); }

/* ---- keys, each with a value for each thread */

int pthread_key_create(pthread_key_t *key, void (*destructor)(void *))
{
    unsigned number = (unsigned)R.keys;
    if (R.keys == MOST_KEYS)
        stop(2, "the program has more than %d keys of threads' own values", MOST_KEYS);
    R.destructors[R.keys++] = destructor;
    give(key, &number, sizeof number);
    return 0;
}

int pthread_key_delete(pthread_key_t key)
{
    R.destructors[key] = NULL;
    return 0;
}

void *pthread_getspecific(pthread_key_t key) { return ME->own_values[key]; }

int pthread_setspecific(pthread_key_t key, const void *value)
{
    ME->own_values[key] = (void *)(uintptr_t)value;
    return 0;
}

/* At the end of a thread. */
void destroy_own_values(void)
{
    for (int key = 0; key < R.keys; key++) {
        void *value = ME->own_values[key];
        ME->own_values[key] = NULL;
        if (value && R.destructors[key])
            R.destructors[key](value);
    }
}

int tss_create(tss_t *key, tss_dtor_t destructor) { return pthread_key_create(key, destructor) ? thrd_error : thrd_success; }
void tss_delete(tss_t key) { pthread_key_delete(key); }
void *tss_get(tss_t key) { return pthread_getspecific(key); }
int tss_set(tss_t key, void *value) { return pthread_setspecific(key, value) ? thrd_error : thrd_success; }
