/* The explorer's own memory, from the system. */
#include "explorer.h"
#include <stdlib.h>
#include <sys/mman.h>
#include <sys/syscall.h>
#include <time.h>
#include <unistd.h>

explorer *the_explorer;

void *own_memory(size_t bytes)
{
    void *at = (void *)syscall(SYS_mmap, NULL, bytes, PROT_READ | PROT_WRITE, MAP_PRIVATE | MAP_ANONYMOUS | MAP_NORESERVE, -1, 0);
    if (at == MAP_FAILED)
        stop(2, "no memory is left for the search");
    return at;
}

void *own_pool(size_t bytes)
{
    static char *next, *end;
    bytes = (bytes + 15) & ~(size_t)15;
    if ((size_t)(end - next) < bytes) {
        size_t chunk = bytes > 1 << 20 ? bytes : 1 << 20;
        next = own_memory(chunk);
        end = next + chunk;
    }
    void *made = next;
    next += bytes;
    return made;
}

/* What a compiler calls for copies in the explorer's own code: tools/build/every_library gives its calls these names. */
void *ccan_private_memcpy(void *to, const void *from, size_t bytes)
{
    copy_bytes(to, from, bytes);
    return to;
}

void *ccan_private_memset(void *at, int value, size_t bytes)
{
    void *to = at;
    __asm__ volatile("rep stosb" : "+D"(to), "+c"(bytes) : "a"(value) : "memory");
    return at;
}

int ccan_private_memcmp(const void *a, const void *b, size_t bytes)
{
    const unsigned char *one = a, *other = b;
    for (size_t i = 0; i < bytes; i++)
        if (one[i] != other[i])
            return one[i] < other[i] ? -1 : 1;
    return 0;
}

double seconds_now(void)
{
    struct timespec now;
    syscall(SYS_clock_gettime, CLOCK_MONOTONIC, &now);
    return (double)now.tv_sec + 1e-9 * (double)now.tv_nsec;
}

/* Ends the whole program with a word. */
void stop(int status, const char *format, ...)
{
    char text[600];
    va_list arguments;
    va_start(arguments, format);
    int length = vsnprintf(text, sizeof text - 1, format, arguments);
    va_end(arguments);
    length = length > (int)sizeof text - 2 ? (int)sizeof text - 2 : length;
    text[length++] = '\n';
    if (E && E->real_out)
        fflush(E->real_out);
    syscall(SYS_write, 2, "ccan-every: ", 12);
    syscall(SYS_write, 2, text, length);
    syscall(SYS_exit_group, status);
    __builtin_unreachable();
}
