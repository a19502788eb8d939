/* Functions of the C library that read and write the program's memory: their accesses are seen, each as one. */
#include "explorer.h"

#define PC ((uintptr_t)__builtin_return_address(0))

static size_t length_of(const char *text)
{
    size_t length = 0;
    while (text[length])
        length++;
    return length;
}

static size_t length_within(const char *text, size_t most)
{
    size_t length = 0;
    while (length < most && text[length])
        length++;
    return length;
}

void *memcpy(void *to, const void *from, size_t size)
{
    touch(from, size, false, false, PC);
    touch(to, size, true, false, PC);
    copy_bytes(to, from, size);
    return to;
}

void *memmove(void *to, const void *from, size_t size)
{
    touch(from, size, false, false, PC);
    touch(to, size, true, false, PC);
    move_bytes(to, from, size);
    return to;
}

void *memset(void *at, int value, size_t size)
{
    touch(at, size, true, false, PC);
    for (size_t i = 0; i < size; i++)
        ((volatile char *)at)[i] = (char)value;
    return at;
}

int memcmp(const void *a, const void *b, size_t size)
{
    const unsigned char *one = a, *other = b;
    touch(a, size, false, false, PC);
    touch(b, size, false, false, PC);
    for (size_t i = 0; i < size; i++)
        if (one[i] != other[i])
            return one[i] - other[i];
    return 0;
}

size_t strlen(const char *text)
{
    size_t length = length_of(text);
    touch(text, length + 1, false, false, PC);
    return length;
}

char *strcpy(char *to, const char *from)
{
    size_t size = length_of(from) + 1;
    touch(from, size, false, false, PC);
    touch(to, size, true, false, PC);
    copy_bytes(to, from, size);
    return to;
}

char *strncpy(char *to, const char *from, size_t most)
{
    size_t length = length_within(from, most);
    touch(from, length, false, false, PC);
    touch(to, most, true, false, PC);
    copy_bytes(to, from, length);
    clear_bytes(to + length, most - length);
    return to;
}

char *strcat(char *to, const char *from)
{
    strcpy(to + length_of(to), from);
    return to;
}

int strncmp(const char *a, const char *b, size_t most)
{
    size_t one = length_within(a, most), other = length_within(b, most), both = one < other ? one : other;
    both += both < most;
    return memcmp(a, b, both);
}

int strcmp(const char *a, const char *b) { return strncmp(a, b, (size_t)-1 / 2); }

char *strchr(const char *text, int wanted)
{
    size_t length = strlen(text);
    for (size_t i = 0; i <= length; i++)
        if (text[i] == (char)wanted)
            return (char *)text + i;
    return NULL;
}
