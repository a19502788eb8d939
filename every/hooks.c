/* The calls that a compiler puts before each access to memory, with -fsanitize=thread. They have the names of the sanitizer's
 * runtime, in whose place they stand. */
#include "explorer.h"

#define PC ((uintptr_t)__builtin_return_address(0))

/* Called before main by each part of the program that was compiled with hooks. */
bool has_hooks;
void __tsan_init(void) { has_hooks = true; }

void __tsan_func_entry(void *pc) { (void)pc; }
void __tsan_func_exit(void) {}
void __tsan_ignore_thread_begin(void) {}
void __tsan_ignore_thread_end(void) {}
void __tsan_read_range(void *at, size_t size) { touch(at, size, false, false, PC); }
void __tsan_write_range(void *at, size_t size) { touch(at, size, true, false, PC); }

void *__tsan_memcpy(void *to, const void *from, size_t size)
{
    touch(from, size, false, false, PC);
    touch(to, size, true, false, PC);
    copy_bytes(to, from, size);
    return to;
}

void *__tsan_memset(void *at, int value, size_t size)
{
    touch(at, size, true, false, PC);
    for (size_t i = 0; i < size; i++)
        ((volatile char *)at)[i] = (char)value;
    return at;
}

void *__tsan_memmove(void *to, const void *from, size_t size)
{
    touch(from, size, false, false, PC);
    touch(to, size, true, false, PC);
    move_bytes(to, from, size);
    return to;
}

void __tsan_vptr_read(void **at) { touch(at, sizeof *at, false, false, PC); }
void __tsan_vptr_update(void **at, void *value) { (void)value; touch(at, sizeof *at, true, false, PC); }

#define PLAIN(size) \
    void __tsan_read##size(void *at) { touch(at, size, false, false, PC); } \
    void __tsan_write##size(void *at) { touch(at, size, true, false, PC); } \
    void __tsan_read_write##size(void *at) { touch(at, size, true, false, PC); } \
    void __tsan_unaligned_read##size(void *at) { touch(at, size, false, false, PC); } \
    void __tsan_unaligned_write##size(void *at) { touch(at, size, true, false, PC); } \
    void __tsan_unaligned_read_write##size(void *at) { touch(at, size, true, false, PC); } \
    void __tsan_volatile_read##size(void *at) { touch(at, size, false, false, PC); } \
    void __tsan_volatile_write##size(void *at) { touch(at, size, true, false, PC); } \
    void __tsan_unaligned_volatile_read##size(void *at) { touch(at, size, false, false, PC); } \
    void __tsan_unaligned_volatile_write##size(void *at) { touch(at, size, true, false, PC); }
PLAIN(1)
PLAIN(2)
PLAIN(4)
PLAIN(8)
PLAIN(16)

/* ---- atomics: one step each, of any order of memory */

#define CHANGE(bits, type, name, becomes) \
    type __tsan_atomic##bits##_##name(volatile type *at, type value, int order) \
    { \
        (void)order; \
        touch((void *)at, sizeof(type), true, true, PC); \
        type was = *at; \
        *at = (type)(becomes); \
        return was; \
    }
#define ATOMIC(bits, type) \
    type __tsan_atomic##bits##_load(const volatile type *at, int order) \
    { \
        (void)order; \
        touch((void *)at, sizeof(type), false, true, PC); \
        return *at; \
    } \
    void __tsan_atomic##bits##_store(volatile type *at, type value, int order) \
    { \
        (void)order; \
        touch((void *)at, sizeof(type), true, true, PC); \
        *at = value; \
    } \
    CHANGE(bits, type, exchange, value) \
    CHANGE(bits, type, fetch_add, was + value) \
    CHANGE(bits, type, fetch_sub, was - value) \
    CHANGE(bits, type, fetch_and, was & value) \
    CHANGE(bits, type, fetch_or, was | value) \
    CHANGE(bits, type, fetch_xor, was ^ value) \
    CHANGE(bits, type, fetch_nand, ~(was & value)) \
    int __tsan_atomic##bits##_compare_exchange_strong(volatile type *at, type *wanted, type value, int order, int failure) \
    { \
        (void)order, (void)failure; \
        touch((void *)at, sizeof(type), true, true, PC); \
        if (*at == *wanted) { \
            *at = value; \
            return 1; \
        } \
        *wanted = *at; \
        return 0; \
    } \
    int __tsan_atomic##bits##_compare_exchange_weak(volatile type *at, type *wanted, type value, int order, int failure) \
    { \
        return __tsan_atomic##bits##_compare_exchange_strong(at, wanted, value, order, failure); \
    } \
    type __tsan_atomic##bits##_compare_exchange_val(volatile type *at, type wanted, type value, int order, int failure) \
    { \
        __tsan_atomic##bits##_compare_exchange_strong(at, &wanted, value, order, failure); \
        return wanted; \
    }
ATOMIC(8, uint8_t)
ATOMIC(16, uint16_t)
ATOMIC(32, uint32_t)
ATOMIC(64, uint64_t)
void __tsan_atomic_thread_fence(int order) { (void)order; }
void __tsan_atomic_signal_fence(int order) { (void)order; }
