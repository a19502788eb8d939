/* A state: all that a run has come to. The chip, the program's data, the used part of each stack and arena, and run_state. It can
 * be kept, put back, and told from others. */
#include "explorer.h"
#include <sys/mman.h>

/* The program's variables, and among them those of the explorer, which are no part of a state (tools/build/every_library). */
extern char __data_start, _end, __start_ccan_every_own, __stop_ccan_every_own;
enum { TEXT_BYTES = 1 << 20, GUARD = 4096 };

/* A piece of memory of a state. */
typedef struct { char *at; size_t size; } piece;
enum { MOST_PIECES = 5 + 2 * MOST_THREADS };

struct checkpoint { size_t room; char bytes[]; };

/* Where a state lies, as R says. R itself comes first. */
static int pieces_of(piece *into)
{
    int count = 0;
    void *chip;
    size_t size = chip_bytes(&chip);
    into[count++] = (piece){ (char *)&R, offsetof(run_state, threads) + (size_t)R.count * sizeof(thread) };
    into[count++] = (piece){ chip, size };
    into[count++] = (piece){ E->data, (size_t)(E->own - E->data) };
    into[count++] = (piece){ E->own_end, (size_t)(E->data_end - E->own_end) };
    into[count++] = (piece){ E->files, (size_t)(E->files_end - E->files) };
    for (int number = 0; number < R.count; number++) {
        thread *of = &R.threads[number];
        if (!of->is_done)
            into[count++] = (piece){ of->sp, (size_t)((char *)of->stack_top - (char *)of->sp) };
        if (R.used[number])
            into[count++] = (piece){ E->arena + (size_t)number * ARENA_BYTES, R.used[number] };
    }
    return count;
}

void save_state(checkpoint **where)
{
    piece pieces[MOST_PIECES];
    int count = pieces_of(pieces);
    size_t size = 0;
    for (int i = 0; i < count; i++)
        size += pieces[i].size;
    if (!*where || (*where)->room < size) {
        *where = own_memory(size * 2 + sizeof(checkpoint));
        (*where)->room = size * 2;
    }
    char *to = (*where)->bytes;
    for (int i = 0; i < count; to += pieces[i++].size)
        copy_bytes(to, pieces[i].at, pieces[i].size);
}

/* Arenas as they were when less of them was used: what is behind is zero, as a block has to be that was never given out. */
static void clear_unused(const size_t *used)
{
    for (int number = 0; number < MOST_THREADS; number++)
        if (used[number] > R.used[number])
            clear_bytes(E->arena + (size_t)number * ARENA_BYTES + R.used[number], used[number] - R.used[number]);
}

void restore_state(const checkpoint *from)
{
    piece pieces[MOST_PIECES];
    size_t used[MOST_THREADS];
    int threads = ((const run_state *)(const void *)from->bytes)->count;
    copy_bytes(used, R.used, sizeof used);
    copy_bytes(&R, from->bytes, offsetof(run_state, threads) + (size_t)threads * sizeof(thread));
    clear_unused(used);
    const char *bytes = from->bytes;
    int count = pieces_of(pieces);
    for (int i = 0; i < count; bytes += pieces[i++].size)
        copy_bytes(pieces[i].at, bytes, pieces[i].size);
    E->ending = GOES_ON;
    E->event = &E->scratch;
}

/* ---- telling states apart, by a hash of 128 bits */

static uint64_t fold(uint64_t a, uint64_t b)
{
    unsigned __int128 product = (unsigned __int128)a * b;
    return (uint64_t)product ^ (uint64_t)(product >> 64);
}

static void hash_two(uint64_t key[2], uint64_t a, uint64_t b)
{
    key[0] = fold(a ^ 0xa0761d6478bd642full, b ^ key[0]);
    key[1] = fold(a ^ 0xe7037ed1a0b428dbull, b ^ key[1] ^ 0x8ebc6af09c88c6e3ull);
}

/* Bytes from an address that is a multiple of 8; a last part of a word as far as it goes. */
void hash_bytes(uint64_t key[2], const void *at, size_t size)
{
    const uint64_t *words = at;
    size_t count = size / 8, rest = size % 8;
    for (size_t i = 0; i + 2 <= count; i += 2)
        hash_two(key, words[i], words[i + 1]);
    uint64_t last = 0;
    copy_bytes(&last, (const char *)at + count * 8, rest);
    hash_two(key, count & 1 ? words[count - 1] : 0, last ^ (uint64_t)size << 32);
}

static void hash_thread(uint64_t key[2], const thread *of)
{
    uint64_t bits = (uint64_t)of->is_done | (uint64_t)of->waits_for_quiet << 1 | (uint64_t)of->is_idle << 2 |
        (uint64_t)of->at_wait << 3 | (uint64_t)of->may_stay << 4 | (uint64_t)of->is_counting << 5 |
        (uint64_t)of->counts_on << 6 | (uint64_t)of->cpu << 8 | (uint64_t)of->alternatives << 16;
    hash_two(key, bits, (uint64_t)of->may);
    hash_two(key, (uint64_t)of->result, of->passed ? of->base_site + of->passed : 0); /* how far a turn over several waits is */
    hash_two(key, (uint64_t)of->about, (uint64_t)of->sp ^ (uint64_t)(unsigned)of->error_number << 48);
    hash_two(key, (uint64_t)of->woke.tv_sec, (uint64_t)of->woke.tv_nsec);
    hash_bytes(key, of->own_values, (size_t)R.keys * sizeof(void *));
    if (!of->is_done)
        hash_bytes(key, of->sp, (size_t)((const char *)of->stack_top - (const char *)of->sp));
}

void state_key(uint64_t key[2])
{
    void *chip;
    size_t size = chip_bytes(&chip);
    key[0] = key[1] = 1;
    hash_bytes(key, chip, size);
    hash_bytes(key, E->data, (size_t)(E->own - E->data));
    hash_bytes(key, E->own_end, (size_t)(E->data_end - E->own_end));
    hash_bytes(key, E->text, R.printed);
    hash_bytes(key, R.handler_on, sizeof R.handler_on);
    hash_bytes(key, R.masked, sizeof R.masked);
    hash_bytes(key, R.destructors, (size_t)R.keys * sizeof(void *));
    hash_two(key, (uint64_t)R.count, R.alone ? (uint64_t)R.me + 1 : 0);
    for (int number = 0; number < R.count; number++) {
        hash_thread(key, &R.threads[number]);
        hash_bytes(key, E->arena + (size_t)number * ARENA_BYTES, R.used[number]);
    }
}

/* ---- the beginning */

static void *call_main(void *unused)
{
    extern int __real_main(int argc, char **argv, char **environment);
    extern char **environ;
    (void)unused;
    int status = __real_main(E->arguments, E->argument_list, environ);
    if (status)
        ccan_fail("main returns %d", status);
    return NULL;
}

/* The program as it is before main, and its main thread up to the first place. */
void restart_program(void)
{
    copy_bytes(E->data, E->data_saved, (size_t)(E->own - E->data));
    copy_bytes(E->own_end, E->data_saved + (E->own_end - E->data), (size_t)(E->data_end - E->own_end));
    for (int number = 0; number < R.count; number++)
        clear_bytes(E->arena + (size_t)number * ARENA_BYTES, R.used[number]);
    clear_bytes(&R, offsetof(run_state, threads));
    chip_reset();
    R.alone = true;
    E->ending = GOES_ON;
    E->event = &E->scratch;
    begin_thread("main", call_main, NULL);
    resume(0);
}

/* Keeps the program's data as they are before main. */
void begin_checkpoints(void)
{
    E->data = (char *)(((uintptr_t)&__data_start + 7) & ~(uintptr_t)7);
    E->data_end = (char *)((uintptr_t)&_end & ~(uintptr_t)7);
    E->own = (char *)((uintptr_t)&__start_ccan_every_own & ~(uintptr_t)7);
    E->own_end = (char *)(((uintptr_t)&__stop_ccan_every_own + 7) & ~(uintptr_t)7);
    E->stacks = own_memory((size_t)MOST_THREADS * STACK_BYTES);
    for (int number = 0; number < MOST_THREADS; number++) /* a stack that overflows is a crash */
        mprotect(E->stacks + (size_t)number * STACK_BYTES, GUARD, PROT_NONE);
    E->arena = own_memory((size_t)MOST_THREADS * ARENA_BYTES);
    E->text = own_memory(TEXT_BYTES);
    chip_reset();
    E->data_saved = own_memory((size_t)(E->data_end - E->data));
    copy_bytes(E->data_saved, E->data, (size_t)(E->data_end - E->data));
}
