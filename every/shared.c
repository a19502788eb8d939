/* The program's memory: which words threads share, which of them a step reads and writes, and data races.
 *
 * A word that two threads have used, one of them by a write, in any run so far, is shared. That is learned: where a new one shows
 * up, the search begins anew. Each access to a shared word is a step. A write counts as one only if the word is other afterwards. */
#include "explorer.h"

/* ---- the table of words, by their addresses */

typedef struct { uintptr_t key; uint16_t readers, writers; int32_t number; } word; /* number: of a shared word, or -1 */
enum { WORDS = 1 << 18, WORD_BYTES = 4, MOST_LOGGED = 32, MOST_RACES = 32 };
static struct {
    word *words;
    int used, shared;
    struct { uintptr_t at; uint64_t before; } logged[MOST_LOGGED]; /* the writes of the step that is going on */
    int logs;
    struct { memory_access one, other; } races[MOST_RACES];
    int race_count;
} *S;

static word *word_at(uintptr_t at)
{
    uintptr_t key = at / WORD_BYTES;
    size_t i = (key * 0x9e3779b97f4a7c15ull) >> 46;
    while (S->words[i].key && S->words[i].key != key)
        i = (i + 1) & (WORDS - 1);
    word *of = &S->words[i];
    if (!of->key) {
        if (++S->used > WORDS / 2)
            stop(2, "the program uses more than %d words of memory", WORDS / 2);
        *of = (word){ .key = key, .number = -1 };
    }
    return of;
}

bool is_programs(uintptr_t at)
{
    return (at >= (uintptr_t)E->data && at < (uintptr_t)E->data_end) ||
        (at >= (uintptr_t)E->stacks && at < (uintptr_t)E->stacks + (uintptr_t)MOST_THREADS * STACK_BYTES) ||
        (at >= (uintptr_t)E->arena && at < (uintptr_t)E->arena + (uintptr_t)MOST_THREADS * ARENA_BYTES);
}

/* The shared words of an access, as bits of a footprint. */
static uint64_t shared_words(uintptr_t at, size_t size, bool writes)
{
    uint64_t bits = 0;
    uint16_t me = (uint16_t)(1u << R.me);
    for (uintptr_t word_begin = at & ~(uintptr_t)(WORD_BYTES - 1); word_begin < at + size; word_begin += WORD_BYTES) {
        word *of = word_at(word_begin);
        *(writes ? &of->writers : &of->readers) |= me;
        uint16_t all = of->readers | of->writers;
        if (of->number < 0 && of->writers && (all & (all - 1))) {
            of->number = S->shared++;
            E->grew = true;
        }
        if (of->number >= 0)
            bits |= 1ull << (of->number & 63);
    }
    return bits;
}

/* ---- the accesses of a step */

static uint64_t value_at(uintptr_t at) { return *(const uint64_t *)(at & ~(uintptr_t)7); }

static void log_write(uintptr_t at, size_t size)
{
    for (uintptr_t begin = at & ~(uintptr_t)7; begin < at + size; begin += 8) {
        note_write(begin);
        if (S->logs == MOST_LOGGED) {
            E->event->writes[ROW_MEMORY] |= shared_words(begin, 8, true);
            continue;
        }
        S->logged[S->logs].at = begin;
        S->logged[S->logs++].before = value_at(begin);
    }
}

/* What the step's writes have changed. */
void finish_writes(void)
{
    for (int i = 0; i < S->logs; i++) {
        uint64_t changed = S->logged[i].before ^ value_at(S->logged[i].at);
        for (int half = 0; half < 2; half++) {
            word *of = (uint32_t)(changed >> 32 * half) ? word_at(S->logged[i].at + 4 * (unsigned)half) : NULL;
            if (of && of->number >= 0)
                E->event->writes[ROW_MEMORY] |= 1ull << (of->number & 63);
        }
    }
    S->logs = 0;
}

void mark(const void *at, size_t size, bool writes)
{
    if (R.alone || !is_programs((uintptr_t)at))
        return;
    E->event->reads[ROW_MEMORY] |= shared_words((uintptr_t)at, size, writes);
    if (writes)
        log_write((uintptr_t)at, size);
}

/* The value at an access; of a pointer the name of what it points to. */
static const char *value_text(const memory_access *of)
{
    static char text[24];
    uint64_t value = 0;
    copy_bytes(&value, (const void *)of->at, of->size < 8 ? of->size : 8);
    if (is_programs(value))
        return name_of_data(value);
    snprintf(text, sizeof text, "0x%llx", (unsigned long long)value);
    return text;
}

static void tell_access(const memory_access *of)
{
    tell(of->writes ? "writes %s, which was %s (%s)" : "reads %s: %s (%s)", name_of_data(of->at), value_text(of),
        line_of_code(of->pc));
}

/* A thread that goes on for long without a place, as a loop on a word that nobody has written yet, lets the others go first. */
static void give_way(void)
{
    enum { LONG = 20000 };
    if (R.alone || E->replaying || ++ME->accesses < LONG)
        return;
    ME->gives_way = true;
    pause_here(NULL, NULL, 1);
    ME->gives_way = false;
}

static void access_memory(const void *at, size_t size, const memory_access *of, condition *may)
{
    if (!E || !E->running || !is_programs((uintptr_t)at))
        return;
    uint64_t bits = R.alone ? 0 : shared_words((uintptr_t)at, size, of->writes);
    if (bits || may || E->replaying || R.alone) {
        footprint most = { 0 };
        most.reads[ROW_MEMORY] = bits;
        most.writes[ROW_MEMORY] = of->writes ? bits : 0;
        ME->next = *of;
        step_when(&most, may, at);
        ME->next.size = 0;
    } else {
        ME->fine++;
    }
    give_way();
    mark(at, size, of->writes);
    if (bits && of->pc && E->telling)
        tell_access(of);
}

void touch(const void *at, size_t size, bool writes, bool is_atomic, uintptr_t pc)
{
    memory_access of = { (uintptr_t)at, pc, (uint32_t)size, writes, is_atomic };
    access_memory(at, size, &of, NULL);
}

void touch_when(const void *at, size_t size, uintptr_t pc, condition *may)
{
    memory_access of = { (uintptr_t)at, 0, (uint32_t)size, true, true };
    (void)pc;
    access_memory(at, size, &of, may);
}

void give(void *to, const void *from, size_t size)
{
    touch(to, size, true, false, (uintptr_t)__builtin_return_address(0));
    copy_bytes(to, from, size);
}

/* ---- data races: two threads stand before accesses of one place, one of them a write, and not both atomic */

static bool is_race(const memory_access *a, const memory_access *b)
{
    return a->size && b->size && (a->writes || b->writes) && !(a->is_atomic && b->is_atomic) && a->at < b->at + b->size &&
        b->at < a->at + a->size;
}

static void note_race(int one, int other)
{
    const memory_access *a = &R.threads[one].next, *b = &R.threads[other].next;
    for (int i = 0; i < S->race_count; i++) {
        uintptr_t first = S->races[i].one.pc, second = S->races[i].other.pc;
        if ((first == a->pc && second == b->pc) || (first == b->pc && second == a->pc))
            return;
    }
    if (S->race_count == MOST_RACES)
        return;
    S->races[S->race_count].one = *a;
    S->races[S->race_count++].other = *b;
}

void find_races(uint32_t may)
{
    for (int one = 0; one < R.count; one++)
        for (int other = one + 1; other < R.count; other++)
            if ((may >> one & 1) && (may >> other & 1) && is_race(&R.threads[one].next, &R.threads[other].next))
                note_race(one, other);
}

void forget_races(void) { S->race_count = 0; }
int races_found(void) { return S->race_count; }
int words_shared(void) { return S->shared; }

void print_races(FILE *to)
{
    for (int i = 0; i < S->race_count; i++) {
        const memory_access *one = &S->races[i].one, *other = &S->races[i].other;
        fprintf(to, "warning: a data race: %s is %s at %s, and %s at %s, and nothing orders the two\n", name_of_data(one->at),
            one->writes ? "written" : "read", line_of_code(one->pc), other->writes ? "written" : "read", line_of_code(other->pc));
    }
}

void begin_shared(void)
{
    S = own_memory(sizeof *S);
    S->words = own_memory(WORDS * sizeof(word));
}
