/* Loops that wait. A turn is what a thread does from one wait to the next.
 *
 * A turn that ends as it began has changed nothing: the thread's stack, and the words that it wrote, are as they were, and so is
 * the chip by its steps. If nothing that it looked at has changed since, then the next turn would be the same again; the thread is
 * idle, and makes none until something that it looked at changes. Nothing is lost by that: the idle thread's steps were gone
 * through from where its turn began.
 *
 * A turn that differs by what the thread counts (`turns++`) would go on for ever. So where the thread comes back to the same wait
 * with another stack, its next turn is tried alone, from the stack that it has now and from the one that it had at the last wait.
 * If both make the same steps, then the thread counts: its stack is put back as it was, and the summary names the wait. With
 * --turns N that begins after N turns. Where no thread may go on, it does count on. */
#include "explorer.h"

/* ---- stacks at waits */

enum { CHAINS = 1 << 14, MOST_SITES = 64, MOST_TRIED = 512, MOST_PASSED = 4, PATIENCE = 300 };
static struct {
    locals *chains[CHAINS];
    uintptr_t sites[MOST_SITES];
    int site_count;
    checkpoint *before;
} *T;

static const locals *locals_of(const thread *of)
{
    uint64_t key[2] = { 1, 1 };
    size_t size = (size_t)((char *)of->stack_top - (char *)of->sp);
    hash_bytes(key, of->sp, size);
    locals **chain = &T->chains[key[0] % CHAINS];
    for (locals *found = *chain; found; found = found->next)
        if (found->key[0] == key[0] && found->key[1] == key[1] && found->size == size)
            return found;
    locals *made = own_pool(sizeof(locals) + size);
    *made = (locals){ *chain, { key[0], key[1] }, (uint32_t)size };
    copy_bytes(made->bytes, of->sp, size);
    return *chain = made;
}

static void put_back(thread *of, const locals *stack)
{
    copy_bytes((char *)of->stack_top - stack->size, stack->bytes, stack->size);
}

/* ---- what a turn has written */

static bool is_on_own_stack(uintptr_t at)
{
    uintptr_t top = (uintptr_t)ME->stack_top;
    return at < top && at >= top - STACK_BYTES;
}

void note_write(uintptr_t at)
{
    thread *me = ME;
    if (is_on_own_stack(at))
        return;
    for (uint32_t i = 0; i < me->written; i++)
        if (me->old[i].at == at)
            return;
    if (me->written == MOST_WRITES)
        me->turn_overflows = true;
    else
        me->old[me->written++] = (old_word){ at, *(const uint64_t *)at };
}

/* Whether the turn has changed nothing but the thread's own stack. */
static bool changed_nothing(const thread *of)
{
    if (of->turn_overflows || (of->cpu && R.masked[of->cpu]))
        return false;
    for (int row = 0; row < ROW_MEMORY; row++)
        if (of->turn.writes[row])
            return false;
    for (uint32_t i = 0; i < of->written; i++)
        if (*(const uint64_t *)of->old[i].at != of->old[i].before)
            return false;
    return true;
}

static bool looked_at_something(const thread *of)
{
    uint64_t any = 0;
    for (int row = 0; row < ROWS; row++)
        any |= of->turn.reads[row];
    return any != 0;
}

static void begin_turn(thread *of)
{
    of->turn = (footprint){ 0 };
    of->written = 0;
    of->turn_overflows = false;
    of->is_fresh = true;
}

/* ---- trying a turn alone */

/* What came of a turn that was tried: a hash of its steps and of how it ended; and where it came back to the same wait and changed
 * nothing, the stack at its end. */
typedef struct { uint64_t steps[2]; const locals *end; } trial;

static trial try_turn(int number, const locals *from)
{
    trial of = { .steps = { 1, 1 } };
    thread *me = &R.threads[number];
    uintptr_t site = me->site;
    put_back(me, from);
    begin_turn(me);
    for (int tried = 0; tried < MOST_TRIED && may_step(number) && me->alternatives == 1; tried++) {
        footprint event = { 0 };
        E->event = &event;
        resume(number);
        add_footprint(&me->turn, &event);
        hash_bytes(of.steps, &event, sizeof event);
        if ((me->at_wait && me->site == site) || me->is_done || E->ending != GOES_ON)
            break;
    }
    bool is_back = me->at_wait && me->site == site;
    uint64_t ending = (uint64_t)is_back | (uint64_t)me->is_done << 1 | (uint64_t)me->alternatives << 2 | (uint64_t)E->ending << 32;
    hash_bytes(of.steps, &ending, sizeof ending);
    of.end = is_back && E->ending == GOES_ON && changed_nothing(me) ? locals_of(me) : NULL;
    return of;
}

/* Whether the thread goes on from both stacks in the same way, and so only counts; not where its stack has come to rest. */
static bool only_counts(int number, const locals *now, const locals *before)
{
    save_state(&T->before);
    bool was_telling = E->telling;
    E->telling = false;
    trial one = try_turn(number, now);
    restore_state(T->before);
    trial other = try_turn(number, before);
    restore_state(T->before);
    E->telling = was_telling;
    return one.end != now && one.steps[0] == other.steps[0] && one.steps[1] == other.steps[1];
}

static void note_site(uintptr_t site)
{
    for (int i = 0; i < T->site_count; i++)
        if (T->sites[i] == site)
            return;
    if (T->site_count < MOST_SITES)
        T->sites[T->site_count++] = site;
}

int counting_sites(uintptr_t **sites)
{
    *sites = T->sites;
    return T->site_count;
}

void forget_sites(void) { T->site_count = 0; }

/* ---- the end of a turn */

/* The thread came to a wait. A turn may pass some other waits before it comes back to its own. */
void end_turn(int number)
{
    thread *of = &R.threads[number];
    if (E->options.no_turns || (of->base && of->base_site != of->site && of->passed++ < MOST_PASSED))
        return;
    const locals *now = locals_of(of);
    of->passed = 0;
    of->counted = of->base_site == of->site ? of->counted : 0;
    bool is_same_wait = of->base && of->base_site == of->site && of->base->size == now->size;
    bool is_vain = is_same_wait && changed_nothing(of) && !E->replaying, only_counted = false;
    if (is_vain && now != of->base) {
        only_counted = looked_at_something(of) && only_counts(number, now, of->base);
        is_vain = only_counted && (of->counts_on ? of->counted++ >= PATIENCE : of->counted++ >= E->options.turns);
        if (only_counted)
            note_site(of->site);
        if (is_vain && !of->counts_on) {
            put_back(of, of->base);
            now = of->base;
        }
    }
    of->is_idle = is_vain && of->is_fresh;
    of->is_counting = of->is_idle && only_counted && !of->counts_on;
    of->looked = of->turn;
    of->base = now;
    of->base_site = of->site;
    if (of->is_idle)
        tell("waits for a change of what it looked at");
    begin_turn(of);
}

/* Where no thread may go on, those that were only counting do: they may give up. Whether there was one. */
bool count_on(void)
{
    bool any = false;
    for (int number = 0; number < R.count; number++) {
        thread *of = &R.threads[number];
        if (of->is_done || !of->is_idle || !of->is_counting)
            continue;
        of->is_idle = of->is_counting = false;
        of->counts_on = any = true;
        of->counted = 0;
    }
    return any;
}

/* What a step is to the turns of the other threads, and to that of its own. */
void apply_event(int number, const footprint *event)
{
    for (int other = 0; other < R.count; other++) {
        thread *of = &R.threads[other];
        if (other == number)
            add_footprint(&of->turn, event);
        else if (of->is_idle)
            of->is_idle = !conflict(&of->looked, event);
        else if (of->is_fresh)
            of->is_fresh = !conflict(&of->turn, event);
        if (other != number && !of->is_idle)
            of->is_counting = of->counts_on = false;
    }
}

/* What settles, besides the state, which turns will be in vain: of each thread that has waited, how its turn has gone so far. */
void turns_key(uint64_t key[2])
{
    for (int number = 0; number < R.count; number++) {
        const thread *of = &R.threads[number];
        if (of->is_done || !of->base)
            continue;
        uint64_t rest[] = {
            (uint64_t)number, (uint64_t)of->is_fresh | (uint64_t)of->turn_overflows << 1 | (uint64_t)of->counted << 32,
            (uint64_t)of->base, of->base_site, of->passed, of->written };
        hash_bytes(key, rest, sizeof rest);
        hash_bytes(key, &of->turn, sizeof of->turn);
        hash_bytes(key, of->old, of->written * sizeof of->old[0]);
        if (of->is_idle)
            hash_bytes(key, &of->looked, sizeof of->looked);
    }
}

void begin_turns(void) { T = own_memory(sizeof *T); }
