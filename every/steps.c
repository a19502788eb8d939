/* Steps of threads: footprints, the switch between threads, and the places at which others may step. */
#include "explorer.h"
#include <errno.h>

/* ---- footprints */

bool conflict(const footprint *a, const footprint *b)
{
    uint64_t both = 0;
    for (int row = 0; row < ROWS; row++)
        both |= (a->writes[row] & (b->reads[row] | b->writes[row])) | (a->reads[row] & b->writes[row]);
    return both != 0;
}

bool add_footprint(footprint *to, const footprint *from)
{
    uint64_t grown = 0;
    for (int row = 0; row < ROWS; row++) {
        grown |= (from->reads[row] & ~to->reads[row]) | (from->writes[row] & ~to->writes[row]);
        to->reads[row] |= from->reads[row];
        to->writes[row] |= from->writes[row];
    }
    return grown != 0;
}

/* ---- the switch */

/* Saves the registers that a call keeps on this stack and its top in `from`, and goes on at the stack `to`. */
__attribute__((naked, noinline)) static void switch_stacks(__attribute__((unused)) void **from, __attribute__((unused)) void *to)
{
    __asm__("pushq %rbp; pushq %rbx; pushq %r12; pushq %r13; pushq %r14; pushq %r15; movq %rsp, (%rdi); movq %rsi, %rsp;"
            "popq %r15; popq %r14; popq %r13; popq %r12; popq %rbx; popq %rbp; ret");
}

static void to_scheduler(void) { switch_stacks(&ME->sp, E->scheduler_sp); }

/* Lets a thread go on until its next place. What it leaves below its stack is no part of a state. */
void resume(int number)
{
    thread *of = &R.threads[number];
    enum { LEFT_BELOW = 2048 };
    R.me = number;
    E->running = true;
    errno = of->error_number;
    put_thread_locals(of);
    switch_stacks(&E->scheduler_sp, of->sp);
    keep_thread_locals(of);
    of->error_number = errno;
    E->running = false;
    finish_writes();
    clear_bytes((char *)of->sp - LEFT_BELOW, LEFT_BELOW);
}

void end_run(enum ending ending)
{
    E->ending = ending;
    to_scheduler();
    __builtin_unreachable();
}

/* ---- places */

/* Whether no other thread has ever touched, in any run so far, what this step may touch. Then it makes no difference when it is
 * made. What threads touch is learned: where more of it shows up, the search begins anew. */
static bool is_undisturbed(const footprint *most)
{
    if (E->options.all_steps || most->reads[ROW_TOKENS] | most->writes[ROW_TOKENS])
        return false;
    for (int other = 0; other < R.count; other++)
        if (other != R.me && conflict(most, &E->reach[other]))
            return false;
    return true;
}

/* A place: gives the others their turn. */
void pause_here(condition *may, const void *about, uint32_t alternatives)
{
    thread *me = ME;
    me->may = may;
    me->about = about;
    me->alternatives = alternatives;
    me->accesses = 0;
    to_scheduler();
    me = ME;
    me->may = NULL;
    me->alternatives = 1;
    me->at_wait = false;
    if (me->cpu)
        E->event->reads[ROW_TOKENS] |= 1ull << (TOKEN_CPU + me->cpu);
}

/* What a thread touches; where that is more than was known, the search begins anew. */
void learn(int number, const footprint *touched)
{
    if (add_footprint(&E->reach[number], touched))
        E->grew = true;
}

/* A thread that waits looks at what it waits for. */
static void learn_wait(const footprint *most)
{
    footprint looks = *most;
    clear_bytes(looks.writes, sizeof looks.writes);
    learn(R.me, &looks);
}

/* Whether a replay goes on through this place. */
bool replay_passes(void) { return E->replaying && ME->fine != E->replay_until; }

void step_when(const footprint *most, condition *may, const void *about)
{
    ME->fine++;
    ME->about = about;
    if (R.alone && may && !may(ME))
        ccan_fail("%s waits for ever", ME->name);
    if (R.alone || replay_passes())
        return;
    if (!E->replaying && !may && !ME->at_wait && is_undisturbed(most))
        return;
    if (may)
        learn_wait(most);
    pause_here(may, about, 1);
}

/* Before a run ends. Nothing may be known yet of what the other threads touch, as they have made no step; so in a first search they
 * go on here. When all is known this is no place, since what they do now comes too late. */
void last_place(void)
{
    bool is_place = false;
    for (int other = 0; other < R.count; other++)
        is_place |= E->learning && other != R.me && !R.threads[other].is_done;
    if (R.alone)
        return;
    E->met_last |= is_place;
    ME->fine++;
    if (E->replaying ? !replay_passes() : is_place)
        pause_here(NULL, NULL, 1);
}

void step(const footprint *most) { step_when(most, NULL, NULL); }

/* One of 0 to alternatives - 1: each is tried. */
uint32_t step_choosing(uint32_t alternatives)
{
    enum { MOST = 256 };
    ME->fine++;
    if (alternatives < 2)
        return 0;
    if (alternatives > MOST)
        stop(2, "the program calls ccan_choose(%u), and a history tells apart %d ways", (unsigned)alternatives, MOST);
    if (!replay_passes())
        pause_here(NULL, NULL, alternatives);
    if (E->replaying)
        E->alternative = next_replayed_choice(alternatives);
    tell("takes way %u of %u", (unsigned)E->alternative, (unsigned)alternatives);
    return E->alternative;
}

/* ---- who may step */

bool may_step(int number)
{
    const thread *of = &R.threads[number];
    if (of->is_done || of->is_idle || (R.alone && number != R.me))
        return false;
    if (of->cpu && R.handler_on[of->cpu] && R.handler_on[of->cpu] != number + 1)
        return false;
    return !of->may || of->may(of);
}

/* The threads that may step. One that waits until the others have come to rest may when no other one may, nor counts on. */
uint32_t threads_that_may(void)
{
    uint32_t may = 0, at_rest = 0;
    for (int number = 0; number < R.count; number++)
        if (may_step(number))
            *(R.threads[number].waits_for_quiet ? &at_rest : &may) |= 1u << number;
    if (!may && count_on())
        return threads_that_may();
    return may ? may : at_rest;
}
