/* Threads and interrupts, and what a program says of them. */
#include "explorer.h"
#include <pthread.h>
#include <sched.h>
#include <stdlib.h>
#include <string.h>
#include <time.h>
#include <unistd.h>

static const footprint nothing;

static footprint token(unsigned number, bool writes)
{
    footprint made = { 0 };
    made.reads[ROW_TOKENS] = 1ull << number;
    made.writes[ROW_TOKENS] = writes ? 1ull << number : 0;
    return made;
}

/* ---- beginning and ending */

static void trampoline(void)
{
    void *result = ME->body(ME->argument);
    destroy_own_values();
    if (!R.me)
        last_place();
    thread *me = ME;
    me->result = result;
    footprint end = token(TOKEN_THREAD + (unsigned)R.me, true);
    add_footprint(E->event, &end);
    if (R.count > 1)
        tell("ends");
    me->is_done = true;
    end_run(GOES_ON);
}

/* The name, with a number behind it where another thread has it. Each is made once. */
static const char *own_name(const char *name)
{
    static struct { const char *name, *made; int number; } made[4 * MOST_THREADS];
    int number = 1, at = 0;
    for (int other = 0; other < R.count - 1; other++)
        number += R.threads[other].body_name == name;
    if (number == 1)
        return name;
    while (at < 4 * MOST_THREADS - 1 && made[at].name && (made[at].name != name || made[at].number != number))
        at++;
    if (made[at].name != name || made[at].number != number) {
        char *text = own_pool(64);
        snprintf(text, 64, "%s %d", name, number);
        made[at].name = name;
        made[at].number = number;
        made[at].made = text;
    }
    return made[at].made;
}

int begin_thread(const char *name, void *(*body)(void *), void *argument)
{
    if (R.count == MOST_THREADS)
        stop(2, "the program has more than %d threads", MOST_THREADS - 1);
    int number = R.count++;
    thread *of = &R.threads[number];
    clear_bytes(of, sizeof *of);
    of->stack_top = E->stacks + (size_t)(number + 1) * STACK_BYTES;
    clear_bytes((char *)of->stack_top - 16384, 16384);
    first_thread_locals(of);
    uint64_t *top = (uint64_t *)((char *)of->stack_top - room_of_thread_locals() - 64);
    *--top = 0;
    *--top = (uint64_t)trampoline;
    of->sp = top - 6;
    of->body_name = name;
    of->name = own_name(name);
    of->body = body;
    of->argument = argument;
    of->alternatives = 1;
    of->is_fresh = true;
    R.used[number] = 0;
    if (number) {
        footprint creation = token(TOKEN_CREATION, true);
        add_footprint(E->event, &creation);
        of->cpu = ME->cpu;
        R.alone = false;
        tell("starts %s", of->name);
    }
    return number;
}

static void *call_body(void *body)
{
    ((void (*)(void))body)();
    return NULL;
}

void ccan_thread(const char *name, void (*body)(void)) { begin_thread(name, call_body, (void *)body); }

int pthread_create(pthread_t *id, const pthread_attr_t *attributes, void *(*body)(void *), void *argument)
{
    (void)attributes;
    pthread_t number = (pthread_t)begin_thread(name_of_code((uintptr_t)body), body, argument);
    give(id, &number, sizeof number);
    return 0;
}

static bool has_ended(const thread *of) { return ((const thread *)of->about)->is_done; }

/* The main thread is alone again when it has joined all others. */
static void note_alone(void)
{
    bool others = false;
    for (int number = 1; number < R.count; number++)
        others |= !R.threads[number].is_done;
    R.alone = !others && R.me == 0;
}

int pthread_join(pthread_t id, void **result)
{
    footprint end = token(TOKEN_THREAD + (unsigned)id, false);
    step_when(&end, has_ended, &R.threads[id]);
    add_footprint(E->event, &end);
    tell("joins %s", R.threads[id].name);
    if (result)
        give(result, &R.threads[id].result, sizeof *result);
    note_alone();
    return 0;
}

int pthread_detach(pthread_t id) { return (void)id, 0; }
pthread_t pthread_self(void) { return (pthread_t)R.me; }
int pthread_setname_np(pthread_t id, const char *name) { return (void)id, (void)name, 0; }

void pthread_exit(void *result)
{
    destroy_own_values();
    if (!R.me)
        last_place();
    thread *me = ME;
    me->result = result;
    footprint end = token(TOKEN_THREAD + (unsigned)R.me, true);
    add_footprint(E->event, &end);
    me->is_done = true;
    tell("ends");
    end_run(R.me ? GOES_ON : COMPLETE);
}

/* ---- interrupts and processors */

static bool line_is_pulled(const thread *of) { return chip_pulls_line() && !(of->cpu && R.masked[of->cpu]); }

static void serve_interrupt(void (*handler)(void))
{
    int cpu = ME->cpu;
    footprint line = { 0 };
    chip_line_footprint(&line);
    line.reads[ROW_TOKENS] = line.writes[ROW_TOKENS] = cpu ? 1ull << (TOKEN_CPU + cpu) : 0;
    step_when(&line, line_is_pulled, NULL);
    chip_line_footprint(E->event);
    E->event->writes[ROW_TOKENS] |= line.writes[ROW_TOKENS];
    if (cpu)
        R.handler_on[cpu] = R.me + 1;
    tell("the interrupt begins");
    handler();
    if (cpu) {
        footprint end = token(TOKEN_CPU + (unsigned)cpu, true);
        step(&end);
        add_footprint(E->event, &end);
        R.handler_on[cpu] = 0;
        tell("the interrupt ends");
    }
}

static void *run_interrupt(void *handler)
{
    while (!ME->is_done)
        serve_interrupt((void (*)(void))handler);
    return NULL;
}

void ccan_irq(const char *name, int cpu, void (*handler)(void))
{
    if (cpu < 0 || cpu >= MOST_CPUS)
        stop(2, "ccan_irq: %d is no processor", cpu);
    thread *of = &R.threads[begin_thread(name, run_interrupt, (void *)handler)];
    footprint line = { 0 };
    chip_line_reach(&line);
    learn((int)(of - R.threads), &line);
    of->is_interrupt = true;
    of->cpu = cpu;
    of->may = line_is_pulled;
}

void ccan_on_cpu(int cpu)
{
    if (cpu < 0 || cpu >= MOST_CPUS)
        stop(2, "ccan_on_cpu: %d is no processor", cpu);
    ME->cpu = cpu;
}

static void mask_interrupts(int masked)
{
    int cpu = ME->cpu;
    if (!cpu)
        return;
    footprint of = token(TOKEN_CPU + (unsigned)cpu, true);
    step(&of);
    add_footprint(E->event, &of);
    R.masked[cpu] = masked;
    tell(masked ? "masks the interrupts" : "lets interrupts come");
}

void ccan_irq_off(void) { mask_interrupts(1); }
void ccan_irq_on(void) { mask_interrupts(0); }

/* ---- choices, waits, failures */

unsigned ccan_choose(unsigned count) { return step_choosing(count); }

static void wait_at(uintptr_t site)
{
    if (R.alone)
        return;
    ME->at_wait = true;
    ME->site = site;
    step(&nothing);
    ME->at_wait = false;
}

#define HERE ((uintptr_t)__builtin_return_address(0))
void ccan_wait(void) { wait_at(HERE); }
void ccan_stop_clocks(void) { E->clocks_stand = true; }
int sched_yield(void) { return wait_at(HERE), 0; }
int thrd_yield(void) { return wait_at(HERE), 0; }
int usleep(useconds_t microseconds) { return (void)microseconds, wait_at(HERE), 0; }
unsigned sleep(unsigned seconds) { return (void)seconds, wait_at(HERE), 0u; }

int nanosleep(const struct timespec *time, struct timespec *left)
{
    (void)time, (void)left;
    wait_at(HERE);
    return 0;
}

int thrd_sleep(const struct timespec *time, struct timespec *left)
{
    (void)time, (void)left;
    wait_at(HERE);
    return 0;
}

int clock_nanosleep(clockid_t clock, int flags, const struct timespec *time, struct timespec *left)
{
    (void)clock, (void)flags, (void)time, (void)left;
    wait_at(HERE);
    return 0;
}

void ccan_quiet(void)
{
    if (R.alone)
        return;
    ME->waits_for_quiet = true;
    ME->fine++;
    if (!replay_passes())
        pause_here(NULL, NULL, 1);
    ME->waits_for_quiet = false;
    R.alone = true;
}

void ccan_fail(const char *format, ...)
{
    va_list arguments;
    last_place();
    va_start(arguments, format);
    vsnprintf(E->failure, sizeof E->failure, format, arguments);
    va_end(arguments);
    end_run(FAILED);
}

/* ---- the end of the program */

void exit(int status)
{
    if (!E || !E->running) {
        fflush(NULL);
        _exit(status);
    }
    if (status)
        ccan_fail("the program ends with exit(%d)", status);
    last_place();
    end_run(COMPLETE);
}

void abort(void)
{
    if (!E || !E->running)
        _exit(134);
    ccan_fail("the program calls abort");
}

void __assert_fail(const char *assertion, const char *file, unsigned line, const char *function)
{
    (void)function;
    ccan_fail("%s:%u: the assertion does not hold: %s", file, line, assertion);
}
