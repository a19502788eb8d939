/* The checked library on each broken promise: a child breaks it, and has to report it on standard error in one line, and to
 * abort. Usage: checked_test [NAME..], the broken promises to try; all if left out. */
#define _GNU_SOURCE
#include <ccan.h>
#include <fnmatch.h>
#include <pthread.h>
#include <sched.h>
#include <signal.h>
#include <stdatomic.h>
#include <stdio.h>
#include <stdlib.h>
#include <string.h>
#include <sys/mman.h>
#include <sys/wait.h>
#include <unistd.h>

/* The chips of a child: the first one is open. */
static ccan_chip chip, other;

/* The number of the child's second thread, where its parent sees it too. */
static _Atomic pid_t *second_thread;

/* What a call answers is of no matter here. */
static void ignore(uint32_t code) { (void)code; }

/* ---- a call that runs while another one is made */

/* Memory that can be neither read nor written. A call that is given it gets a signal there, and stays in the signal's handler. */
static void *held_memory;

static atomic_bool is_held;

static void stay(int number)
{
    (void)number;
    atomic_store(&is_held, true);
    for (;;)
        pause();
}

static void hold_by(void (*handler)(int))
{
    held_memory = mmap(NULL, 4096, PROT_NONE, MAP_PRIVATE | MAP_ANONYMOUS, -1, 0);
    if (held_memory == MAP_FAILED || signal(SIGSEGV, handler) == SIG_ERR)
        exit(2);
}

static void (*held_call)(void);

static void *make_held_call(void *nothing)
{
    *second_thread = gettid();
    held_call();
    return nothing;
}

/* From here on a second thread is in this call, which reads or writes the held memory. */
static void be_in(void (*call)(void))
{
    pthread_t thread;
    held_call = call;
    hold_by(stay);
    if (pthread_create(&thread, NULL, make_held_call, NULL))
        exit(2);
    while (!atomic_load(&is_held))
        sched_yield();
}

static void get_at_if1(void) { ignore(ccan_get(&chip.if1, CCAN_CTRL, held_memory)); }
static void peek_at_if2(void) { ignore(ccan_peek(&chip.if2, 1, held_memory)); }
static void save(void) { ignore(ccan_save(&chip, held_memory)); }
static void end(void) { ignore(ccan_end(&chip, held_memory)); }
static void restore_other(void) { ignore(ccan_restore(&other, held_memory)); }

/* ---- what breaks a promise */

static void two_calls_on_a_handle(void)
{
    be_in(get_at_if1);
    ignore(ccan_set(&chip.if1, CCAN_CTRL, 0));
}

static void a_call_beside_an_end(void)
{
    be_in(end);
    ignore(ccan_init(&chip.bus));
}

static void a_call_beside_an_opening(void)
{
    be_in(restore_other);
    ignore(ccan_set(&other.if2, CCAN_CTRL, 0));
}

static void an_end_beside_a_call(void)
{
    static ccan_final last;
    be_in(peek_at_if2);
    ignore(ccan_end(&chip, &last));
}

static void two_calls_on_a_chip(void)
{
    be_in(save);
    ignore(ccan_meet(&chip));
}

static void set_in_a_signal(int number)
{
    (void)number;
    ignore(ccan_set(&chip.if1, CCAN_CTRL, 0));
}

static void status_in_a_signal(int number)
{
    uint16_t status;
    (void)number;
    ignore(ccan_status(&chip.bus, &status));
}

static void a_signal_on_the_same_handle(void)
{
    hold_by(set_in_a_signal);
    get_at_if1();
}

static void a_signal_on_another_handle(void)
{
    hold_by(status_in_a_signal);
    get_at_if1();
}

static void a_null_handle(void) { ignore(ccan_init(NULL)); }
static void a_null_chip(void) { ignore(ccan_is_open(NULL)); }
static void a_null_output(void) { ignore(ccan_status(&chip.bus, NULL)); }

static void null_offers(void)
{
    ccan_outcome outcome;
    ignore(ccan_round(&chip.bus, NULL, 0, CCAN_QUIET, &outcome));
}

static void a_pointer_between(void)
{
    static uint64_t words[2];
    ignore(ccan_flags(&chip.if1, CCAN_NEWDAT, (void *)((char *)words + 4)));
}

static void offers_in_the_outcome(void)
{
    static ccan_outcome outcome;
    ignore(ccan_round(&chip.bus, (ccan_offer *)&outcome, 1, CCAN_QUIET, &outcome));
}

static void an_output_in_the_chip(void) { ignore(ccan_line(&chip.if2, (uint32_t *)chip.ccan_private_apart)); }

static void the_bus_as_a_host(void) { ignore(ccan_request((ccan_host *)&chip.bus, 1)); }
static void a_host_as_the_bus(void) { ignore(ccan_init((ccan_bus *)&chip.if2)); }

static void a_note_of_another_chip(void)
{
    ccan_note note = CCAN_NOTE_EMPTY;
    ignore(ccan_open(&other, 1, 0, 1));
    ignore(ccan_tell(&chip.if1, &note));
    ignore(ccan_heed(&other.if2, &note));
}

static void a_copied_chip(void)
{
    memcpy(&other, &chip, sizeof chip);
    ignore(ccan_set(&other.if2, CCAN_CTRL, 0));
}

static void a_copied_chip_that_ends(void)
{
    static ccan_final last;
    other = chip;
    ignore(ccan_end(&other, &last));
}

static void a_chip_over_another(void)
{
    ignore(ccan_open(&other, 1, 0, 1));
    memcpy(&other, &chip, sizeof chip);
    ignore(ccan_init(&other.bus));
}

static void a_chip_of_rubbish(void)
{
    memset(&other, 0x5a, sizeof other);
    ignore(ccan_open(&other, 1, 0, 1));
}

static void a_handle_of_rubbish(void)
{
    memset(&other, 1, sizeof other);
    ignore(ccan_request(&other.if1, 1));
}

static void *do_nothing(void *nothing)
{
    pause();
    return nothing;
}

static void a_call_after_a_fork(void)
{
    pthread_t thread;
    int status;
    if (pthread_create(&thread, NULL, do_nothing, NULL))
        exit(2);
    pid_t child = fork();
    if (child == 0) {
        ignore(ccan_set(&chip.if1, CCAN_CTRL, 0));
        exit(0);
    }
    if (waitpid(child, &status, 0) == child && WIFSIGNALED(status) && WTERMSIG(status) == SIGABRT)
        abort();
}

static void chips_without_end(void)
{
    ccan_chip *chips = calloc(6000, sizeof *chips);
    for (size_t i = 0; chips != NULL && i < 6000; i++)
        ignore(ccan_open(&chips[i], 1, 0, 1));
}

/* ---- what has to be reported */

/* What breaks a promise, and its report. In that @ is the address of the first chip, # that of the other one, < the number of the
 * child's first thread, > that of its second one, and * any text. */
struct misuse {
    const char *name;
    void (*make)(void);
    const char *report;
};
#define MISUSE(name, report) { #name, name, report }

static const struct misuse misuses[] = {
    MISUSE(two_calls_on_a_handle, "handle if1 of the chip at @ is in ccan_get in thread >, and thread < calls ccan_set on it"
        " (promise 2 of ccan.h)"),
    MISUSE(a_call_beside_an_end, "the chip at @ is in ccan_end in thread >, and thread < calls ccan_init on its handle"
        " bus (promise 3 of ccan.h)"),
    MISUSE(a_call_beside_an_opening, "the chip at # is in ccan_restore in thread >, and thread < calls ccan_set on its handle if2"
        " (promise 3 of ccan.h)"),
    MISUSE(an_end_beside_a_call, "handle if2 of the chip at @ is in ccan_peek in thread >, and thread < calls ccan_end on the"
        " whole chip (promise 3 of ccan.h)"),
    MISUSE(two_calls_on_a_chip, "the chip at @ is in ccan_save in thread >, and thread < calls ccan_meet on it"
        " (promise 3 of ccan.h)"),
    MISUSE(a_signal_on_the_same_handle, "handle if1 of the chip at @ is in ccan_get in thread <, and the same thread calls"
        " ccan_set on it before that call has returned, as from a signal handler (promise 6 of ccan.h)"),
    MISUSE(a_signal_on_another_handle, "handle if1 of the chip at @ is in ccan_get in thread <, and the same thread calls"
        " ccan_status on handle bus of the chip at @ before that call has returned, as from a signal handler"
        " (promise 6 of ccan.h)"),
    MISUSE(a_null_handle, "thread < calls ccan_init with bus, which is null (promise 5 of ccan.h)"),
    MISUSE(a_null_chip, "thread < calls ccan_is_open with chip, which is null (promise 5 of ccan.h)"),
    MISUSE(a_null_output, "thread < calls ccan_status with out, which is null (promise 5 of ccan.h)"),
    MISUSE(null_offers, "thread < calls ccan_round with offers, which is null (promise 5 of ccan.h)"),
    MISUSE(a_pointer_between, "thread < calls ccan_flags with out at 0x*4, which is not aligned to 8 (promise 5 of ccan.h)"),
    MISUSE(offers_in_the_outcome, "thread < calls ccan_round with offers at 0x* and out at 0x*, which overlap"
        " (promise 5 of ccan.h)"),
    MISUSE(an_output_in_the_chip, "thread < calls ccan_line with host at 0x* and out at 0x*, which overlap"
        " (promise 5 of ccan.h)"),
    MISUSE(the_bus_as_a_host, "thread < calls ccan_request on handle bus of the chip at @, passed as a host's handle"
        " (promise 5 of ccan.h)"),
    MISUSE(a_host_as_the_bus, "thread < calls ccan_init on handle if2 of the chip at @, passed as handle bus"
        " (promise 5 of ccan.h)"),
    MISUSE(a_note_of_another_chip, "thread < calls ccan_heed on handle if2 of the chip at # with a note that a handle of the chip"
        " at @ told (promise 8 of ccan.h)"),
    MISUSE(a_copied_chip, "thread < calls ccan_set on a host's handle at 0x*, which is open, but no call opened it at this"
        " address: it was copied or moved from handle if2 of the chip at @ (promise 1 of ccan.h)"),
    MISUSE(a_copied_chip_that_ends, "thread < calls ccan_end on handle if1 of the chip at #, which is open, but no call opened"
        " it at this address: it was copied or moved from handle if1 of the chip at @ (promise 1 of ccan.h)"),
    MISUSE(a_chip_over_another, "thread < calls ccan_init on handle bus of the chip at #, whose insides changed after the last"
        " call on it: they were written or copied over (promise 1 of ccan.h)"),
    MISUSE(a_chip_of_rubbish, "thread < calls ccan_open on handle if1 of the chip at #, whose memory never was a chip: the"
        " first byte of the handle is 0x5a. A chip begins as CCAN_CHIP_CLOSED, or by ccan_chip_init (promise 1 of ccan.h)"),
    MISUSE(a_handle_of_rubbish, "thread < calls ccan_request on a host's handle at #, which is open, but no call opened it at"
        " this address: it was copied or moved, or its memory never was a chip (promise 1 of ccan.h)"),
    MISUSE(a_call_after_a_fork, "thread * calls ccan_set in process *, which is the child of a fork of a process with several"
        " threads (promise 6 of ccan.h)"),
    MISUSE(chips_without_end, "thread < calls ccan_open on handle * of the chip at 0x*, and the checked library has no room"
        " for more handles. Too many chips are open for it, or were let go without ccan_end: compile it with a greater"
        " CCAN_CHECKED_PLACES than 16384"),
};

/* ---- trying them */

/* The report as a pattern, with the addresses and the numbers of threads. */
static void fill(char *pattern, size_t room, const char *report, pid_t first_thread)
{
    size_t length = (size_t)snprintf(pattern, room, "libccan_checked: ");
    for (; *report != 0 && length < room - 20; report++) {
        switch (*report) {
        case '@': length += (size_t)sprintf(pattern + length, "%p", (void *)&chip); break;
        case '#': length += (size_t)sprintf(pattern + length, "%p", (void *)&other); break;
        case '<': length += (size_t)sprintf(pattern + length, "%d", first_thread); break;
        case '>': length += (size_t)sprintf(pattern + length, "%d", *second_thread); break;
        default: pattern[length++] = *report;
        }
    }
    pattern[length++] = '\n';
    pattern[length] = 0;
}

/* The child's standard error goes to the pipe. */
static void be_child(const struct misuse *misuse, int to)
{
    if (dup2(to, STDERR_FILENO) < 0 || close(to))
        exit(2);
    alarm(60);
    ignore(ccan_open(&chip, 1, 0, 1));
    misuse->make();
    exit(0);
}

/* Whether a misuse is reported as it has to be. */
static bool is_reported(const struct misuse *misuse)
{
    char printed[2000] = { 0 }, pattern[2000];
    size_t length = 0;
    ssize_t more;
    int ends[2], status;
    if (pipe(ends))
        exit(2);
    pid_t child = fork();
    if (child == 0)
        be_child(misuse, ends[1]);
    close(ends[1]);
    while ((more = read(ends[0], printed + length, sizeof printed - 1 - length)) > 0)
        length += (size_t)more;
    close(ends[0]);
    fill(pattern, sizeof pattern, misuse->report, child);
    bool aborted = waitpid(child, &status, 0) == child && WIFSIGNALED(status) && WTERMSIG(status) == SIGABRT;
    bool is_one_line = length > 0 && strchr(printed, '\n') == printed + length - 1;
    if (aborted && is_one_line && fnmatch(pattern, printed, 0) == 0)
        return true;
    printf("%s: not so:\n%s%s: %s", misuse->name, pattern, aborted ? "it aborted" : "it did not abort", printed);
    return false;
}

int main(int argc, char **argv)
{
    size_t tried = 0, bad = 0;
    second_thread = mmap(NULL, sizeof *second_thread, PROT_READ | PROT_WRITE, MAP_SHARED | MAP_ANONYMOUS, -1, 0);
    if (second_thread == MAP_FAILED)
        return 2;
    setvbuf(stdout, NULL, _IONBF, 0);
    for (size_t i = 0; i < sizeof misuses / sizeof misuses[0]; i++) {
        bool wanted = argc == 1;
        for (int k = 1; k < argc; k++)
            wanted = wanted || strcmp(argv[k], misuses[i].name) == 0;
        tried += wanted;
        bad += wanted && !is_reported(&misuses[i]);
    }
    printf("the checked library: %zu broken promises, %zu not reported as they have to be\n", tried, bad);
    return tried == 0 || bad != 0;
}
