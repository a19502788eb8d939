/* The beginning: the options, and the search in place of the program's main. */
#include "explorer.h"
#include <elf.h>
#include <signal.h>
#include <stdlib.h>
#include <string.h>
#include <sys/syscall.h>
#include <ucontext.h>
#include <unistd.h>

enum { WHOLE = 0, REFUSED = 2, GIVEN_UP = 5, FAILURE = 6 };

static const char help[] =
    "Options behind --every, or in the environment variable CCAN_EVERY:\n"
    "  --most STATES      gives up after so many states (10000000 if left out, 0 for no limit)\n"
    "  --seconds SECONDS  gives up after so many seconds\n"
    "  --turns N          goes through the first N turns of each loop that counts its turns (0 if left out)\n"
    "  --first            ends at the first failure\n"
    "  --histories        prints a history of each outcome, and not only of the failures\n"
    "  --count            counts the schedules of each outcome, however many states there are\n"
    "  --replay HISTORY   runs one history alone, as it stands below an outcome\n"
    "  --svg FILE         draws the history of the first failure, or of the first outcome if none fails, or that of --replay\n"
    "  --outcome N        draws that of outcome N of the list\n"
    "  --quiet            shows no progress on a terminal\n"
    "  --brief            prints what the schedules end in, and nothing else\n"
    "  --all-steps, --no-sleep, --no-known, --no-turns  leave out a part of what makes the search fast; for tests\n"
    "Statuses: 0 whole and no failure, 6 a failure, 5 given up without one, 2 refused.\n";

/* ---- options */

static double number_of(const char *name, const char *text)
{
    char *end = NULL;
    double number = text ? strtod(text, &end) : -1;
    if (!text || *end || end == text || number < 0)
        stop(REFUSED, "%s needs a number", name);
    return number;
}

static void read_option(char **words, int *at)
{
    options *of = &E->options;
    const char *word = words[*at];
    bool *flag = !strcmp(word, "--first") ? &of->stops_at_first : !strcmp(word, "--histories") ? &of->histories :
        !strcmp(word, "--all-steps") ? &of->all_steps : !strcmp(word, "--no-sleep") ? &of->no_sleep :
        !strcmp(word, "--no-known") ? &of->no_known : !strcmp(word, "--no-turns") ? &of->no_turns :
        !strcmp(word, "--brief") ? &of->brief : !strcmp(word, "--count") ? &of->counts : NULL;
    if (flag) {
        *flag = true;
    } else if (!strcmp(word, "--quiet")) {
        of->progress = false;
    } else if (!strcmp(word, "--most")) {
        of->most = (uint64_t)number_of(word, words[++*at]);
    } else if (!strcmp(word, "--seconds")) {
        of->seconds = number_of(word, words[++*at]);
    } else if (!strcmp(word, "--turns")) {
        of->turns = (uint32_t)number_of(word, words[++*at]);
    } else if (!strcmp(word, "--replay") && words[*at + 1]) {
        of->replay = words[++*at];
    } else if (!strcmp(word, "--svg") && words[*at + 1]) {
        of->picture = words[++*at];
    } else if (!strcmp(word, "--outcome")) {
        of->outcome = (uint32_t)number_of(word, words[++*at]);
    } else if (!strcmp(word, "--help")) {
        fputs(help, stdout);
        fflush(stdout);
        _exit(WHOLE);
    } else {
        stop(REFUSED, "no option is %s; --every --help lists them", word);
    }
}

static void read_options(char **words)
{
    for (int at = 0; words[at]; at++)
        read_option(words, &at);
}

static void read_environment(void)
{
    static char text[1024], *words[64];
    const char *given = getenv("CCAN_EVERY");
    int count = 0;
    if (!given)
        return;
    snprintf(text, sizeof text, "%s", given);
    for (char *word = strtok(text, " "); word && count < 63; word = strtok(NULL, " "))
        words[count++] = word;
    read_options(words);
}

/* ---- signals: a crash of the program is a failure, and the user may end the search */

static void end_crashed(void)
{
    char failure[sizeof E->failure];
    copy_bytes(failure, E->failure, sizeof failure); /* others may fail meanwhile */
    last_place();
    copy_bytes(E->failure, failure, sizeof failure);
    end_run(FAILED);
}

static void note_crash(int number, siginfo_t *info, void *context)
{
    greg_t *registers = ((ucontext_t *)context)->uc_mcontext.gregs;
    (void)info;
    if (!E->running)
        stop(REFUSED, "the search itself has crashed, by signal %d", number);
    snprintf(E->failure, sizeof E->failure, "%s crashes, by signal %d, at %s", ME->name, number,
        name_of_code((uintptr_t)registers[REG_RIP]));
    registers[REG_RIP] = (greg_t)end_crashed;
    registers[REG_RSP] = (greg_t)((((uintptr_t)ME->stack_top - STACK_BYTES / 2) & ~(uintptr_t)15) - 8);
}

static void note_interrupt(int number)
{
    (void)number;
    E->interrupted = true;
}

/* Where a thread makes no step for long, the search can't go on. */
static void note_time(int number, siginfo_t *info, void *context)
{
    enum { SECONDS = 20 };
    (void)number, (void)info;
    uint64_t now = E->figures.runs * 1000003 + (uint64_t)E->depth + E->figures.states;
    E->still = now == E->last_seen ? E->still + 1 : 0;
    E->last_seen = now;
    if (E->still == SECONDS && E->running)
        stop(GIVEN_UP, "given up: %s has run for %d seconds without a step, at %s", ME->name, SECONDS,
            name_of_code((uintptr_t)((ucontext_t *)context)->uc_mcontext.gregs[REG_RIP]));
    alarm(1);
}

extern int __sigaction(int number, const struct sigaction *action, struct sigaction *before);

static void take_signals(void)
{
    static const int crashes[] = { SIGSEGV, SIGBUS, SIGFPE, SIGILL };
    stack_t stack = { .ss_sp = own_memory(65536), .ss_size = 65536 };
    struct sigaction action = { .sa_sigaction = note_crash, .sa_flags = SA_SIGINFO | SA_ONSTACK | SA_NODEFER };
    sigaltstack(&stack, NULL);
    for (size_t i = 0; i < sizeof crashes / sizeof crashes[0]; i++)
        __sigaction(crashes[i], &action, NULL);
    action.sa_sigaction = note_time;
    action.sa_flags = SA_SIGINFO | SA_ONSTACK | SA_RESTART;
    __sigaction(SIGALRM, &action, NULL);
    alarm(1);
    struct sigaction interrupt = { .sa_handler = note_interrupt, .sa_flags = SA_ONSTACK | SA_RESTART };
    __sigaction(SIGINT, &interrupt, NULL);
}

/* ---- main */

/* The program's own arguments end at --every. */
static void take_arguments(int count, char **list)
{
    int own = 0;
    E->argument_list = list;
    while (own < count && strcmp(list[own], "--every"))
        own++;
    E->arguments = own;
    read_environment();
    if (own < count) {
        list[own] = NULL;
        read_options(list + own + 1);
    }
}

static int status(void)
{
    if (failures_found())
        return FAILURE;
    return E->figures.whole ? WHOLE : GIVEN_UP;
}

int __wrap_main(int count, char **list)
{
    E = own_memory(sizeof *E);
    E->options = (options){ .most = 10000000, .outcome = 1, .progress = isatty(2) };
    take_arguments(count, list);
    if (!has_hooks)
        stop(REFUSED, "the program was compiled without -fsanitize=thread, so its memory can't be seen");
    begin_thread_locals();
    begin_shared();
    begin_turns();
    begin_output();
    take_signals();
    begin_checkpoints();
    if (E->options.replay) {
        replay(E->options.replay);
        _exit(E->ending == FAILED ? FAILURE : WHOLE);
    }
    search();
    show_progress(true);
    alarm(0);
    print_result();
    _exit(status());
}
