/* What the user reads: the summary, the histories, progress; and the replay of one history. */
#include "explorer.h"
#include <stdio_ext.h>
#include <stdlib.h>
#include <sys/syscall.h>
#include <unistd.h>

enum { COLUMN = 4, NAME = 12, MOST_SEGMENTS = MOST_DEPTH };

/* ---- the program's own output */

/* Printing is a step, since the order of what is printed is part of an outcome. */
static ssize_t take_output(void *unused, const char *text, size_t size)
{
    enum { TEXT_BYTES = 1 << 20 };
    static const footprint printing = { .reads = { [ROW_CONTROLLER] = PRINTED }, .writes = { [ROW_CONTROLLER] = PRINTED } };
    (void)unused;
    step(&printing);
    add_footprint(E->event, &printing);
    if (R.printed + size > TEXT_BYTES)
        ccan_fail("the program prints more than a megabyte");
    copy_bytes(E->text + R.printed, text, size);
    R.printed += size;
    return (ssize_t)size;
}

static FILE *opened_output(void)
{
    FILE *made = fopencookie(NULL, "w", (cookie_io_functions_t){ .write = take_output });
    setvbuf(made, NULL, _IONBF, 0);
    __fsetlocking(made, FSETLOCKING_BYCALLER); /* a thread may pause in it */
    return made;
}

void begin_output(void)
{
    E->real_out = stdout;
    E->files = malloc(1);
    stdout = opened_output();
    stderr = opened_output();
    E->files_end = malloc(1);
}

/* ---- histories */

/* A history by its segments: so many places of one thread; and by the ways that were taken. */
typedef struct { uint8_t thread; uint64_t places; } segment;
static struct {
    segment segments[MOST_SEGMENTS];
    uint8_t ways[MOST_DEPTH];
    int count, way_count, step;
    FILE *to;
    size_t shown; /* of what the program printed */
} *H;

/* A line of a step, in the text of the history and in its picture. */
static void show_line(const char *line)
{
    if (H->to)
        fprintf(H->to, "%6d  %-*s%*s%s\n", H->step, NAME, ME->name, COLUMN * R.me, "", line);
    if (E->drawing)
        tell_row(H->step, line);
}

void tell_line(const char *format, ...)
{
    static char line[2048];
    va_list arguments;
    if ((!H->to && !E->drawing) || R.alone)
        return;
    bool was_running = E->running;
    E->running = false;
    va_start(arguments, format);
    vsnprintf(line, sizeof line, format, arguments);
    va_end(arguments);
    show_line(line);
    E->running = was_running;
}

/* What the program printed in the last step. */
static void tell_printed(void)
{
    static char line[2048];
    if ((H->to || E->drawing) && R.printed > H->shown) {
        size_t size = R.printed - H->shown - (E->text[R.printed - 1] == '\n');
        snprintf(line, sizeof line, "prints %.*s", (int)size, E->text + H->shown);
        show_line(line);
    }
    H->shown = R.printed;
}

/* A step is made, and all that it told is there. */
static void end_step(void)
{
    tell_printed();
    if (E->drawing)
        settle_rows();
}

static void note_segment(int number, uint64_t places)
{
    segment *last = H->count ? &H->segments[H->count - 1] : NULL;
    if (last && last->thread == number)
        last->places += places;
    else if (H->count < MOST_SEGMENTS)
        H->segments[H->count++] = (segment){ (uint8_t)number, places };
}

static void begin_history(FILE *to)
{
    if (!H)
        H = own_memory(sizeof *H);
    H->count = H->way_count = H->step = 0;
    H->shown = 0;
    H->to = to;
    E->telling = true;
    if (E->drawing)
        forget_rows();
    restart_program();
    H->shown = R.printed;
    if (E->drawing)
        settle_rows();
}

void run_again(const choice *path, int depth, FILE *to)
{
    begin_history(to);
    note_segment(0, R.threads[0].fine);
    for (int at = 0; at < depth && E->ending == GOES_ON; at++) {
        footprint event;
        thread *of = &R.threads[path[at].thread];
        uint64_t before = of->fine;
        H->step = at + 1;
        if (of->alternatives > 1)
            H->ways[H->way_count++] = path[at].alternative;
        make_step(path[at].thread, path[at].alternative, &event);
        bool has_ended = of->is_done || E->ending != GOES_ON; /* then it is not at a place, but behind its last one */
        note_segment(path[at].thread, of->fine - before + has_ended);
        end_step();
    }
    E->telling = false;
}

/* The history as a word, for --replay: letters for threads, each with its places, =N for each way that is taken, and a dot where
 * it stands still then. */
void print_replay(FILE *to, bool stands_still)
{
    fprintf(to, "replay: --every --replay ");
    for (int i = 0; i < H->count; i++)
        fprintf(to, "%c%llu", 'a' + H->segments[i].thread, (unsigned long long)H->segments[i].places);
    for (int i = 0; i < H->way_count; i++)
        fprintf(to, "=%u", H->ways[i]);
    fprintf(to, stands_still ? ".\n" : "\n");
}

static uint64_t number_in(const char **text)
{
    uint64_t number = 0;
    for (; **text >= '0' && **text <= '9'; ++*text)
        number = number * 10 + (uint64_t)(**text - '0');
    return number;
}

/* Whether it stands still at its end. */
static bool read_replay(const char *text)
{
    const char *whole = text;
    while (*text >= 'a' && *text < 'a' + MOST_THREADS) {
        uint8_t number = (uint8_t)(*text++ - 'a');
        note_segment(number, number_in(&text));
    }
    while (*text == '=') {
        text++;
        H->ways[H->way_count++] = (uint8_t)number_in(&text);
    }
    bool stands_still = *text == '.';
    if (text[stands_still] || !H->count)
        stop(2, "this is no history: %s", whole);
    H->way_count = 0;
    return stands_still;
}

uint32_t next_replayed_choice(uint32_t alternatives)
{
    uint32_t way = H->ways[H->way_count++];
    if (way >= alternatives)
        stop(2, "the history is of another program");
    return way;
}

/* Runs one history, and says how it ended. */
void replay(const char *text)
{
    footprint event = { 0 };
    H = own_memory(sizeof *H);
    bool stands_still = read_replay(text);
    E->replaying = true;
    E->telling = true;
    H->to = E->real_out;
    E->replay_until = H->segments[0].places;
    E->drawing = E->options.picture != NULL;
    if (E->drawing)
        forget_rows();
    restart_program();
    if (E->drawing)
        settle_rows();
    for (int i = 1; i < H->count && E->ending == GOES_ON && !R.threads[0].is_done; i++) {
        int number = H->segments[i].thread;
        if (number >= R.count || R.threads[number].is_done)
            stop(2, "the history is of another program");
        H->step = i;
        E->replay_until = R.threads[number].fine + H->segments[i].places;
        make_step(number, 0, &event);
        end_step();
    }
    if (stands_still && E->ending == GOES_ON)
        E->ending = stand_still();
    const char *end = E->ending == FAILED ? E->failure : "the schedule ends";
    fprintf(E->real_out, "%.*s%s\n", (int)R.printed, E->text, end);
    fflush(E->real_out);
    if (E->drawing)
        draw_rows(E->options.picture, end);
}

/* ---- the summary */

static void print_counting(FILE *to)
{
    uintptr_t *sites;
    int count = counting_sites(&sites);
    for (int i = 0; i < count; i++)
        fprintf(to, "note: the loop that waits at %s counts its turns; more than %u of them are not gone through\n",
            line_of_code(sites[i]), (unsigned)E->options.turns);
}

/* Where a number of schedules was asked for, and there is none. */
static void print_uncounted(FILE *to)
{
    if (E->options.counts && !E->figures.counted)
        fprintf(to, "note: the schedules were not counted, since %s was given up\n",
            E->figures.whole ? "the search that counts them" : "the search");
}

static void print_clock(FILE *to)
{
    if (E->clock_site)
        fprintf(to, "note: the clock that is read at %s stands still; time is only up at the end of a wait\n",
            line_of_code(E->clock_site));
}

static const char *how_far(void)
{
    uintptr_t *sites;
    bool counts = counting_sites(&sites) != 0;
    if (!E->figures.whole)
        return "given up";
    if (outcomes_dropped())
        return "whole but for outcomes that are not listed";
    if (E->clock_site)
        return counts ? "whole but for clocks and counted turns" : "whole but for clocks";
    return counts ? "whole but for counted turns" : "whole";
}

void print_result(void)
{
    const figures *of = &E->figures;
    FILE *to = E->real_out;
    print_outcomes(to);
    if (E->options.picture && (int)E->options.outcome > outcomes_found())
        fprintf(to, "note: there is no outcome %u to draw\n", (unsigned)E->options.outcome);
    print_uncounted(to);
    if (E->options.brief) {
        fprintf(to, "%s\n", how_far());
        fflush(to);
        return;
    }
    fputc('\n', to);
    print_races(to);
    print_counting(to);
    print_clock(to);
    if (outcomes_dropped())
        fprintf(to, "warning: there are more outcomes than the %d that are listed and counted\n", outcomes_found());
    if (of->whole && !outcomes_found())
        fprintf(to, "warning: no schedule comes to its end\n");
    fprintf(to, "%s: %llu states, %s%s%d outcome%s, %llu failure%s, %d shared word%s, longest schedule %llu steps, %.1f s\n",
        how_far(), (unsigned long long)of->states, of->counted ? schedules_text(schedules_found()) : "",
        of->counted ? ", " : "", outcomes_found(), outcomes_found() == 1 ? "" : "s",
        (unsigned long long)failures_found(), failures_found() == 1 ? "" : "s", words_shared(), words_shared() == 1 ? "" : "s",
        (unsigned long long)of->longest, of->seconds);
    fprintf(to, "The chip's steps and this search are tested, and not proved.\n");
    fflush(to);
}

void show_progress(bool last)
{
    static const char *const clear = "\r\033[K";
    double now;
    if (!E->options.progress || (!last && E->figures.runs % 512) || (!last && (now = seconds_now()) < E->next_progress))
        return;
    char line[160];
    int length = last ? snprintf(line, sizeof line, "%s", clear) :
        snprintf(line, sizeof line, "%s%llu states, %llu runs, %d outcomes, %llu failures, %.0f s", clear,
            (unsigned long long)E->figures.states, (unsigned long long)E->figures.runs, outcomes_found(),
            (unsigned long long)failures_found(), now - E->began);
    E->next_progress = last ? 0 : now + 0.5;
    if (syscall(SYS_write, 2, line, (size_t)length) < 0)
        E->options.progress = false;
}
