/* What schedules ended in: what the program printed, or a failure. Of each the number of schedules, and the shortest found. */
#include "explorer.h"

typedef struct { uint64_t key[2], runs, schedules; bool is_failure; char *text; choice *path; int depth, room; } outcome;
enum { MOST_OUTCOMES = 4096 };
static struct { outcome list[MOST_OUTCOMES]; int count; uint64_t failures, dropped; } *O;

static outcome *outcome_of(const uint64_t key[2])
{
    for (int i = 0; i < O->count; i++)
        if (O->list[i].key[0] == key[0] && O->list[i].key[1] == key[1])
            return &O->list[i];
    if (O->count == MOST_OUTCOMES)
        return NULL;
    outcome *made = &O->list[O->count++];
    *made = (outcome){ .key = { key[0], key[1] }, .depth = MOST_DEPTH };
    return made;
}

/* What the program printed, with the failure below it. */
static char *text_now(bool is_failure)
{
    size_t size = R.printed + (is_failure ? sizeof E->failure : 0) + 2;
    char *text = own_pool(size);
    copy_bytes(text, E->text, R.printed);
    if (is_failure)
        snprintf(text + R.printed, sizeof E->failure + 1, "%s\n", E->failure);
    return text;
}

static void keep_path(outcome *of, const choice *path, int depth)
{
    if (depth > of->room) {
        of->room = depth * 2;
        of->path = own_pool((size_t)of->room * sizeof *path);
    }
    copy_bytes(of->path, path, (size_t)depth * sizeof *path);
    of->depth = depth;
}

int keep_outcome(const choice *path, int depth, bool is_failure)
{
    uint64_t key[2] = { (uint64_t)is_failure, 1 };
    if (!O)
        O = own_memory(sizeof *O);
    size_t length = 0;
    while (is_failure && E->failure[length])
        length++;
    hash_bytes(key, E->text, is_failure ? 0 : R.printed);
    hash_bytes(key, E->failure, length);
    outcome *of = outcome_of(key);
    O->failures += is_failure && (!of || !of->runs);
    if (!of) {
        O->dropped++;
        return -1;
    }
    if (!of->runs++) {
        of->is_failure = is_failure;
        of->text = text_now(is_failure);
    }
    if (depth < of->depth)
        keep_path(of, path, depth);
    return (int)(of - O->list);
}

uint64_t *schedules_of_outcome(int number) { return &O->list[number].schedules; }

/* Of all outcomes. */
uint64_t schedules_found(void)
{
    uint64_t all = 0;
    for (int i = 0; i < outcomes_found(); i++)
        all = add_saturating(all, O->list[i].schedules);
    return all;
}

/* After a search in which each schedule was a run of its own. */
void count_runs_as_schedules(void)
{
    for (int i = 0; i < outcomes_found(); i++)
        O->list[i].schedules = O->list[i].runs;
}

void forget_outcomes(void)
{
    if (O) {
        O->count = 0;
        O->failures = O->dropped = 0;
    }
}

uint64_t failures_found(void) { return O ? O->failures : 0; }
int outcomes_found(void) { return O ? O->count : 0; }
bool outcomes_dropped(void) { return O && O->dropped; }

/* ---- printing */

/* A number of schedules: at least so many where it is too large to be counted, or where a schedule may go round in a cycle. */
const char *schedules_text(uint64_t number)
{
    static char text[64];
    bool is_least = number == UINT64_MAX || counts_have_cycle();
    snprintf(text, sizeof text, "%s%llu schedule%s", is_least ? "at least " : "", (unsigned long long)number,
        number == 1 ? "" : "s");
    return text;
}

/* Its history as a picture, if it is the one that was asked for. */
static void draw(const outcome *of, int number)
{
    if (!E->options.picture || number != (int)E->options.outcome)
        return;
    E->drawing = true;
    run_again(of->path, of->depth, NULL);
    draw_rows(E->options.picture, of->text);
    E->drawing = false;
}

/* What it ends in, with the end of its last line. */
static void print_text(FILE *to, const outcome *of)
{
    size_t length = text_length(of->text);
    fprintf(to, "%s%s", of->text, length && of->text[length - 1] != '\n' ? "\n" : "");
}

static void print_one(FILE *to, const outcome *of, int number)
{
    const char *kind = of->is_failure ? "failure" : "outcome", *by = E->figures.counted ? ", by " : "";
    const char *schedules = E->figures.counted ? schedules_text(of->schedules) : "";
    bool with_history = of->is_failure || E->options.histories;
    if (E->options.brief) {
        fprintf(to, "%s%s%s: ", kind, E->options.counts ? by : "", E->options.counts ? schedules : "");
        print_text(to, of);
        draw(of, number);
        return;
    }
    fprintf(to, "\n%s %d%s%s", kind, number, by, schedules);
    fprintf(to, "; the shortest that was found has %d step%s\n", of->depth, of->depth == 1 ? "" : "s");
    print_text(to, of);
    run_again(of->path, of->depth, with_history ? to : NULL);
    print_replay(to, of->is_failure && E->ending == GOES_ON);
    draw(of, number);
}

void print_outcomes(FILE *to)
{
    int number = 0;
    for (int failures = 1; failures >= 0; failures--)
        for (int i = 0; i < outcomes_found(); i++)
            if (O->list[i].is_failure == (failures == 1))
                print_one(to, &O->list[i], ++number);
}
