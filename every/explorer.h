/* What the parts of libccan-every share: the state of a run, the steps of its threads, and the explorer's own memory. */
#ifndef EXPLORER_H
#define EXPLORER_H
#define _GNU_SOURCE
#include <ccan_every.h>
#include <stdarg.h>
#include <stdbool.h>
#include <stddef.h>
#include <stdint.h>
#include <stdio.h>
#include <time.h>

enum { MOST_THREADS = 12, MOST_CPUS = 8, MOST_DEPTH = 20000, MOST_WRITES = 16, MOST_KEYS = 8, STACK_BYTES = 256 * 1024 };

/* ---- footprints: what a step reads and writes */

/* Rows of a footprint, of 64 places each. Of the objects: object k at bit k - 1. */
enum row {
    ROW_NEWDAT, ROW_MSGLST, ROW_INTPND, ROW_TXRQST, ROW_MSGVAL, ROW_REST, ROW_DATA,
    ROW_CONTROLLER, ROW_INTERFACES, /* parts of the controller, and PRINTED; registers of IF1 from bit 0 on, of IF2 from bit 16 on */
    ROW_MEMORY,                     /* words of the program that threads share */
    ROW_TOKENS,                     /* processors, ends of threads, the creation of threads */
    ROWS
};
#define PRINTED (1ull << 63) /* what the program has printed */
typedef struct { uint64_t reads[ROWS], writes[ROWS]; } footprint;

bool conflict(const footprint *a, const footprint *b);
bool add_footprint(footprint *to, const footprint *from); /* whether `to` grew */
enum { TOKEN_CPU = 0, TOKEN_THREAD = 16, TOKEN_CREATION = 63 };

/* ---- threads */

/* Whether a thread's next step may be made, by what it is about. */
typedef struct thread thread;
typedef bool condition(const thread *of);

/* An access to memory of the program that a thread's next step begins with; size 0: none. */
typedef struct { uintptr_t at, pc; uint32_t size; bool writes, is_atomic; } memory_access;

/* A word of the program that a thread has written in its turn, with its value before. */
typedef struct { uintptr_t at; uint64_t before; } old_word;

/* The stack of a thread at a wait, by its bytes: one for all that are the same. */
typedef struct locals { struct locals *next; uint64_t key[2]; uint32_t size; char bytes[]; } locals;

struct thread {
    const char *name, *body_name;
    void *(*body)(void *);
    void *argument, *result, *stack_top, *sp;
    bool is_done, is_interrupt, waits_for_quiet;
    bool may_stay;              /* a run in which its next step is never made is none */
    struct timespec woke;       /* the time that was up, at the end of its last wait, if it has read no clock since then */
    int cpu;                    /* 0: a processor of its own */
    condition *may;             /* what its next step waits for; NULL: nothing */
    const void *about;
    uint32_t alternatives;      /* in how many ways its next step goes on */
    memory_access next;
    uint32_t steps, accesses;   /* accesses: since its last place */
    bool gives_way;
    uint64_t fine;              /* calls of step and touch, which are the places of a replay */
    /* Its turn: what it did since its last wait (turns.c). */
    bool at_wait, is_fresh, is_idle, is_counting, counts_on, turn_overflows;
    footprint turn, looked;
    const locals *base;
    uintptr_t site, base_site;
    uint32_t written, passed, counted;
    old_word old[MOST_WRITES];
    int error_number;
    void *own_values[MOST_KEYS];
};

/* All of a run that is put back with a checkpoint, besides the chip and the memory of the program. */
typedef struct {
    int count, me;
    bool alone;                 /* no thread but `me` makes steps */
    int handler_on[MOST_CPUS];  /* the thread whose interrupt handler runs on this processor, less 1 */
    int masked[MOST_CPUS];
    size_t printed;
    size_t used[MOST_THREADS];  /* of each thread's arena */
    int keys;
    void (*destructors[MOST_KEYS])(void *);
    thread threads[MOST_THREADS];
} run_state;

/* How a run ends. */
enum ending { GOES_ON, COMPLETE, FAILED, KNOWN, ASLEEP, TOO_LONG };

/* ---- the explorer's own memory, of which nothing is put back */

typedef struct { uint64_t states, runs, ends, restarts, longest; bool whole, counted; double seconds; } figures;

typedef struct {
    uint64_t most;
    uint32_t turns;
    double seconds;
    bool stops_at_first, histories, progress, brief, counts, no_known, no_sleep, all_steps, no_turns;
    const char *replay, *picture;
    uint32_t outcome;           /* the number of the one that is drawn */
} options;

typedef struct explorer {
    run_state run;
    options options;
    figures figures;
    bool running;               /* a program's thread runs, or the explorer on its behalf */
    bool telling, replaying, grew;
    bool drawing;               /* what is told goes to a picture */
    bool counting;              /* the search that counts schedules goes on */
    double began;
    volatile bool interrupted;
    double next_progress;
    uint64_t last_seen;         /* by the alarm: how far the search was, and for how many seconds it was there */
    int still;
    uint64_t replay_until;      /* the place of `me` at which a replay goes on with another thread */
    enum ending ending;
    char failure[512];
    footprint *event;           /* of the step that is going on */
    footprint scratch;
    int depth;
    uint32_t alternative;       /* the one by which the step goes on */
    void *scheduler_sp;
    char *data, *own, *own_end, *data_end, *data_saved; /* the program's variables, less the explorer's own */
    char *files, *files_end;    /* stdout and stderr of the program */
    char *stacks, *arena, *text;
    FILE *real_out;
    footprint reach[MOST_THREADS]; /* what each thread has touched or waited for in any run so far */
    bool learning, met_last;    /* the ends of runs are places; whether one was */
    bool clocks_stand;          /* the program says that clocks stand still */
    uintptr_t clock_site;       /* where it first read one; 0: nowhere */
    int arguments;
    char **argument_list;
} explorer;
extern explorer *the_explorer;
#define E the_explorer
#define R (E->run)
#define ME (&R.threads[R.me])

/* memory.c: for the explorer, from the system */
void *own_memory(size_t bytes);  /* pages, all zero */
void *own_pool(size_t bytes);    /* small pieces, which stay */

/* Copies that no hook sees. */
static inline void copy_bytes(void *to, const void *from, size_t bytes)
{
    __asm__ volatile("rep movsb" : "+D"(to), "+S"(from), "+c"(bytes) : : "memory");
}

/* The two may overlap. */
static inline void move_bytes(void *to, const void *from, size_t bytes)
{
    if ((uintptr_t)to - (uintptr_t)from >= bytes)
        copy_bytes(to, from, bytes);
    else
        for (size_t i = bytes; i-- > 0;)
            ((volatile char *)to)[i] = ((const char *)from)[i];
}

static inline void clear_bytes(void *at, size_t bytes)
{
    __asm__ volatile("rep stosb" : "+D"(at), "+c"(bytes) : "a"(0) : "memory");
}

static inline size_t text_length(const char *text)
{
    size_t length = 0;
    while (text[length])
        length++;
    return length;
}

double seconds_now(void);
void stop(int status, const char *format, ...) __attribute__((format(printf, 2, 3), noreturn));

/* steps.c: a step is a place where others may step before it. `most`: what it may touch at most. */
void step(const footprint *most);
void step_when(const footprint *most, condition *may, const void *about);
uint32_t step_choosing(uint32_t alternatives);
uint32_t next_replayed_choice(uint32_t alternatives);
void last_place(void);     /* the place before a run ends */
void learn(int thread, const footprint *touched);
void pause_here(condition *may, const void *about, uint32_t alternatives); /* a place, always */
bool replay_passes(void);  /* whether a replay goes on through this place */
void end_run(enum ending ending) __attribute__((noreturn));
bool may_step(int thread);
uint32_t threads_that_may(void);
void resume(int thread);
void apply_event(int thread, const footprint *event); /* what the step of a thread is to the turns of the others */

/* threads.c */
int begin_thread(const char *name, void *(*body)(void *), void *argument);

/* thread_locals.c */
void begin_thread_locals(void);
size_t room_of_thread_locals(void);
void first_thread_locals(const thread *of);
void put_thread_locals(const thread *of);   /* into their place, before it runs */
void keep_thread_locals(const thread *of);  /* at the top of its stack, after it ran */
void destroy_own_values(void);

/* turns.c */
void end_turn(int thread);
void turns_key(uint64_t key[2]);
bool count_on(void);
void note_write(uintptr_t at);
int counting_sites(uintptr_t **sites);
void forget_sites(void);
void begin_turns(void);
void begin_checkpoints(void);

/* shared.c */
void touch(const void *at, size_t size, bool writes, bool is_atomic, uintptr_t pc);
void touch_when(const void *at, size_t size, uintptr_t pc, condition *may); /* an atomic change, when `may` lets it */
void mark(const void *at, size_t size, bool writes);                        /* part of the step that is going on */
void give(void *to, const void *from, size_t size); /* writes an output of a call of ccan.h */
bool is_programs(uintptr_t at);
extern bool has_hooks; /* whether any part of the program was compiled with -fsanitize=thread */
void begin_shared(void);
void finish_writes(void);
int words_shared(void);
void find_races(uint32_t may);
void forget_races(void);
int races_found(void);
void print_races(FILE *to);

/* arena.c */
enum { ARENA_BYTES = 1 << 20 };

/* checkpoint.c */
typedef struct checkpoint checkpoint;
void save_state(checkpoint **where);
void restore_state(const checkpoint *from);
void restart_program(void);
void hash_bytes(uint64_t key[2], const void *at, size_t bytes);
void state_key(uint64_t key[2]);

/* search.c */
void search(void);
enum ending stand_still(void);  /* what it is that no thread may step */
void make_step(int chosen, uint32_t alternative, footprint *event);

/* known.c: the states that were seen, each with the threads that were asleep there */
uint16_t *known_state(const uint64_t key[2], bool *is_new);
void forget_known(void);

/* counts.c: the graph of states, and the number of ways through it */
enum { COUNTED_START };
void begin_counts(void);
uint32_t counted_state(const uint64_t key[2], bool *is_new);
void counted_step(uint32_t from, uint32_t to, bool is_new);
void counted_end(uint32_t from, int outcome);
void counted_whole(uint32_t state); /* all steps from it are known */
void count_ways(void);
uint64_t add_saturating(uint64_t a, uint64_t b);
bool counts_have_cycle(void);

/* outcomes.c, output.c, names.c */
typedef struct { uint8_t thread; uint8_t alternative; } choice;
int keep_outcome(const choice *path, int depth, bool is_failure); /* its number, or -1 where there are too many */
uint64_t *schedules_of_outcome(int number);
uint64_t schedules_found(void);
const char *schedules_text(uint64_t number);
void count_runs_as_schedules(void);
void forget_outcomes(void);
uint64_t failures_found(void);
int outcomes_found(void);
bool outcomes_dropped(void); /* whether there were more than can be listed */
void print_result(void);
void print_outcomes(FILE *to);
void print_replay(FILE *to, bool stands_still);
void begin_output(void);
void show_progress(bool last);
void tell_line(const char *format, ...) __attribute__((format(printf, 1, 2)));
#define tell(...) (E->telling ? tell_line(__VA_ARGS__) : (void)0)
void run_again(const choice *path, int depth, FILE *to);
void replay(const char *text);
const char *name_of_data(uintptr_t at);
const char *name_of_code(uintptr_t pc);     /* the function */
const char *line_of_code(uintptr_t pc);     /* function (file:line), by addr2line */

/* rows.c and picture.c: a history that is drawn */
typedef struct { int step, thread; const char *name, *words; uint64_t flags[4]; } row; /* flags: NewDat, MsgLst, IntPnd, TxRqst */
void forget_rows(void);
void tell_row(int step, const char *line);
void settle_rows(void);
int rows_told(const row **rows);
void draw_rows(const char *path, const char *ending);

/* ---- the chip, for the explorer (chip/) */
void chip_reset(void);
void chip_flags(uint64_t flags[4]); /* of the objects: NewDat, MsgLst, IntPnd, TxRqst */
size_t chip_bytes(void **at);
bool chip_pulls_line(void);
void chip_line_footprint(footprint *into);
void chip_line_reach(footprint *into); /* all that it may depend on */
#endif
