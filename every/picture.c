/* A history as a picture, as `ccan-lab draw` draws a run (docs/OUTPUT.md): a lane for each thread, a row for each step, and bars
 * that show how long the flags of an object are set. */
#include "picture.h"
#include <fcntl.h>
#include <sys/syscall.h>
#include <unistd.h>

enum {
    NUMBER_X = 8, LANES_X = 56, LANE_GAP = 8, HOST_GLYPHS = 20, BUS_GLYPHS = 36, WORDS_GLYPHS = 76, OBJECT_WIDTH = 64,
    BAR_PITCH = 13, BAR_WIDTH = 8, HEADING_Y = 30, HEADING_HEIGHT = 36, HEADING_ROWS = 40, MARK = 11, LEAST_WIDTH = 980,
    LEGEND_X = 592, FLAGS = 4
};
static const char *const flag_words[FLAGS] = { "NewDat", "MsgLst", "IntPnd", "TxRqst" };
static const char letters[] = "NLIT";

/* A lane: whether its thread has a row, its heading, where it begins, and how many glyphs it has. */
typedef struct { bool has_rows; const char *name; int x, glyphs; } lane;
typedef struct {
    const row *rows;
    int count, flags_x, words_x, width, bottom;
    lane lanes[MOST_THREADS];
    uint64_t objects;   /* whose flags are shown */
    int *tops;          /* of the rows, and the bottom of the last */
    const char *ending; /* what the history ends in */
    FILE *to;
} picture;

/* ---- where things stand */

static int lane_width(const lane *of) { return of->glyphs * GLYPH + 12; }

static void find_lanes(picture *of)
{
    for (int i = 0; i < of->count; i++) {
        lane *its = &of->lanes[of->rows[i].thread];
        its->has_rows = true;
        its->name = of->rows[i].name;
        its->glyphs = is_of_bus(of->rows[i].words) || its->glyphs == BUS_GLYPHS ? BUS_GLYPHS : HOST_GLYPHS;
        of->objects |= objects_named(of->rows[i].words);
        for (int flag = 0; flag < FLAGS; flag++)
            of->objects |= of->rows[i].flags[flag];
    }
}

static void place_columns(picture *of)
{
    int x = LANES_X;
    for (int number = 0; number < MOST_THREADS; number++) {
        lane *its = &of->lanes[number];
        its->x = x;
        x += its->has_rows ? lane_width(its) + LANE_GAP : 0;
    }
    of->flags_x = x + LANE_GAP;
    of->words_x = of->flags_x + __builtin_popcountll(of->objects) * OBJECT_WIDTH + GLYPH;
    of->width = of->words_x + WORDS_GLYPHS * GLYPH + GLYPH;
    of->width = of->width < LEAST_WIDTH ? LEAST_WIDTH : of->width;
}

static int lane_lines(const picture *of, int i)
{
    return put_lane(NULL, 0, 0, of->rows[i].words, (size_t)of->lanes[of->rows[i].thread].glyphs);
}

static size_t ending_glyphs(const picture *of) { return (size_t)(of->width - 2 * GLYPH) / GLYPH; }

static void place_rows(picture *of)
{
    int y = HEADING_Y + HEADING_HEIGHT;
    of->tops = own_pool((size_t)(of->count + 1) * sizeof *of->tops);
    for (int i = 0; i < of->count; i++) {
        int words = count_lines(of->rows[i].words, WORDS_GLYPHS), lines = lane_lines(of, i);
        y += i && i % HEADING_ROWS == 0 ? HEADING_HEIGHT : 0;
        of->tops[i] = y;
        y += (words > lines ? words : lines) * LINE + 9;
    }
    of->tops[of->count] = y;
    of->bottom = y + count_lines(of->ending, ending_glyphs(of)) * LINE + 9;
}

/* Where the bars of an object stand. */
static int column_x(const picture *of, unsigned object, int flag)
{
    uint64_t before = of->objects & ((1ull << (object - 1)) - 1);
    return of->flags_x + __builtin_popcountll(before) * OBJECT_WIDTH + flag * BAR_PITCH;
}

/* ---- the head */

static void put_text(FILE *to, const char *class, int x, int y, const char *text)
{
    put_words(to, class, x, y, text, text_length(text));
}

static void put_legend(const picture *of)
{
    put_text(of->to, "legend", LANES_X, 20, "A bar runs down from the step that sets a flag to the step that clears it:");
    for (int flag = 0, x = LEGEND_X; flag < FLAGS; flag++, x += 88) {
        put_area(of->to, flag_words[flag], (area){ x, 10, BAR_WIDTH, 12 });
        put_words(of->to, "legend", x + 12, 20, letters + flag, 1);
        put_text(of->to, "legend", x + 26, 20, flag_words[flag]);
    }
}

static void put_headings(const picture *of, int y)
{
    char name[20];
    put_area(of->to, "band", (area){ 0, y, of->width, HEADING_HEIGHT });
    put_text(of->to, "heading", GLYPH, y + 30, "step");
    for (int number = 0; number < MOST_THREADS; number++)
        if (of->lanes[number].has_rows)
            put_words(of->to, "heading", of->lanes[number].x, y + 30, of->lanes[number].name, (size_t)of->lanes[number].glyphs);
    put_text(of->to, "heading", of->words_x, y + 30, "what it came to");
    for (uint64_t left = of->objects; left; left &= left - 1) {
        unsigned object = (unsigned)__builtin_ctzll(left) + 1;
        snprintf(name, sizeof name, "obj. %u", object);
        put_text(of->to, "heading", column_x(of, object, 0), y + LINE, name);
        for (int flag = 0; flag < FLAGS; flag++)
            put_words(of->to, "heading", column_x(of, object, flag), y + 30, letters + flag, 1);
    }
}

/* ---- rows and bars */

/* A stripe below each other row, and a line to the flags of the last object that it names. */
static void put_ground(const picture *of, int i)
{
    const lane *its = &of->lanes[of->rows[i].thread];
    uint64_t named = objects_named(of->rows[i].words);
    int x = its->x + lane_width(its), y = of->tops[i], last = i + 1 < of->count && (i + 1) % HEADING_ROWS == 0 ? HEADING_HEIGHT : 0;
    if (i % 2)
        put_area(of->to, "stripe", (area){ 0, y, of->width, of->tops[i + 1] - last - y });
    if (named) {
        int end = column_x(of, 64 - (unsigned)__builtin_clzll(named), 0) + OBJECT_WIDTH - 16;
        put_area(of->to, "reach", (area){ x, y + MARK, end - x, 1 });
    }
}

static void put_row(const picture *of, int i)
{
    const row *its = &of->rows[i];
    const lane *in = &of->lanes[its->thread];
    char number[20];
    int y = of->tops[i];
    snprintf(number, sizeof number, "%d", its->step);
    fputs("<g class=\"step\">\n", of->to);
    put_text(of->to, "number", NUMBER_X, y + 16, number);
    put_area(of->to, box_of(its->words), (area){ in->x, y + 2, lane_width(in), lane_lines(of, i) * LINE + 5 });
    put_lane(of->to, in->x + 5, y + 16, its->words, (size_t)in->glyphs);
    put_lines(of->to, "words", of->words_x, y + 16, its->words, WORDS_GLYPHS);
    fputs("</g>\n", of->to);
}

static bool is_set(const picture *of, int i, int flag, unsigned object)
{
    return i >= 0 && i < of->count && of->rows[i].flags[flag] >> (object - 1) & 1;
}

/* The bars of a flag of an object. */
static void put_bars(const picture *of, int flag, unsigned object)
{
    for (int i = 0, from = 0; i <= of->count; i++) {
        bool was = is_set(of, i - 1, flag, object), is = is_set(of, i, flag, object);
        from = is && !was ? of->tops[i] + MARK : from;
        if (was && !is) {
            int end = i < of->count ? of->tops[i] + MARK : of->tops[i];
            put_area(of->to, flag_words[flag], (area){ column_x(of, object, flag), from, BAR_WIDTH, end - from });
        }
    }
}

static void put_all(const picture *of)
{
    put_opening(of->to, of->width, of->bottom);
    put_legend(of);
    for (int i = 0; i < of->count; i++)
        put_ground(of, i);
    for (uint64_t left = of->objects; left; left &= left - 1)
        for (int flag = 0; flag < FLAGS; flag++)
            put_bars(of, flag, (unsigned)__builtin_ctzll(left) + 1);
    put_headings(of, HEADING_Y);
    for (int i = 0; i < of->count; i++) {
        if (i && i % HEADING_ROWS == 0)
            put_headings(of, of->tops[i] - HEADING_HEIGHT);
        put_row(of, i);
    }
    put_area(of->to, "band", (area){ 0, of->tops[of->count], of->width, of->bottom - of->tops[of->count] });
    put_lines(of->to, "ending", GLYPH, of->tops[of->count] + 16, of->ending, ending_glyphs(of));
    fputs("</svg>\n", of->to);
}

void draw_rows(const char *path, const char *ending)
{
    picture *of = own_memory(sizeof *of);
    int file = (int)syscall(SYS_open, path, O_WRONLY | O_CREAT | O_TRUNC, 0666); /* open itself is refused here */
    of->to = file < 0 ? NULL : fdopen(file, "w");
    if (!of->to)
        stop(2, "the picture can't be written to %s", path);
    of->ending = ending;
    of->count = rows_told(&of->rows);
    find_lanes(of);
    place_columns(of);
    place_rows(of);
    put_all(of);
    if (fflush(of->to))
        stop(2, "the picture can't be written to %s", path);
}
