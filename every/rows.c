/* The rows of a picture: what each step of a history told, and the flags of the objects behind it. A step that told nothing has no
 * row, as it has no line in the text. */
#include "explorer.h"

enum { MOST_ROWS = 4096 };
static struct { row rows[MOST_ROWS]; int count, settled; } *W;

void forget_rows(void)
{
    if (!W)
        W = own_memory(sizeof *W);
    W->count = W->settled = 0;
}

/* A further line of what a step told. */
static void append(row *to, const char *line)
{
    size_t had = to->words ? text_length(to->words) : 0, more = text_length(line);
    char *text = own_pool(had + more + 2);
    copy_bytes(text, to->words, had);
    text[had] = '\n';
    copy_bytes(text + had + (had > 0), line, more);
    to->words = text;
}

void tell_row(int step, const char *line)
{
    row *last = W->count ? &W->rows[W->count - 1] : NULL;
    if (!last || last->step != step || last->thread != R.me || W->settled == W->count) {
        if (W->count == MOST_ROWS)
            return;
        last = &W->rows[W->count++];
        *last = (row){ .step = step, .thread = R.me, .name = ME->name };
    }
    append(last, line);
}

/* The step is made: the flags are those of its rows. */
void settle_rows(void)
{
    for (; W->settled < W->count; W->settled++)
        chip_flags(W->rows[W->settled].flags);
}

int rows_told(const row **rows)
{
    *rows = W->rows;
    return W->count;
}
