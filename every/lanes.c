/* What stands in the lane of a row: each line that its step told, short, and a frame on the bus as two fields. */
#include "picture.h"

static bool begins_with(const char *text, const char *with)
{
    while (*with && *text == *with)
        text++, with++;
    return !*with;
}

static const char *find(const char *text, const char *end, const char *what)
{
    for (; text < end; text++)
        if (begins_with(text, what))
            return text;
    return NULL;
}

/* A line without `round: `, up to the first mark; `*line` is moved to where it begins. */
static size_t shortened(const char **line, const char *end)
{
    if (begins_with(*line, "round: "))
        *line += 7;
    const char *at = *line;
    while (at < end && *at != ':' && *at != '|' && *at != '(' && !(*at == ',' && at[1] == ' '))
        at++;
    while (at > *line && at[-1] == ' ')
        at--;
    return (size_t)(at - *line);
}

static const char *end_of_line(const char *at)
{
    while (*at && *at != '\n')
        at++;
    return at;
}

/* The frame of a line that has one on the bus, or NULL. */
static const char *frame_in(const char *line, const char *end)
{
    return begins_with(line, "round: ") && find(line, end, " is on the bus") ? line + 7 : NULL;
}

bool is_of_bus(const char *words) { return find(words, words + text_length(words), "round: ") != NULL; }

/* Which box a row has: that of the interface it used, or of the bus, or one of its own. */
const char *box_of(const char *words)
{
    const char *end = words + text_length(words);
    return is_of_bus(words) ? "bus" : find(words, end, "IF1") ? "if1" : find(words, end, "IF2") ? "if2" : "own";
}

/* The objects that a row names, as bits from object 1 on. */
uint64_t objects_named(const char *words)
{
    uint64_t found = 0;
    const char *end = words + text_length(words);
    for (const char *at = words; (at = find(at, end, "object ")) != NULL;) {
        unsigned number = 0;
        for (at += 7; *at >= '0' && *at <= '9'; at++)
            number = number * 10 + (unsigned)(*at - '0');
        found |= number >= 1 && number <= 64 ? 1ull << (number - 1) : 0;
    }
    return found;
}

static int put_field(FILE *to, const char *class, int x, int y, const char *text, size_t length)
{
    int width = (int)length * GLYPH + 6;
    put_area(to, class, (area){ x, y - 11, width, 15 });
    put_words(to, "frame", x + 3, y, text, length);
    return x + width;
}

/* An identifier, and then the data byte by byte, or that it asks for them. */
static void put_frame(FILE *to, int x, int y, const char *frame)
{
    char data[40];
    size_t length = 0, id = 0;
    while (frame[id] != '#')
        id++;
    const char *at = frame + id + 1;
    if (*at == 'R')
        length = (size_t)snprintf(data, sizeof data, "remote, DLC %c", at[1] == ' ' ? '0' : at[1]);
    for (; *at != 'R' && *at != ' ' && *at != '_' && length + 3 < sizeof data; at += 2)
        length += (size_t)snprintf(data + length, sizeof data - length, length ? " %c%c" : "%c%c", at[0], at[1]);
    if (!length)
        length = (size_t)snprintf(data, sizeof data, "no data");
    x = put_field(to, "id", x, y, frame, id);
    put_field(to, "data", x, y, data, length);
}

/* Puts a row's lines in its lane, the first one at y, or only counts them if `to` is NULL. Answers how many there are. */
int put_lane(FILE *to, int x, int y, const char *words, size_t glyphs)
{
    int count = 0;
    for (const char *line = words, *end; *line; line = *end ? end + 1 : end) {
        end = end_of_line(line);
        const char *frame = frame_in(line, end), *from = line;
        char label[200];
        size_t length = shortened(&from, end);
        length = length < sizeof label ? length : sizeof label - 1;
        copy_bytes(label, from, length);
        label[length] = '\0';
        if (frame && to)
            put_frame(to, x - 1, y + count * LINE, frame);
        else if (!frame && to)
            put_lines(to, "label", x, y + count * LINE, label, glyphs);
        count += frame ? 1 : count_lines(label, glyphs);
    }
    return count;
}
