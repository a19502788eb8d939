/* Elements of a picture in SVG. All texts are of ASCII. */
#include "svg.h"

/* How things look, in light and in dark: as ccan-lab draw has it (crates/ccan_explain/src/draw/head.rt), with boxes of no port
 * besides. */
static const char style[] =
    "<style>\n"
    "text{font:11px ui-monospace,\"DejaVu Sans Mono\",\"Liberation Mono\",Menlo,Consolas,monospace;fill:#1f2328;white-space:pre}\n"
    ".page{fill:#ffffff}.stripe{fill:#f6f8fa}.band{fill:#eaeef2}.reach{fill:#d0d7de}\n"
    ".if1,.if2,.bus,.own{stroke-width:1}\n"
    ".if1{fill:#ddf4ff;stroke:#0969da}.if2{fill:#fbefff;stroke:#8250df}.bus{fill:#fff8c5;stroke:#9a6700}\n"
    ".own{fill:#ffffff;stroke:#656d76}\n"
    ".id,.data{stroke:#9a6700;stroke-width:1}.id{fill:#f2d675}.data{fill:#ffffff}\n"
    ".NewDat{fill:#1a7f37}.MsgLst{fill:#cf222e}.IntPnd{fill:#9a6700}.TxRqst{fill:#0969da}\n"
    ".number{fill:#656d76}.heading,.ending{font-weight:bold}\n"
    "@media (prefers-color-scheme:dark){\n"
    "text{fill:#e6edf3}\n"
    ".page{fill:#0d1117}.stripe{fill:#161b22}.band{fill:#21262d}.reach{fill:#3d444d}\n"
    ".if1{fill:#0c2d6b;stroke:#58a6ff}.if2{fill:#3c1e70;stroke:#bc8cff}.bus{fill:#341a00;stroke:#d29922}\n"
    ".own{fill:#0d1117;stroke:#8b949e}\n"
    ".id,.data{stroke:#d29922}.id{fill:#693e00}.data{fill:#0d1117}\n"
    ".NewDat{fill:#3fb950}.MsgLst{fill:#ff7b72}.IntPnd{fill:#d29922}.TxRqst{fill:#79c0ff}\n"
    ".number{fill:#8b949e}\n"
    "}\n"
    "</style>\n";

void put_opening(FILE *to, int width, int height)
{
    fprintf(to, "<svg xmlns=\"http://www.w3.org/2000/svg\" xml:space=\"preserve\"");
    fprintf(to, " width=\"%d\" height=\"%d\" viewBox=\"0 0 %d %d\">\n%s", width, height, width, height, style);
    put_area(to, "page", (area){ 0, 0, width, height });
}

void put_area(FILE *to, const char *class, area of)
{
    fprintf(to, "<rect class=\"%s\" x=\"%d\" y=\"%d\" width=\"%d\" height=\"%d\"/>\n", class, of.x, of.y, of.width, of.height);
}

static void put_escaped(FILE *to, char letter)
{
    switch (letter) {
    case '&': fputs("&amp;", to); break;
    case '<': fputs("&lt;", to); break;
    case '>': fputs("&gt;", to); break;
    default: fputc(letter >= ' ' && letter <= '~' ? letter : '?', to);
    }
}

void put_words(FILE *to, const char *class, int x, int y, const char *words, size_t length)
{
    fprintf(to, "<text class=\"%s\" x=\"%d\" y=\"%d\">", class, x, y);
    for (size_t i = 0; i < length && words[i]; i++)
        put_escaped(to, words[i]);
    fputs("</text>\n", to);
}

/* The length of the next line of a text in lines of so many glyphs at most, broken behind a word if there is one; `next` is where
 * the line after it begins, or NULL. */
size_t line_of(const char *text, size_t glyphs, const char **next)
{
    size_t length = 0, broken = 0;
    while (length < glyphs && text[length] && text[length] != '\n')
        if (text[length++] == ' ')
            broken = length;
    if (text[length] == '\0' || text[length] == '\n') {
        *next = text[length] ? text + length + 1 : NULL;
        return length;
    }
    if (text[length] == ' ')
        broken = length + 1;
    broken = broken ? broken : length;
    *next = text + broken;
    return broken - (text[broken - 1] == ' ');
}

int count_lines(const char *text, size_t glyphs)
{
    int count = 0;
    for (const char *next; text && *text; text = next, count++)
        line_of(text, glyphs, &next);
    return count;
}

void put_lines(FILE *to, const char *class, int x, int y, const char *text, size_t glyphs)
{
    for (const char *next; text && *text; text = next, y += LINE) {
        size_t length = line_of(text, glyphs, &next);
        put_words(to, class, x, y, text, length);
    }
}
