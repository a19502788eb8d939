/* Elements of a picture in SVG. Places are in its units: a glyph is 7 wide, a line 15 high, as in the pictures of ccan-lab draw. */
#ifndef SVG_H
#define SVG_H
#include "explorer.h"

enum { GLYPH = 7, LINE = 15 };
typedef struct { int x, y, width, height; } area;

void put_opening(FILE *to, int width, int height);
void put_area(FILE *to, const char *class, area of);
void put_words(FILE *to, const char *class, int x, int y, const char *words, size_t length);
size_t line_of(const char *text, size_t glyphs, const char **next);
int count_lines(const char *text, size_t glyphs);
void put_lines(FILE *to, const char *class, int x, int y, const char *text, size_t glyphs);
#endif
