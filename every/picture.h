/* What the parts of a picture of a history share (picture.c, lanes.c). */
#ifndef PICTURE_H
#define PICTURE_H
#include "svg.h"

bool is_of_bus(const char *words);
const char *box_of(const char *words);
uint64_t objects_named(const char *words);
int put_lane(FILE *to, int x, int y, const char *words, size_t glyphs);
#endif
