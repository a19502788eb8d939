/* The explorer as far as the chip of libccan-every needs it, for a program of one thread: each step is made at once. */
#include "../../../every/explorer.h"
#include <stdlib.h>

static explorer place;
static footprint event;
explorer *the_explorer = &place;

void *own_memory(size_t bytes) { return calloc(1, bytes); }
void step(const footprint *most) { (void)most; place.event = &event; }
void step_when(const footprint *most, condition *may, const void *about) { (void)may, (void)about; step(most); }
uint32_t step_choosing(uint32_t alternatives) { return (void)alternatives, 0u; }
bool add_footprint(footprint *to, const footprint *from) { return (void)to, (void)from, false; }
void give(void *to, const void *from, size_t size) { copy_bytes(to, from, size); }
void tell_line(const char *format, ...) { (void)format; }

void stop(int status, const char *format, ...)
{
    va_list arguments;
    va_start(arguments, format);
    vfprintf(stderr, format, arguments);
    va_end(arguments);
    exit(status);
}

__attribute__((constructor)) static void begin(void)
{
    E->event = &event;
    chip_reset();
}
