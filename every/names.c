/* Names for addresses: variables and functions by the program's own symbols, lines by addr2line. */
#include "explorer.h"
#include <elf.h>
#include <fcntl.h>
#include <link.h>
#include <string.h>
#include <sys/mman.h>
#include <sys/stat.h>
#include <sys/syscall.h>
#include <unistd.h>

static struct { const Elf64_Sym *symbols; size_t count; const char *strings; uintptr_t base; bool is_read; } *N;

static int note_base(struct dl_phdr_info *info, size_t size, void *unused)
{
    (void)size, (void)unused;
    N->base = info->dlpi_addr;
    return 1;
}

static void find_symbols(const char *image)
{
    const Elf64_Ehdr *head = (const Elf64_Ehdr *)(const void *)image;
    const Elf64_Shdr *sections = (const Elf64_Shdr *)(const void *)(image + head->e_shoff);
    for (int i = 0; i < head->e_shnum; i++)
        if (sections[i].sh_type == SHT_SYMTAB) {
            N->symbols = (const Elf64_Sym *)(const void *)(image + sections[i].sh_offset);
            N->count = sections[i].sh_size / sizeof(Elf64_Sym);
            N->strings = image + sections[sections[i].sh_link].sh_offset;
        }
}

static void read_symbols(void)
{
    struct stat about;
    N = own_memory(sizeof *N);
    dl_iterate_phdr(note_base, NULL);
    int file = (int)syscall(SYS_open, "/proc/self/exe", O_RDONLY);
    if (file < 0 || fstat(file, &about))
        return;
    const char *image = (const char *)syscall(SYS_mmap, NULL, (size_t)about.st_size, PROT_READ, MAP_PRIVATE, file, 0);
    if (image != MAP_FAILED)
        find_symbols(image);
}

static const Elf64_Sym *symbol_at(uintptr_t at, unsigned char type)
{
    if (!N)
        read_symbols();
    for (size_t i = 0; i < N->count; i++) {
        const Elf64_Sym *of = &N->symbols[i];
        uintptr_t begin = of->st_value + N->base;
        uintptr_t size = of->st_size ? of->st_size : 1;
        if (ELF64_ST_TYPE(of->st_info) == type && of->st_shndx != SHN_UNDEF && at >= begin && at < begin + size)
            return of;
    }
    return NULL;
}

/* Texts that stay until some more were made. */
static char *next_text(void)
{
    enum { TEXTS = 8, SIZE = 256 };
    static char *texts;
    static int next;
    if (!texts)
        texts = own_memory(TEXTS * SIZE);
    return texts + SIZE * (size_t)(next = (next + 1) % TEXTS);
}

const char *name_of_code(uintptr_t pc)
{
    const Elf64_Sym *of = symbol_at(pc, STT_FUNC);
    return of ? N->strings + of->st_name : "thread";
}

const char *name_of_data(uintptr_t at)
{
    const Elf64_Sym *of = symbol_at(at, STT_OBJECT);
    char *text = next_text();
    for (int number = 0; !of && number < R.count; number++) {
        uintptr_t top = (uintptr_t)R.threads[number].stack_top, arena = (uintptr_t)E->arena + (uintptr_t)number * ARENA_BYTES;
        if (at < top && at >= top - STACK_BYTES)
            return snprintf(text, 256, "a local variable of %s", R.threads[number].name), text;
        if (at >= arena && at < arena + ARENA_BYTES)
            return snprintf(text, 256, "memory that %s allocated, at 0x%lx", R.threads[number].name, at - arena), text;
    }
    if (!of)
        return snprintf(text, 256, "0x%lx", at), text;
    uintptr_t within = at - N->base - of->st_value;
    snprintf(text, 256, within ? "%s+%lu" : "%s", N->strings + of->st_name, within);
    return text;
}

/* What addr2line says of a place: its file, without folders, and line. */
static bool ask_for_line(uintptr_t at, char *line, size_t size)
{
    char command[120];
    snprintf(command, sizeof command, "addr2line -s -e /proc/%d/exe 0x%lx 2>/dev/null", (int)getpid(), at);
    FILE *answer = popen(command, "r");
    long length = answer ? syscall(SYS_read, fileno(answer), line, size - 1) : 0;
    if (answer)
        pclose(answer);
    line[length > 0 ? length : 0] = '\0';
    if (length <= 0 || line[0] == '?')
        return false;
    for (char *end = line; *end; end++)
        if (*end == '\n' || *end == ' ')
            *end = '\0';
    return true;
}

typedef struct { uintptr_t pc; char text[120]; } known_line;

const char *line_of_code(uintptr_t pc)
{
    enum { KNOWN = 256 };
    static known_line *known;
    char line[80];
    if (!known)
        known = own_memory(KNOWN * sizeof *known);
    known_line *of = &known[pc % KNOWN];
    if (of->pc == pc)
        return of->text;
    bool was_running = E->running;
    E->running = false;
    of->pc = pc;
    const char *function = name_of_code(pc - 1);
    if (ask_for_line(pc - 1 - N->base, line, sizeof line))
        snprintf(of->text, sizeof of->text, "%s in %s", line, function);
    else
        snprintf(of->text, sizeof of->text, "%s", function);
    E->running = was_running;
    return of->text;
}
