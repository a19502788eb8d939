/* Each request for memory of ccan_open, of ccan_open_reset and of ccan_restore is refused in turn: it answers CCAN_NO_MEMORY, the
 * chip stays as it was, closed or open, and nothing is lost; nor is it where ccan_restore refuses a chip that can't be. No other
 * call asks for memory, and ccan_end gives all of it back.
 * Link with -Wl,--wrap=malloc,--wrap=realloc,--wrap=free. */
#include <ccan.h>
#include <stdio.h>
#include <stdlib.h>

static long left = -1, live;

void *__real_malloc(size_t size);
void *__real_realloc(void *old, size_t size);
void __real_free(void *block);

static int refused(void)
{
    if (left == 0)
        return 1;
    if (left > 0)
        left--;
    return 0;
}

void *__wrap_malloc(size_t size)
{
    void *block = refused() ? NULL : __real_malloc(size);
    live += block != NULL;
    return block;
}

void *__wrap_realloc(void *old, size_t size)
{
    void *block = refused() ? NULL : __real_realloc(old, size);
    live += block != NULL && old == NULL;
    return block;
}

void __wrap_free(void *block)
{
    live -= block != NULL;
    __real_free(block);
}

/* Each call on a handle once, while every request for memory is refused; object 7 alone has NewDat then. Whether each was done. */
static int all_calls(ccan_chip *chip)
{
    uint64_t word;
    uint32_t number;
    uint16_t value;
    ccan_loaded loaded;
    ccan_counts counts;
    ccan_outcome outcome;
    ccan_offer none;
    ccan_record found;
    ccan_member member;
    ccan_wire wire;
    ccan_finished ended;
    static const ccan_finished error = { .event = CCAN_EVENT_ERROR, .code = 1, .counts = CCAN_COUNTS_RECEIVE_ERROR };
    static ccan_saved saved;
    return !ccan_save(chip, &saved) && !ccan_set(&chip->if1, CCAN_CMASK, 0x0090) && !ccan_set(&chip->if1, CCAN_CTRL, 0x8000)
        && !ccan_request(&chip->if1, 7) && !ccan_get(&chip->if1, CCAN_CTRL, &value)
        && !ccan_flags(&chip->if2, CCAN_NEWDAT, &word) && !ccan_interrupt(&chip->if2, &value)
        && !ccan_until(&chip->if2, 7, CCAN_NEWDAT, 3, &number) && !ccan_meet(chip)
        && !ccan_peek(&chip->if2, 7, &found) && found.control == 0x8000
        && !ccan_clear_objects(&chip->if1) && !ccan_peek(&chip->if1, 7, &found) && found.control == 0
        && !ccan_load(&chip->bus, &loaded) && !ccan_round(&chip->bus, &none, 0, CCAN_QUIET, &outcome)
        && !ccan_status(&chip->bus, &value) && !ccan_control(&chip->bus, 1, 1) && !ccan_init(&chip->bus)
        && !ccan_recessive(&chip->bus, 128, &number) && !ccan_power_down(&chip->bus, &number) && !ccan_loop_back(&chip->bus, 0)
        && !ccan_write16(&chip->if1, CCAN_OFFSET_CONTROL, 0x000e) && !ccan_read16(&chip->if2, CCAN_OFFSET_STATUS, &value)
        && !ccan_write16(&chip->if1, CCAN_OFFSET_IF1_COMMAND_REQUEST, 7)
        && !ccan_read16(&chip->if2, CCAN_OFFSET_INTERRUPT, &value) && !ccan_line(&chip->if1, &number)
        && !ccan_bus_write16(&chip->bus, CCAN_OFFSET_TEST, 0) && !ccan_bus_read16(&chip->bus, CCAN_OFFSET_NEW_DATA_1, &value)
        && !ccan_bus_line(&chip->bus, &number)
        && !ccan_counters(&chip->bus, 0, &counts)
        && !ccan_bus_flags(&chip->bus, CCAN_NEWDAT, &word) && !ccan_bus_interrupt(&chip->bus, &value)
        && !ccan_begin(&chip->bus, &member) && !ccan_decide(&member, 1, &wire) && !ccan_stay(&chip->bus, &member)
        && !ccan_finish(&chip->bus, &wire, 0, CCAN_QUIET, &ended) && !ccan_retry_event(&chip->bus, &error)
        && !ccan_reset(chip);
}

enum how { PLAIN, RESET, RESTORED };

/* Opens a chip, in one of three ways. */
static uint32_t opened(ccan_chip *chip, enum how how, const ccan_saved *saved)
{
    switch (how) {
    case RESET:
        return ccan_open_reset(chip, 2, 8, 100, CCAN_LAYOUT_D_CAN);
    case RESTORED:
        return ccan_restore(chip, saved);
    default:
        return ccan_open(chip, 2, 8, 100);
    }
}

/* Refuses each request of a call that opens in turn, until none is refused: where one was, the chip is as it was before. Gives how
 * many there were, -1 where something is wrong. */
static long open_refused(ccan_chip *chip, bool was_open, enum how how, const ccan_saved *saved)
{
    long before = live;
    for (long number = 0; number < 1000; number++) {
        left = number;
        uint32_t code = opened(chip, how, saved);
        left = -1;
        if (code == CCAN_DONE)
            return number;
        if (code != CCAN_NO_MEMORY || ccan_is_open(chip) != was_open || live != before) {
            printf("request %ld refused: %s, %ld blocks instead of %ld\n", number + 1, ccan_text(code), live, before);
            return -1;
        }
    }
    printf("a chip that is %s does not open\n", was_open ? "open" : "closed");
    return -1;
}

/* Bytes that no chip can be, since groups of recessive bits count while the controller is on: they are refused once all memory was
 * given, and none of it stays. Whether so, on a chip that is open and on one that is closed. */
static bool no_chip_is_refused(ccan_chip *chip)
{
    static ccan_saved saved;
    static ccan_chip closed;
    long before = live;
    ccan_chip_init(&closed);
    if (ccan_save(chip, &saved) != CCAN_DONE)
        return false;
    saved.bytes[50] |= 0x02;
    return ccan_restore(chip, &saved) == CCAN_NO_CHIP && ccan_is_open(chip) && live == before
        && ccan_restore(&closed, &saved) == CCAN_NO_CHIP && !ccan_is_open(&closed) && live == before;
}

/* A note that is told while memory is refused stays as it was, empty or told; and what was told is given back once it is heeded or
 * forgotten. */
static bool notes_keep_their_blocks(ccan_chip *chip)
{
    ccan_note note = CCAN_NOTE_EMPTY;
    long before = live;
    left = 0;
    bool refused_empty = ccan_tell(&chip->if1, &note) == CCAN_NO_MEMORY && ccan_heed(&chip->if2, &note) == CCAN_UNTOLD
        && live == before;
    left = -1;
    bool told = ccan_tell(&chip->if1, &note) == CCAN_DONE && live > before;
    left = 0;
    bool refused_told = ccan_bus_tell(&chip->bus, &note) == CCAN_NO_MEMORY && live > before;
    left = -1;
    return refused_empty && told && refused_told && ccan_heed(&chip->if2, &note) == CCAN_DONE && live == before
        && ccan_bus_tell(&chip->bus, &note) == CCAN_DONE && ccan_tell(&chip->if1, &note) == CCAN_DONE
        && ccan_forget(&note) == CCAN_DONE && live == before;
}

int main(void)
{
    static ccan_final last;
    ccan_chip *chip = __real_malloc(sizeof *chip);
    if (chip == NULL)
        return 2;
    ccan_chip_init(chip);
    static ccan_saved saved;
    long number = open_refused(chip, false, PLAIN, NULL);
    long blocks = live;
    if (number <= 0 || open_refused(chip, true, RESET, NULL) != number || ccan_save(chip, &saved) != CCAN_DONE)
        return 1;
    if (open_refused(chip, true, RESTORED, &saved) != number || open_refused(chip, true, PLAIN, NULL) != number)
        return 1;
    if (live != blocks) {
        printf("an open chip that is opened again: %ld blocks instead of %ld\n", live, blocks);
        return 1;
    }
    if (!no_chip_is_refused(chip)) {
        printf("a chip that can't be: %ld blocks instead of %ld\n", live, blocks);
        return 1;
    }
    if (!notes_keep_their_blocks(chip)) {
        printf("a note: %ld blocks instead of %ld, or another code\n", live, blocks);
        return 1;
    }
    left = 0;
    if (!all_calls(chip)) {
        printf("a call asked for memory\n");
        return 1;
    }
    uint32_t code = ccan_end(chip, &last);
    left = -1;
    if (code != CCAN_DONE || live != 0 || ccan_request(&chip->if1, 7) != CCAN_CLOSED) {
        printf("end: %s, %ld blocks left\n", ccan_text(code), live);
        return 1;
    }
    /* with memory at hand: a call that takes a block and keeps it is found here alone */
    for (int turn = 0; turn < 3; turn++) {
        if ((turn == 1 ? ccan_open_reset(chip, 1, 0, 1, CCAN_LAYOUT_C_CAN) : ccan_open(chip, 1, 0, 1)) != CCAN_DONE || !ccan_is_open(chip) || ccan_end(chip, &last) != CCAN_DONE || live != 0) {
            printf("opened and ended: %ld blocks left\n", live);
            return 1;
        }
    }
    printf("%ld requests for memory refused in turn: the chip stays as it was, nothing is lost\n", number);
    __real_free(chip);
    return 0;
}
