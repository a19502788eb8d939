/*
 * The first process of a guest whose C_CANs are on one bus, as Linux's driver
 * c_can_pci runs them: loads the modules, starts each card at 500 kbit/s,
 * makes one test, and switches the machine off. The words test=NAME and
 * frames=N of the kernel's command line say which test:
 *
 *   exchange  each of two or three cards sends N numbered frames, all at once,
 *             and each comes once to each other card; if no test is named
 *   kinds     frames of all kinds, each way at once
 *   loop      the same of the first card in loop back mode: it hears them
 *             itself, and so does the second one if it is there
 *   listen    the same between the first two of three cards; the third one is
 *             in listen-only mode, hears all, and acknowledges none
 *   off       the first card sends frames one by one until it was bus off, and
 *             was restarted by the driver, and then N frames
 *
 * A frame may be overtaken by later ones: the driver says of itself that a
 * slow readout may order frames anew. How many were is counted.
 *
 * At most eight frames wait at each: with 16 the driver takes a seventeenth
 * too many. See docs/C_REFERENCE.md, "The Linux driver on it".
 */
#include <errno.h>
#include <linux/can/error.h>
#include <linux/can/netlink.h>
#include <linux/can/raw.h>
#include <poll.h>
#include <stdio.h>
#include <stdlib.h>
#include <string.h>
#include <sys/mount.h>
#include <sys/socket.h>
#include <sys/stat.h>
#include <unistd.h>
#include "guest.h"

enum { WAITING = 8, SECONDS = 20, MOST = 1000000, SOON_MS = 20 };

static uint32_t cards;
static uint32_t frames = 2000; /* that each card sends */

/* ---- one frame */

static void send_frame(int file, const struct can_frame *frame)
{
    must(write(file, frame, sizeof(*frame)) == sizeof(*frame), "write");
}

/* Whether a frame comes within so many milliseconds. */
static bool comes_within(int file, int ms, struct can_frame *frame)
{
    struct pollfd polled = { .fd = file, .events = POLLIN };

    if (poll(&polled, 1, ms) <= 0)
        return false;
    must(read(file, frame, sizeof(*frame)) == sizeof(*frame), "read");
    return true;
}

static bool is_same(const struct can_frame *one, const struct can_frame *other)
{
    return one->can_id == other->can_id && one->can_dlc == other->can_dlc
           && memcmp(one->data, other->data, sizeof(one->data)) == 0;
}

/* The next frame that comes has to be this one. */
static void expect(int file, const struct can_frame *wanted)
{
    struct can_frame frame;

    errno = ETIMEDOUT;
    must(comes_within(file, SECONDS * 1000, &frame), "waiting for a frame");
    errno = 0;
    must(is_same(&frame, wanted), "another frame came");
}

/* No frame comes for some time, in which dozens could. */
static void expect_none(int file)
{
    struct can_frame frame;

    errno = 0;
    must(!comes_within(file, SOON_MS, &frame), "a frame came");
}

/* ---- frames of all kinds */

/* Of two kinds at the same distance from both ends the identifiers differ. */
static const canid_t ids[] = {
    0, 0x001, 0x2aa, 0x555, 0x7ef,
    CAN_EFF_FLAG, CAN_EFF_FLAG | 0x0aaaaaaa, CAN_EFF_FLAG | 0x15555555,
    CAN_EFF_FLAG | 0x1fbfffff, CAN_EFF_FLAG | 0x00000001,
};

enum { KINDS = sizeof(ids) / sizeof(ids[0]) * 2 * (CAN_MAX_DLEN + 1) };

/* A data and a remote frame of each length with each identifier. */
static struct can_frame kind(uint32_t number)
{
    struct can_frame frame = {
        .can_id = ids[number / 2 / (CAN_MAX_DLEN + 1)],
        .can_dlc = number / 2 % (CAN_MAX_DLEN + 1),
    };

    if (number % 2) {
        frame.can_id |= CAN_RTR_FLAG;
    } else {
        for (int k = 0; k < frame.can_dlc; k++)
            frame.data[k] = (uint8_t)(number * 37 + k * 85);
    }
    return frame;
}

/* Two cards send one at once, and each has the other's. */
static void cross(const int files[], uint32_t number)
{
    struct can_frame one = kind(number);
    struct can_frame other = kind(KINDS - 1 - number);

    send_frame(files[0], &one);
    send_frame(files[1], &other);
    expect(files[0], &other);
    expect(files[1], &one);
}

/* The two sockets of the first two cards. */
static void open_both(int files[2])
{
    files[0] = open_socket(0, false);
    files[1] = open_socket(1, false);
}

static void close_both(const int files[2])
{
    close(files[0]);
    close(files[1]);
}

static void cross_kinds(void)
{
    int files[2];

    open_both(files);
    for (uint32_t number = 0; number < KINDS; number++)
        cross(files, number);
    close_both(files);
}

static void try_kinds(void)
{
    cross_kinds();
    printf("guest: came to: %u kinds of frames each way\n", (unsigned)KINDS);
}

/* ---- loop back */

/* A socket of the card that is open meanwhile reports that once. */
static void restart_card(uint32_t card, uint32_t modes)
{
    stop_card(card);
    start_card(card, modes);
}

/* The first card sends each kind; so many of these hear it. */
static void loop_kinds(const int files[], uint32_t count)
{
    for (uint32_t number = 0; number < KINDS; number++) {
        struct can_frame frame = kind(number);

        send_frame(files[0], &frame);
        for (uint32_t k = 0; k < count; k++)
            expect(files[k], &frame);
    }
    expect_none(files[0]);
}

static void try_loop_back(void)
{
    int files[2];

    restart_card(0, CAN_CTRLMODE_LOOPBACK);
    open_both(files);
    loop_kinds(files, 2);
    stop_card(1);
    loop_kinds(files, 1);
    close_both(files);
    restart_card(0, 0);
    start_card(1, 0);
    cross_kinds();
    printf("guest: came to: %u kinds of frames to itself and the other,"
           " to itself alone, and each way again\n", (unsigned)KINDS);
}

/* ---- listen-only */

/* The third card hears both frames, in the order in which they were sent. */
static void overhear(const int files[], uint32_t number)
{
    struct can_frame one = kind(number), other = kind(KINDS - 1 - number);
    struct can_frame first, second;

    cross(files, number);
    errno = ETIMEDOUT;
    must(comes_within(files[2], SECONDS * 1000, &first), "a first frame");
    must(comes_within(files[2], SECONDS * 1000, &second), "a second frame");
    errno = 0;
    must((is_same(&first, &one) && is_same(&second, &other))
         || (is_same(&first, &other) && is_same(&second, &one)),
         "another frame was heard");
}

/* A frame is sent only when another than the listener is there. */
static void send_alone(void)
{
    struct can_frame frame = kind(0);
    int sender = open_socket(0, true), receiver = open_socket(1, false);
    int error;
    socklen_t length = sizeof(error);

    stop_card(1);
    /* This takes back that the card is down. */
    must(getsockopt(receiver, SOL_SOCKET, SO_ERROR, &error, &length) == 0,
         "SO_ERROR");
    send_frame(sender, &frame);
    expect_none(sender);
    start_card(1, 0);
    expect(sender, &frame);
    expect(receiver, &frame);
}

static void try_listen_only(void)
{
    int files[3];

    restart_card(2, CAN_CTRLMODE_LISTENONLY);
    open_both(files);
    files[2] = open_socket(2, false);
    for (uint32_t number = 0; number < KINDS; number++)
        overhear(files, number);
    send_alone();
    printf("guest: came to: %u kinds of frames each way, overheard by a card"
           " that acknowledges none\n", (unsigned)KINDS);
}

/* ---- numbered frames */

/* What came from one card to another. */
struct stream {
    uint32_t received;
    uint32_t overtaken; /* that came behind a later one */
    uint32_t next;      /* the number behind the highest that came */
    bool came[MOST];
};

/* What one card has sent and received. */
struct end {
    int socket;
    uint32_t handed; /* to the driver */
    uint32_t sent;   /* as the driver says */
};

static struct end ends[CARDS];
static struct stream streams[CARDS][CARDS]; /* to a card, from a card */

/* The identifier of a card's frames: the last card's is the lowest. */
static canid_t id_of(uint32_t card)
{
    return (cards - card) * 0x100;
}

static struct can_frame numbered(uint32_t card, uint32_t number)
{
    struct can_frame frame = { .can_id = id_of(card), .can_dlc = 8 };

    memcpy(frame.data, &number, sizeof(number));
    memcpy(frame.data + 4, &number, sizeof(number));
    return frame;
}

/* Whose frame it is. Fails if it is none that a card has handed over. */
static uint32_t sender_of(const struct can_frame *frame, uint32_t *number)
{
    uint32_t card = cards - frame->can_id / 0x100;
    struct can_frame wanted;

    memcpy(number, frame->data, sizeof(*number));
    errno = 0;
    must(card < cards, "a frame that nobody sent");
    wanted = numbered(card, *number);
    must(*number < ends[card].handed && is_same(frame, &wanted),
         "a frame that nobody sent");
    return card;
}

static void hand_over(uint32_t card)
{
    struct end *end = &ends[card];

    while (end->handed < frames && end->handed - end->sent < WAITING) {
        struct can_frame frame = numbered(card, end->handed);

        send_frame(end->socket, &frame);
        end->handed++;
    }
}

static void receive(struct stream *stream, uint32_t number)
{
    must(!stream->came[number], "a frame that came twice");
    stream->came[number] = true;
    stream->received++;
    if (number < stream->next)
        stream->overtaken++;
    else
        stream->next = number + 1;
}

static void take(uint32_t card)
{
    struct can_frame frame;
    uint32_t number, from;

    must(read(ends[card].socket, &frame, sizeof(frame)) == sizeof(frame),
         "read");
    from = sender_of(&frame, &number);
    if (from == card) {
        must(number == ends[card].sent, "sent out of order");
        ends[card].sent++;
    } else {
        receive(&streams[card][from], number);
    }
}

/* How many frames are still to be sent and to be received. */
static uint64_t count_left(void)
{
    uint64_t left = 0;

    for (uint32_t card = 0; card < cards; card++) {
        left += frames - ends[card].sent;
        for (uint32_t from = 0; from < cards; from++)
            left += from == card ? 0 : frames - streams[card][from].received;
    }
    return left;
}

static uint32_t count_overtaken(void)
{
    uint32_t overtaken = 0;

    for (uint32_t card = 0; card < cards; card++) {
        for (uint32_t from = 0; from < cards; from++)
            overtaken += streams[card][from].overtaken;
    }
    return overtaken;
}

static void print_ends(void)
{
    for (uint32_t card = 0; card < cards; card++) {
        printf("guest: can%u: %u handed over, %u sent\n", card,
               ends[card].handed, ends[card].sent);
        for (uint32_t from = 0; from < cards; from++) {
            if (from != card)
                printf("guest: can%u: %u received of can%u\n", card,
                       streams[card][from].received, from);
        }
    }
}

static void wait_for_frames(struct pollfd polled[])
{
    int ready = poll(polled, cards, SECONDS * 1000);

    if (ready == 0) {
        print_ends();
        print_lines_of("/proc/net/dev");
        errno = ETIMEDOUT;
    }
    must(ready > 0, "waiting for a frame");
}

static void exchange(void)
{
    struct pollfd polled[CARDS];
    double began = seconds();

    for (uint32_t card = 0; card < cards; card++) {
        ends[card].socket = open_socket(card, true);
        polled[card].fd = ends[card].socket;
        polled[card].events = POLLIN;
    }
    while (count_left()) {
        for (uint32_t card = 0; card < cards; card++)
            hand_over(card);
        wait_for_frames(polled);
        for (uint32_t card = 0; card < cards; card++) {
            if (polled[card].revents & POLLIN)
                take(card);
        }
    }
    printf("guest: came to: %u frames of each of %u in %.3f s, %u overtaken\n",
           frames, cards, seconds() - began, count_overtaken());
}

/* ---- bus off */

/* What the driver has said of the first card by error frames. */
struct told {
    uint32_t off;
    uint32_t restarted;
};

/* Reads the error frames that wait. */
static void hear(int file, struct told *told)
{
    struct can_frame frame;

    while (recv(file, &frame, sizeof(frame), MSG_DONTWAIT) > 0) {
        if (!(frame.can_id & CAN_ERR_FLAG))
            continue;
        told->off += !!(frame.can_id & CAN_ERR_BUSOFF);
        told->restarted += !!(frame.can_id & CAN_ERR_RESTARTED);
    }
}

/* Whether a frame comes to the second card; what waits at a restart doesn't. */
static bool comes(const int files[], uint32_t number)
{
    struct can_frame frame = numbered(0, number), came;

    if (write(files[0], &frame, sizeof(frame)) != sizeof(frame)
        || !comes_within(files[1], 2 * RESTART_MS, &came))
        return false;
    errno = 0;
    must(is_same(&came, &frame), "another frame came");
    return true;
}

static void go_off_and_back(void)
{
    can_err_mask_t mask = CAN_ERR_BUSOFF | CAN_ERR_RESTARTED;
    int files[] = { open_socket(0, false), open_socket(1, false) };
    struct told told = { 0 };
    uint32_t number = 0, behind = 0;

    must(setsockopt(files[0], SOL_CAN_RAW, CAN_RAW_ERR_FILTER, &mask,
                    sizeof(mask)) == 0, "CAN_RAW_ERR_FILTER");
    while (behind < frames) {
        must(number < MOST, "can0 never was bus off");
        if (comes(files, number) && told.off && told.restarted)
            behind++;
        number++;
        hear(files[0], &told);
    }
    printf("guest: came to: %u times off, %u times restarted, then %u frames\n",
           told.off, told.restarted, behind);
}

/* ---- the start */

static const struct {
    const char *name;
    uint32_t cards; /* at least */
    void (*run)(void);
} tests[] = {
    { "exchange", 2, exchange },
    { "kinds", 2, try_kinds },
    { "loop", 2, try_loop_back },
    { "listen", 3, try_listen_only },
    { "off", 2, go_off_and_back },
};

static void run_test(const char *name)
{
    for (size_t k = 0; k < sizeof(tests) / sizeof(tests[0]); k++) {
        if (strcmp(tests[k].name, name) == 0) {
            must(cards >= tests[k].cards, "enough cards");
            tests[k].run();
            return;
        }
    }
    errno = EINVAL;
    must(false, name);
}

int main(void)
{
    const char *name = getenv("test"), *count = getenv("frames");

    setvbuf(stdout, NULL, _IOLBF, 0);
    mkdir("/proc", 0755);
    must(mount("proc", "/proc", "proc", 0, NULL) == 0, "/proc");
    load_modules();
    cards = count_cards();
    for (uint32_t card = 0; card < cards; card++)
        start_card(card, 0);
    if (count)
        frames = (uint32_t)strtoul(count, NULL, 10);
    must(frames <= MOST, "too many frames");
    printf("guest: begins\n");
    run_test(name ? name : "exchange");
    print_lines_of("/proc/interrupts");
    print_lines_of("/proc/net/dev");
    printf("guest: done\n");
    switch_off();
    return 0;
}
