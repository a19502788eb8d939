/*
 * QTest testcase for ccan-pci and ccan-sta2x11: registers, frames between two
 * cards with their times, arbitration, interrupts, errors, loop back mode,
 * Silent, bus off, resets, another CAN device of QEMU on the same bus, and
 * migration.
 *
 * Each time was worked out by hand after CAN Specification 2.0. The frames
 * have no stuff bits but those that are named:
 *
 *   100#BB  52 bits and 3     200#AA  52 bits and 3     1 bit is 2 us
 */
#include "qemu/osdep.h"
#include "libqtest.h"
#include "qapi/qmp/qdict.h"
#include "hw/pci/pci_regs.h"
#include "libqos/pci.h"
#include "libqos/pci-pc.h"
#include <ccan.h>

enum {
    INIT = 0x01, IE = 0x02, SIE = 0x04, EIE = 0x08, CCE = 0x40, TEST = 0x80,
    LBACK = 0x10, SILENT = 0x08,
    BOFF = 0x80, EWARN = 0x40, EPASS = 0x20, RXOK = 0x10, TXOK = 0x08,
    STATUS_INTERRUPT = 0x8000,
    SENDS = 1, RECEIVES = 2,    /* message objects */
    BIT = 2000,                 /* ns */
    FRAME = 55 * BIT, INTERMISSION = 3 * BIT,
    MSI_ADDRESS = 0x100000, MSI_DATA = 0x4321,
};

/*
 * Bit Timing for 2 us: 1 + 13 + 6 quanta of five periods of 50 MHz, and
 * 1 + 5 + 2 quanta of 13 periods of 52 MHz.
 */
#define TIMING_50MHZ 0x5c04
#define TIMING_52MHZ 0x140c

typedef struct Card {
    QPCIDevice *dev;
    QPCIBar bar;
} Card;

typedef struct Bench {
    QTestState *qts;
    QPCIBus *bus;
    Card cards[2];
} Bench;

/* ---- the bench */

static Card find_card(QPCIBus *bus, int slot, int bar)
{
    Card card = { .dev = qpci_device_find(bus, QPCI_DEVFN(slot, 0)) };

    g_assert_nonnull(card.dev);
    qpci_device_enable(card.dev);
    card.bar = qpci_iomap(card.dev, bar, NULL);
    return card;
}

static QTestState *start_qemu(const char *more)
{
    return qtest_initf("-machine pc -nodefaults -object can-bus,id=bus0"
                       " -device ccan-pci,id=can0,canbus=bus0,addr=4"
                       " -device ccan-pci,id=can1,canbus=bus0,addr=5 %s", more);
}

static Bench start(const char *more)
{
    Bench b = { .qts = start_qemu(more) };

    b.bus = qpci_new_pc(b.qts, NULL);
    b.cards[0] = find_card(b.bus, 4, 1);
    b.cards[1] = find_card(b.bus, 5, 1);
    return b;
}

static void stop(Bench *b)
{
    g_free(b->cards[0].dev);
    g_free(b->cards[1].dev);
    qpci_free_pc(b->bus);
    qtest_quit(b->qts);
}

/* ---- a card's registers */

static uint16_t get(Card *card, uint32_t offset)
{
    return qpci_io_readl(card->dev, card->bar, 2 * offset);
}

static void set(Card *card, uint32_t offset, uint16_t value)
{
    qpci_io_writel(card->dev, card->bar, 2 * offset, value);
}

/* Writes an object: arbitration, message control and two bytes of data. */
static void set_object(Card *card, uint16_t object, uint16_t arbitration,
                       uint16_t control, uint16_t bytes)
{
    set(card, CCAN_OFFSET_IF1_COMMAND_MASK, 0x00f3);
    set(card, CCAN_OFFSET_IF1_MASK_1, 0);
    set(card, CCAN_OFFSET_IF1_MASK_2, 0);
    set(card, CCAN_OFFSET_IF1_ARBITRATION_1, 0);
    set(card, CCAN_OFFSET_IF1_ARBITRATION_2, arbitration);
    set(card, CCAN_OFFSET_IF1_MESSAGE_CONTROL, control);
    set(card, CCAN_OFFSET_IF1_DATA_A1, bytes);
    set(card, CCAN_OFFSET_IF1_COMMAND_REQUEST, object);
}

/* Object 1 sends this identifier and byte: MsgVal, Dir; TxIE, TxRqst, EoB. */
static void request(Card *card, uint16_t id, uint16_t byte)
{
    set_object(card, SENDS, 0xa000 | id << 2, 0x0981, byte);
}

/* Starts a card as a driver does; object 2 takes everything. */
static void open_card(Card *card, uint16_t timing, uint16_t control)
{
    set(card, CCAN_OFFSET_CONTROL, INIT | CCE);
    set(card, CCAN_OFFSET_BIT_TIMING, timing);
    set_object(card, RECEIVES, 0x8000, 0x1480, 0); /* UMask, RxIE, EoB */
    set(card, CCAN_OFFSET_CONTROL, control);
}

static void open_both(Bench *b)
{
    open_card(&b->cards[0], TIMING_50MHZ, IE);
    open_card(&b->cards[1], TIMING_50MHZ, IE);
}

static bool pulled(Card *card)
{
    return qpci_config_readw(card->dev, PCI_STATUS) & PCI_STATUS_INTERRUPT;
}

/* Reads object 2 and clears NewDat and IntPnd, as a driver does. */
static void take(Card *card)
{
    set(card, CCAN_OFFSET_IF2_COMMAND_MASK, 0x007f);
    set(card, CCAN_OFFSET_IF2_COMMAND_REQUEST, RECEIVES);
}

static void assert_taken(Card *card, uint16_t id, uint16_t byte)
{
    g_assert_cmphex(get(card, CCAN_OFFSET_NEW_DATA_1), ==, 1 << (RECEIVES - 1));
    take(card);
    g_assert_cmphex(get(card, CCAN_OFFSET_IF2_ARBITRATION_2), ==,
                    0x8000 | id << 2);
    g_assert_cmphex(get(card, CCAN_OFFSET_IF2_MESSAGE_CONTROL), ==, 0xb481);
    g_assert_cmphex(get(card, CCAN_OFFSET_IF2_DATA_A1) & 0xff, ==, byte);
    g_assert_cmphex(get(card, CCAN_OFFSET_NEW_DATA_1), ==, 0);
}

static void assert_nothing_came(Card *card)
{
    g_assert_cmphex(get(card, CCAN_OFFSET_NEW_DATA_1), ==, 0);
}

static void set_property(Bench *b, const char *name, unsigned value)
{
    qtest_qmp_assert_success(b->qts,
        "{ 'execute': 'qom-set', 'arguments': {"
        " 'path': '/machine/peripheral/can0', 'property': %s,"
        " 'value': %u } }", name, value);
}

/* ---- the tests */

static void test_reset_values(void)
{
    Bench b = start("");
    Card *card = &b.cards[0];

    g_assert_cmphex(get(card, CCAN_OFFSET_CONTROL), ==, INIT);
    g_assert_cmphex(get(card, CCAN_OFFSET_STATUS), ==, 0);
    g_assert_cmphex(get(card, CCAN_OFFSET_ERROR_COUNTER), ==, 0);
    g_assert_cmphex(get(card, CCAN_OFFSET_BIT_TIMING), ==, 0x2301);
    g_assert_cmphex(get(card, CCAN_OFFSET_INTERRUPT), ==, 0);
    g_assert_cmphex(get(card, CCAN_OFFSET_IF1_COMMAND_REQUEST), ==, 1);
    g_assert_cmphex(get(card, CCAN_OFFSET_IF2_MASK_1), ==, 0xffff);
    g_assert_cmphex(get(card, CCAN_OFFSET_MESSAGE_VALID_1), ==, 0);
    g_assert_false(pulled(card));
    stop(&b);
}

/* Accesses of 16 bits, and those where no register is. */
static void test_accesses(void)
{
    Bench b = start("");
    Card *card = &b.cards[0];
    uint32_t at = 2 * CCAN_OFFSET_IF1_DATA_A1;

    qpci_io_writew(card->dev, card->bar, at, 0x1234);
    g_assert_cmphex(qpci_io_readw(card->dev, card->bar, at), ==, 0x1234);
    g_assert_cmphex(qpci_io_readl(card->dev, card->bar, at), ==, 0x1234);
    qpci_io_writew(card->dev, card->bar, at + 2, 0xffff);
    g_assert_cmphex(qpci_io_readw(card->dev, card->bar, at + 2), ==, 0);
    g_assert_cmphex(qpci_io_readl(card->dev, card->bar, at), ==, 0x1234);
    qpci_io_writel(card->dev, card->bar, 0x1f0, 0xffff);
    g_assert_cmphex(qpci_io_readl(card->dev, card->bar, 0x1f0), ==, 0);
    stop(&b);
}

/* Both have their interrupt in the bit in which the frame ends, not before. */
static void test_frame(void)
{
    Bench b = start("");
    Card *sender = &b.cards[0];
    Card *receiver = &b.cards[1];

    open_both(&b);
    request(sender, 0x100, 0xbb);
    qtest_clock_step(b.qts, FRAME - 1);
    g_assert_false(pulled(sender));
    g_assert_false(pulled(receiver));
    assert_nothing_came(receiver);
    qtest_clock_step(b.qts, 1);
    g_assert_true(pulled(sender));
    g_assert_true(pulled(receiver));
    g_assert_cmphex(get(sender, CCAN_OFFSET_INTERRUPT), ==, SENDS);
    g_assert_cmphex(get(receiver, CCAN_OFFSET_INTERRUPT), ==, RECEIVES);
    g_assert_cmphex(get(sender, CCAN_OFFSET_STATUS), ==, TXOK);
    g_assert_cmphex(get(receiver, CCAN_OFFSET_STATUS), ==, RXOK);
    g_assert_cmphex(get(sender, CCAN_OFFSET_TRANSMISSION_REQUEST_1), ==, 0);
    assert_taken(receiver, 0x100, 0xbb);
    g_assert_false(pulled(receiver));
    stop(&b);
}

/* A status interrupt goes with a read of Status. */
static void test_status_interrupt(void)
{
    Bench b = start("");
    Card *card = &b.cards[1];

    open_both(&b);
    set(card, CCAN_OFFSET_CONTROL, IE | SIE);
    set_object(card, RECEIVES, 0x8000, 0x1080, 0); /* without RxIE */
    request(&b.cards[0], 0x100, 0xbb);
    qtest_clock_step(b.qts, FRAME);
    g_assert_true(pulled(card));
    g_assert_cmphex(get(card, CCAN_OFFSET_INTERRUPT), ==, STATUS_INTERRUPT);
    g_assert_cmphex(get(card, CCAN_OFFSET_STATUS), ==, RXOK);
    g_assert_false(pulled(card));
    g_assert_cmphex(get(card, CCAN_OFFSET_INTERRUPT), ==, 0);
    stop(&b);
}

/* 20 quanta of 64 + 1 periods of 50 MHz: BRP 0, BRPE 1; a bit is 26 us. */
static void test_bit_time(void)
{
    Bench b = start("");
    int64_t frame = 55 * 26000;

    for (int k = 0; k < 2; k++) {
        set(&b.cards[k], CCAN_OFFSET_CONTROL, INIT | CCE);
        set(&b.cards[k], CCAN_OFFSET_BRP_EXTENSION, 1);
        open_card(&b.cards[k], TIMING_50MHZ & ~0x3f, IE);
    }
    request(&b.cards[0], 0x100, 0xbb);
    qtest_clock_step(b.qts, frame - 1);
    assert_nothing_came(&b.cards[1]);
    qtest_clock_step(b.qts, 1);
    assert_taken(&b.cards[1], 0x100, 0xbb);
    stop(&b);
}

/*
 * The second card requests a lower identifier while the first one's frame is
 * under way, and waits for its end; then both want, and the lower one wins.
 */
static void test_arbitration(void)
{
    Bench b = start("");
    Card *first = &b.cards[0];
    Card *second = &b.cards[1];

    open_both(&b);
    request(first, 0x200, 0xaa);
    qtest_clock_step(b.qts, 10 * BIT);
    request(second, 0x100, 0xbb);
    qtest_clock_step(b.qts, FRAME - 10 * BIT);
    assert_taken(second, 0x200, 0xaa);
    request(first, 0x200, 0xaa);
    qtest_clock_step(b.qts, INTERMISSION + FRAME - 1);
    assert_nothing_came(first);
    qtest_clock_step(b.qts, 1);
    assert_taken(first, 0x100, 0xbb);
    assert_nothing_came(second);
    qtest_clock_step(b.qts, INTERMISSION + FRAME);
    assert_taken(second, 0x200, 0xaa);
    stop(&b);
}

/*
 * Alone on the bus: no acknowledgement, TEC 8, LEC 3. When the other is there
 * the frame is sent.
 *
 * The error flag begins behind the ACK slot, 8 bits before the end of the
 * frame, and its 14 bits end 6 behind it; "at most 7" says ccan_network.h.
 */
static void test_no_acknowledge(void)
{
    Bench b = start("");
    Card *sender = &b.cards[0];

    open_card(sender, TIMING_50MHZ, IE);
    request(sender, 0x100, 0xbb);
    qtest_clock_step(b.qts, FRAME + 7 * BIT);
    g_assert_cmphex(get(sender, CCAN_OFFSET_STATUS), ==, 3);
    g_assert_cmphex(get(sender, CCAN_OFFSET_ERROR_COUNTER), ==, 8);
    open_card(&b.cards[1], TIMING_50MHZ, IE);
    qtest_clock_step(b.qts, INTERMISSION + FRAME);
    g_assert_cmphex(get(sender, CCAN_OFFSET_STATUS), ==, TXOK);
    g_assert_cmphex(get(sender, CCAN_OFFSET_ERROR_COUNTER), ==, 7);
    assert_taken(&b.cards[1], 0x100, 0xbb);
    stop(&b);
}

/*
 * In loop back mode a card sends to itself and to the other, which need not
 * be there; with Silent to itself alone.
 */
static void test_loop_back(void)
{
    Bench b = start("");
    Card *looped = &b.cards[0];
    Card *other = &b.cards[1];

    open_card(looped, TIMING_50MHZ, IE | TEST);
    set(looped, CCAN_OFFSET_TEST, LBACK);
    request(looped, 0x100, 0xbb);
    qtest_clock_step(b.qts, FRAME - 1);
    assert_nothing_came(looped);
    qtest_clock_step(b.qts, 1);
    assert_taken(looped, 0x100, 0xbb);
    g_assert_cmphex(get(looped, CCAN_OFFSET_STATUS), ==, RXOK | TXOK);
    g_assert_cmphex(get(looped, CCAN_OFFSET_ERROR_COUNTER), ==, 0);
    open_card(other, TIMING_50MHZ, IE);
    request(looped, 0x200, 0xaa);
    qtest_clock_step(b.qts, INTERMISSION + FRAME);
    assert_taken(looped, 0x200, 0xaa);
    assert_taken(other, 0x200, 0xaa);
    set(looped, CCAN_OFFSET_TEST, LBACK | SILENT);
    request(looped, 0x100, 0xbb);
    qtest_clock_step(b.qts, INTERMISSION + FRAME);
    assert_taken(looped, 0x100, 0xbb);
    assert_nothing_came(other);
    stop(&b);
}

/* A silent card acknowledges no frame and sends none, and hears each. */
static void test_silent(void)
{
    Bench b = start("-device ccan-pci,canbus=bus0,addr=6");
    Card *sender = &b.cards[0];
    Card *silent = &b.cards[1];
    Card third = find_card(b.bus, 6, 1);

    open_card(silent, TIMING_50MHZ, IE | TEST);
    set(silent, CCAN_OFFSET_TEST, SILENT);
    request(silent, 0x080, 0xcc);
    open_card(sender, TIMING_50MHZ, IE);
    request(sender, 0x100, 0xbb);
    qtest_clock_step(b.qts, FRAME + 7 * BIT);
    g_assert_cmphex(get(sender, CCAN_OFFSET_STATUS), ==, 3);
    g_assert_cmphex(get(sender, CCAN_OFFSET_ERROR_COUNTER), ==, 8);
    assert_nothing_came(silent);
    open_card(&third, TIMING_50MHZ, IE);
    qtest_clock_step(b.qts, INTERMISSION + FRAME);
    g_assert_cmphex(get(sender, CCAN_OFFSET_STATUS), ==, TXOK);
    assert_taken(silent, 0x100, 0xbb);
    assert_taken(&third, 0x100, 0xbb);
    qtest_clock_step(b.qts, 2 * FRAME);
    g_assert_cmphex(get(silent, CCAN_OFFSET_TRANSMISSION_REQUEST_1), ==,
                    1 << (SENDS - 1));
    assert_nothing_came(sender);
    g_free(third.dev);
    stop(&b);
}

/*
 * 32 spoiled frames lead the sender off the bus, and Init of Control is set;
 * 128 groups of eleven recessive bits after Init is cleared it is back, and
 * sends what waits.
 */
static void test_bus_off(void)
{
    Bench b = start("");
    Card *card = &b.cards[0];

    open_card(card, TIMING_50MHZ, IE | EIE);
    open_card(&b.cards[1], TIMING_50MHZ, IE);
    set_property(&b, "fault-frames", 32);
    request(card, 0x100, 0xbb);
    qtest_clock_step(b.qts, 32 * 2 * FRAME);
    g_assert_true(pulled(card));
    g_assert_cmphex(get(card, CCAN_OFFSET_INTERRUPT), ==, STATUS_INTERRUPT);
    g_assert_cmphex(get(card, CCAN_OFFSET_STATUS) & (BOFF | EWARN | EPASS), ==,
                    BOFF | EWARN | EPASS);
    g_assert_cmphex(get(card, CCAN_OFFSET_CONTROL), ==, INIT | IE | EIE);
    g_assert_cmphex(get(&b.cards[1], CCAN_OFFSET_ERROR_COUNTER), ==, 32 << 8);
    assert_nothing_came(&b.cards[1]);
    set(card, CCAN_OFFSET_CONTROL, IE | EIE);
    qtest_clock_step(b.qts, 127 * 11 * BIT);
    g_assert_cmphex(get(card, CCAN_OFFSET_STATUS) & BOFF, ==, BOFF);
    qtest_clock_step(b.qts, 2 * 11 * BIT);
    g_assert_cmphex(get(card, CCAN_OFFSET_STATUS) & BOFF, ==, 0);
    g_assert_cmphex(get(card, CCAN_OFFSET_ERROR_COUNTER), ==, 0);
    qtest_clock_step(b.qts, FRAME);
    assert_taken(&b.cards[1], 0x100, 0xbb);
    stop(&b);
}

/* The PCH's soft reset, in the middle of a frame: the other finds an error. */
static void test_soft_reset(void)
{
    Bench b = start("");
    Card *card = &b.cards[0];

    open_both(&b);
    request(card, 0x100, 0xbb);
    qtest_clock_step(b.qts, 20 * BIT);
    qpci_io_writel(card->dev, card->bar, 0x1fc, 1);
    qpci_io_writel(card->dev, card->bar, 0x1fc, 0);
    g_assert_cmphex(get(card, CCAN_OFFSET_CONTROL), ==, INIT);
    g_assert_cmphex(get(card, CCAN_OFFSET_BIT_TIMING), ==, 0x2301);
    g_assert_cmphex(get(card, CCAN_OFFSET_MESSAGE_VALID_1), ==, 0);
    qtest_clock_step(b.qts, 2 * FRAME);
    assert_nothing_came(&b.cards[1]);
    g_assert_cmphex(get(&b.cards[1], CCAN_OFFSET_STATUS), ==, 1);
    g_assert_cmphex(get(&b.cards[1], CCAN_OFFSET_ERROR_COUNTER), ==, 1 << 8);
    stop(&b);
}

/* A card that is unplugged in the middle of its frame. */
static void test_unplug(void)
{
    Bench b = start("");
    Card *left = &b.cards[1];

    open_both(&b);
    request(&b.cards[0], 0x100, 0xbb);
    qtest_clock_step(b.qts, 20 * BIT);
    qpci_unplug_acpi_device_test(b.qts, "can0", 4);
    qtest_clock_step(b.qts, 2 * FRAME);
    assert_nothing_came(left);
    g_assert_cmphex(get(left, CCAN_OFFSET_ERROR_COUNTER), ==, 1 << 8);
    request(left, 0x200, 0xaa);
    qtest_clock_step(b.qts, FRAME + 7 * BIT);
    g_assert_cmphex(get(left, CCAN_OFFSET_STATUS), ==, 3);
    stop(&b);
}

/* A frame stays on its can-bus. */
static void test_two_buses(void)
{
    Bench b = start("-object can-bus,id=bus1"
                    " -device ccan-pci,canbus=bus1,addr=6"
                    " -device ccan-pci,canbus=bus1,addr=7");
    Card other[2] = { find_card(b.bus, 6, 1), find_card(b.bus, 7, 1) };

    open_both(&b);
    open_card(&other[0], TIMING_50MHZ, IE);
    open_card(&other[1], TIMING_50MHZ, IE);
    request(&b.cards[0], 0x100, 0xbb);
    request(&other[0], 0x200, 0xaa);
    qtest_clock_step(b.qts, FRAME);
    assert_taken(&b.cards[1], 0x100, 0xbb);
    assert_taken(&other[1], 0x200, 0xaa);
    qtest_clock_step(b.qts, 2 * FRAME);
    assert_nothing_came(&b.cards[1]);
    assert_nothing_came(&other[1]);
    g_free(other[0].dev);
    g_free(other[1].dev);
    stop(&b);
}

static void test_system_reset(void)
{
    Bench b = start("");
    Card *card = &b.cards[0];

    open_both(&b);
    request(card, 0x100, 0xbb);
    qtest_clock_step(b.qts, FRAME);
    g_assert_true(pulled(card));
    qtest_qmp_assert_success(b.qts, "{ 'execute': 'system_reset' }");
    qtest_qmp_eventwait(b.qts, "RESET");
    g_assert_false(pulled(card));
    qpci_device_enable(card->dev);
    qpci_config_writel(card->dev, PCI_BASE_ADDRESS_0 + 4, card->bar.addr);
    g_assert_cmphex(get(card, CCAN_OFFSET_CONTROL), ==, INIT);
    g_assert_cmphex(get(card, CCAN_OFFSET_NEW_DATA_1), ==, 0);
    stop(&b);
}

/* Messages go into memory. */
static void enable_msi(Card *card)
{
    uint8_t at = qpci_find_capability(card->dev, PCI_CAP_ID_MSI, 0);
    uint16_t flags = qpci_config_readw(card->dev, at + PCI_MSI_FLAGS);

    g_assert_cmphex(at, !=, 0);
    g_assert_cmphex(flags & PCI_MSI_FLAGS_64BIT, ==, PCI_MSI_FLAGS_64BIT);
    qpci_config_writel(card->dev, at + PCI_MSI_ADDRESS_LO, MSI_ADDRESS);
    qpci_config_writel(card->dev, at + PCI_MSI_ADDRESS_HI, 0);
    qpci_config_writew(card->dev, at + PCI_MSI_DATA_64, MSI_DATA);
    qpci_config_writew(card->dev, at + PCI_MSI_FLAGS,
                       flags | PCI_MSI_FLAGS_ENABLE);
}

/* A message for each rise of the line. */
static void test_msi(void)
{
    Bench b = start("");
    Card *card = &b.cards[1];

    enable_msi(card);
    open_both(&b);
    for (int k = 0; k < 2; k++) {
        qtest_writel(b.qts, MSI_ADDRESS, 0);
        request(&b.cards[0], 0x100, 0xbb);
        qtest_clock_step(b.qts, FRAME - 1);
        g_assert_cmphex(qtest_readl(b.qts, MSI_ADDRESS), ==, 0);
        qtest_clock_step(b.qts, 1);
        g_assert_cmphex(qtest_readl(b.qts, MSI_ADDRESS), ==, MSI_DATA);
        g_assert_false(pulled(card));
        qtest_writel(b.qts, MSI_ADDRESS, 0);
        set(card, CCAN_OFFSET_CONTROL, IE); /* and it still is up */
        g_assert_cmphex(qtest_readl(b.qts, MSI_ADDRESS), ==, 0);
        assert_taken(card, 0x100, 0xbb);
        qtest_clock_step(b.qts, INTERMISSION);
    }
    stop(&b);
}

/* The other card, with registers in BAR 0 and 52 MHz, on the same bus. */
static void test_sta2x11(void)
{
    Bench b = start("-device ccan-sta2x11,canbus=bus0,addr=6");
    Card card = find_card(b.bus, 6, 0);

    open_card(&card, TIMING_52MHZ, IE);
    open_card(&b.cards[0], TIMING_50MHZ, IE);
    request(&card, 0x100, 0xbb);
    qtest_clock_step(b.qts, FRAME);
    assert_taken(&b.cards[0], 0x100, 0xbb);
    qpci_io_writel(card.dev, card.bar, 0x1fc, 1); /* no register here */
    g_assert_cmphex(get(&card, CCAN_OFFSET_CONTROL), ==, IE);
    g_free(card.dev);
    stop(&b);
}

/* ---- another device of QEMU: a SJA1000 in PeliCAN mode, in BAR 1 */

enum {
    SJA_MODE = 0, SJA_COMMAND = 1, SJA_STATUS = 2, SJA_CODE = 16,
    SJA_MASK = 20, SJA_FRAME = 16, SJA_DIVIDER = 31,
    SJA_TRANSMIT = 1, SJA_RELEASE = 4, SJA_RECEIVED = 1,
};

static void sja_set(Card *sja, uint64_t at, uint8_t value)
{
    qpci_io_writeb(sja->dev, sja->bar, at, value);
}

static uint8_t sja_get(Card *sja, uint64_t at)
{
    return qpci_io_readb(sja->dev, sja->bar, at);
}

static Card sja_open(Bench *b)
{
    Card sja = find_card(b->bus, 6, 1);

    sja_set(&sja, SJA_MODE, 1);
    sja_set(&sja, SJA_DIVIDER, 0x80);
    for (int k = 0; k < 4; k++) {
        sja_set(&sja, SJA_MASK + k, 0xff);
    }
    sja_set(&sja, SJA_MODE, 0);
    return sja;
}

/* 200#AA and 100#BB: length, two bytes of the identifier, data. */
static void sja_send(Card *sja, uint16_t id, uint8_t byte)
{
    sja_set(sja, SJA_FRAME, 1);
    sja_set(sja, SJA_FRAME + 1, id >> 3);
    sja_set(sja, SJA_FRAME + 2, id << 5);
    sja_set(sja, SJA_FRAME + 3, byte);
    sja_set(sja, SJA_COMMAND, SJA_TRANSMIT);
}

/* It acknowledges what a card sends, and gets it when the frame ends. */
static void test_other_device_receives(void)
{
    Bench b = start("-device kvaser_pci,canbus=bus0,addr=6");
    Card sja = sja_open(&b);

    open_card(&b.cards[0], TIMING_50MHZ, IE);
    request(&b.cards[0], 0x100, 0xbb);
    qtest_clock_step(b.qts, FRAME - 1);
    g_assert_cmphex(sja_get(&sja, SJA_STATUS) & SJA_RECEIVED, ==, 0);
    qtest_clock_step(b.qts, 1);
    g_assert_cmphex(sja_get(&sja, SJA_STATUS) & SJA_RECEIVED, ==, SJA_RECEIVED);
    g_assert_cmphex(sja_get(&sja, SJA_FRAME) & 0x0f, ==, 1);
    g_assert_cmphex(sja_get(&sja, SJA_FRAME + 1), ==, 0x100 >> 3);
    g_assert_cmphex(sja_get(&sja, SJA_FRAME + 3), ==, 0xbb);
    g_assert_cmphex(get(&b.cards[0], CCAN_OFFSET_STATUS), ==, TXOK);
    g_free(sja.dev);
    stop(&b);
}

/* In reset mode it takes nothing, so nobody acknowledges. */
static void test_other_device_is_deaf(void)
{
    Bench b = start("-device kvaser_pci,canbus=bus0,addr=6");
    Card sja = sja_open(&b);

    sja_set(&sja, SJA_MODE, 1);
    open_card(&b.cards[0], TIMING_50MHZ, IE);
    request(&b.cards[0], 0x100, 0xbb);
    qtest_clock_step(b.qts, FRAME + 7 * BIT);
    g_assert_cmphex(get(&b.cards[0], CCAN_OFFSET_STATUS), ==, 3);
    g_assert_cmphex(get(&b.cards[0], CCAN_OFFSET_ERROR_COUNTER), ==, 8);
    sja_set(&sja, SJA_MODE, 0);
    qtest_clock_step(b.qts, INTERMISSION + FRAME);
    g_assert_cmphex(get(&b.cards[0], CCAN_OFFSET_STATUS), ==, TXOK);
    g_free(sja.dev);
    stop(&b);
}

/* What it sends takes its time, and contends with what cards send. */
static void test_other_device_sends(void)
{
    Bench b = start("-device kvaser_pci,canbus=bus0,addr=6");
    Card sja = sja_open(&b);

    open_both(&b);
    sja_send(&sja, 0x200, 0xaa);
    qtest_clock_step(b.qts, FRAME - 1);
    assert_nothing_came(&b.cards[0]);
    qtest_clock_step(b.qts, 1);
    assert_taken(&b.cards[0], 0x200, 0xaa);
    assert_taken(&b.cards[1], 0x200, 0xaa);
    sja_send(&sja, 0x200, 0xaa);
    request(&b.cards[0], 0x100, 0xbb);
    qtest_clock_step(b.qts, INTERMISSION + FRAME);
    assert_taken(&b.cards[1], 0x100, 0xbb);
    assert_nothing_came(&b.cards[0]);
    qtest_clock_step(b.qts, INTERMISSION + FRAME);
    assert_taken(&b.cards[0], 0x200, 0xaa);
    assert_taken(&b.cards[1], 0x200, 0xaa);
    qtest_clock_step(b.qts, 2 * FRAME);
    assert_nothing_came(&b.cards[0]);
    g_free(sja.dev);
    stop(&b);
}

/* ---- migration */

static void wait_for_migration(QTestState *qts)
{
    for (;;) {
        QDict *answer = qtest_qmp(qts, "{ 'execute': 'query-migrate' }");
        QDict *told = qdict_get_qdict(answer, "return");
        g_autofree char *status = g_strdup(qdict_get_try_str(told, "status"));

        qobject_unref(answer);
        g_assert_cmpstr(status, !=, "failed");
        if (g_strcmp0(status, "completed") == 0) {
            return;
        }
        g_usleep(1000);
    }
}

/* To a QEMU with the same devices, `more` of them; its clock then is `now`. */
static Bench migrate(Bench *from, const char *more, int64_t now)
{
    g_autofree char *uri = g_strdup_printf("unix:/tmp/ccan-pci-test-%d",
                                           getpid());
    g_autofree char *words = g_strdup_printf("%s -incoming %s", more, uri);
    Bench to = { .qts = start_qemu(words) };

    qtest_qmp_assert_success(from->qts, "{ 'execute': 'migrate',"
                             " 'arguments': { 'uri': %s } }", uri);
    wait_for_migration(from->qts);
    qtest_qmp_eventwait(to.qts, "RESUME");
    qtest_clock_set(to.qts, now);
    to.bus = qpci_new_pc(to.qts, NULL);
    for (int k = 0; k < 2; k++) {
        to.cards[k].dev = qpci_device_find(to.bus, QPCI_DEVFN(4 + k, 0));
        to.cards[k].bar = from->cards[k].bar;
    }
    return to;
}

/*
 * In the middle of a frame: it begins anew after the migration, and comes
 * once. Another one waits behind it.
 */
static void test_migration(void)
{
    Bench from = start("");
    Bench to;

    open_both(&from);
    request(&from.cards[0], 0x200, 0xaa);
    request(&from.cards[1], 0x300, 0xcc);
    qtest_clock_step(from.qts, 20 * BIT);
    to = migrate(&from, "", 20 * BIT);
    stop(&from);
    g_assert_cmphex(get(&to.cards[0], CCAN_OFFSET_BIT_TIMING), ==,
                    TIMING_50MHZ);
    assert_nothing_came(&to.cards[1]);
    qtest_clock_step(to.qts, FRAME - 1);
    assert_nothing_came(&to.cards[1]);
    qtest_clock_step(to.qts, 1);
    g_assert_true(pulled(&to.cards[0]));
    assert_taken(&to.cards[1], 0x200, 0xaa);
    assert_nothing_came(&to.cards[0]);
    qtest_clock_step(to.qts, INTERMISSION + 2 * FRAME);
    assert_taken(&to.cards[0], 0x300, 0xcc);
    assert_nothing_came(&to.cards[1]);
    stop(&to);
}

/* With the line up on one side, and nothing under way. */
static void test_migration_idle(void)
{
    Bench from = start("");
    Bench to;

    open_both(&from);
    request(&from.cards[0], 0x100, 0xbb);
    qtest_clock_step(from.qts, FRAME);
    to = migrate(&from, "", FRAME);
    stop(&from);
    g_assert_true(pulled(&to.cards[1]));
    assert_taken(&to.cards[1], 0x100, 0xbb);
    g_assert_false(pulled(&to.cards[1]));
    request(&to.cards[1], 0x200, 0xaa);
    qtest_clock_step(to.qts, INTERMISSION + FRAME);
    assert_taken(&to.cards[0], 0x200, 0xaa);
    stop(&to);
}

/* With the line up and MSI: no second message of the same rise. */
static void test_migration_msi(void)
{
    Bench from = start("");
    Bench to;

    enable_msi(&from.cards[1]);
    open_both(&from);
    request(&from.cards[0], 0x100, 0xbb);
    qtest_clock_step(from.qts, FRAME);
    g_assert_cmphex(qtest_readl(from.qts, MSI_ADDRESS), ==, MSI_DATA);
    qtest_writel(from.qts, MSI_ADDRESS, 0);
    to = migrate(&from, "", FRAME);
    stop(&from);
    set(&to.cards[1], CCAN_OFFSET_CONTROL, IE);
    g_assert_cmphex(qtest_readl(to.qts, MSI_ADDRESS), ==, 0);
    assert_taken(&to.cards[1], 0x100, 0xbb);
    request(&to.cards[0], 0x100, 0xbb);
    qtest_clock_step(to.qts, INTERMISSION + FRAME);
    g_assert_cmphex(qtest_readl(to.qts, MSI_ADDRESS), ==, MSI_DATA);
    stop(&to);
}

/* What another device has sent, and waits for the bus. */
static void test_migration_other_device(void)
{
    const char *more = "-device kvaser_pci,canbus=bus0,addr=6";
    Bench from = start(more);
    Card sja = sja_open(&from);
    Bench to;

    open_both(&from);
    sja_send(&sja, 0x200, 0xaa);
    sja_send(&sja, 0x100, 0xbb);
    qtest_clock_step(from.qts, 20 * BIT);
    to = migrate(&from, more, 20 * BIT);
    g_free(sja.dev);
    stop(&from);
    qtest_clock_step(to.qts, FRAME);
    assert_taken(&to.cards[1], 0x200, 0xaa);
    qtest_clock_step(to.qts, INTERMISSION + FRAME);
    assert_taken(&to.cards[1], 0x100, 0xbb);
    stop(&to);
}

int main(int argc, char **argv)
{
    g_test_init(&argc, &argv, NULL);
    qtest_add_func("/ccan-pci/reset-values", test_reset_values);
    qtest_add_func("/ccan-pci/accesses", test_accesses);
    qtest_add_func("/ccan-pci/frame", test_frame);
    qtest_add_func("/ccan-pci/status-interrupt", test_status_interrupt);
    qtest_add_func("/ccan-pci/bit-time", test_bit_time);
    qtest_add_func("/ccan-pci/arbitration", test_arbitration);
    qtest_add_func("/ccan-pci/no-acknowledge", test_no_acknowledge);
    qtest_add_func("/ccan-pci/loop-back", test_loop_back);
    qtest_add_func("/ccan-pci/silent", test_silent);
    qtest_add_func("/ccan-pci/bus-off", test_bus_off);
    qtest_add_func("/ccan-pci/soft-reset", test_soft_reset);
    qtest_add_func("/ccan-pci/unplug", test_unplug);
    qtest_add_func("/ccan-pci/two-buses", test_two_buses);
    qtest_add_func("/ccan-pci/system-reset", test_system_reset);
    qtest_add_func("/ccan-pci/msi", test_msi);
    qtest_add_func("/ccan-pci/sta2x11", test_sta2x11);
    qtest_add_func("/ccan-pci/other-device/receives",
                   test_other_device_receives);
    qtest_add_func("/ccan-pci/other-device/deaf", test_other_device_is_deaf);
    qtest_add_func("/ccan-pci/other-device/sends", test_other_device_sends);
    qtest_add_func("/ccan-pci/migration/frame", test_migration);
    qtest_add_func("/ccan-pci/migration/idle", test_migration_idle);
    qtest_add_func("/ccan-pci/migration/msi", test_migration_msi);
    qtest_add_func("/ccan-pci/migration/other-device",
                   test_migration_other_device);
    return g_test_run();
}
