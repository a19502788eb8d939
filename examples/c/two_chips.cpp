/* Two controllers on one bus, in one thread of C++, over ccan_network.h: it asks both chips at the start of each frame, and gives each
 * its event at the end.
 *
 * Both want to send: chip A the identifier 0x200, chip B 0x100. B wins the first frame, and A stores it; A sends the second one, and B
 * stores it. Then B is taken off the bus, so that nobody acknowledges what A sends: an acknowledge error, LEC 3, and 8 in A's TEC.
 * With B on the bus again A's frame goes out, and TEC is 7.
 *
 *   c++ -std=c++11 two_chips.cpp $(pkg-config --cflags --libs ccan) */
#include <ccan_network.h>
#include <cinttypes>
#include <cstdio>
#include <stdexcept>
#include <string>

static void must(uint32_t code, const char *what)
{
    if (code != CCAN_DONE)
        throw std::runtime_error(std::string(what) + ": " + ccan_text(code));
}

/* A chip that is open as long as this object is there. It can't be copied or moved, and neither can its handles. */
class Chip {
public:
    Chip(uint32_t profile, uint32_t tries) { must(ccan_open(&chip, profile, 0, tries), "ccan_open"); }
    ~Chip()
    {
        ccan_final last;
        if (ccan_end(&chip, &last) != CCAN_DONE)
            std::fprintf(stderr, "a chip did not end\n");
    }
    Chip(const Chip &) = delete;
    Chip &operator=(const Chip &) = delete;

    ccan_bus *bus() { return &chip.bus; }
    void set(uint32_t reg, uint16_t value) { must(ccan_set(&chip.if1, reg, value), "ccan_set"); }
    void request(uint16_t object) { must(ccan_request(&chip.if1, object), "ccan_request"); }
    /* Shows each port what the others have done: the program goes from IF1 to the bus and back. */
    void meet() { must(ccan_meet(&chip), "ccan_meet"); }

    ccan_record peek(uint32_t object)
    {
        ccan_record record;
        must(ccan_peek(&chip.if1, object, &record), "ccan_peek");
        return record;
    }

    uint32_t tec()
    {
        ccan_counts counts;
        must(ccan_counters(&chip.bus, 0, &counts), "ccan_counters");
        return counts.tec;
    }

private:
    ccan_chip chip = CCAN_CHIP_CLOSED;
};

/* A bus, with the time in bits. */
class Network {
public:
    Network() { ccan_network_init(&network, now); }

    uint32_t add(Chip &chip)
    {
        uint32_t place = 0;
        must(ccan_network_add_chip(&network, chip.bus(), &place), "ccan_network_add_chip");
        return place;
    }

    void remove(uint32_t place) { must(ccan_network_remove(&network, place), "ccan_network_remove"); }

    /* Plays one frame, from the first time at which one may begin. Whether somebody wants to send. */
    bool frame()
    {
        uint64_t until;
        must(ccan_network_start(&network, now, &until), "ccan_network_start");
        while (!network.under_way) {
            if (until == CCAN_NETWORK_NEVER)
                return false;
            now = until;
            must(ccan_network_start(&network, now, &until), "ccan_network_start");
        }
        must(ccan_network_finish(&network, until, &now), "ccan_network_finish");
        return true;
    }

    const ccan_finished &at(uint32_t place) const { return network.at[place].ended; }
    uint32_t id() const { return network.wire.frame.id; }

private:
    ccan_network network;
    uint64_t now = 0;
};

/* Object 1 sends this identifier with one byte, and object 2 receives the identifier of the other chip. */
static void configure(Chip &chip, uint16_t sends, uint16_t byte, uint16_t receives)
{
    chip.set(CCAN_CMASK, 0x00f3);
    chip.set(CCAN_ARB2, static_cast<uint16_t>(0x8000 | receives << 2)); /* valid, receives */
    chip.set(CCAN_CTRL, 0x0088);                                        /* EoB, eight bytes */
    chip.request(2);
    chip.set(CCAN_ARB2, static_cast<uint16_t>(0xa000 | sends << 2)); /* valid, sends */
    chip.set(CCAN_CTRL, 0x0181);                                     /* TxRqst, EoB, one byte */
    chip.set(CCAN_DATAA1, byte);
    chip.request(1);
}

static void print(const char *name, const ccan_finished &ended, uint32_t id)
{
    static const char *const events[] = { "has no part in", "sent", "received", "looped", "has an error in" };
    std::printf("%s %s frame %03" PRIx32, name, events[ended.event], id);
    if (ended.code != 0)
        std::printf(", LEC %" PRIu32, ended.code);
    std::printf("\n");
}

int main()
{
    try {
        Chip a(1, 100), b(1, 100);
        Network network;
        const uint32_t at_a = network.add(a), at_b = network.add(b);
        configure(a, 0x200, 0x00aa, 0x100);
        configure(b, 0x100, 0x00bb, 0x200);
        a.meet();
        b.meet();
        while (network.frame()) {
            print("A", network.at(at_a), network.id());
            print("B", network.at(at_b), network.id());
        }
        a.meet();
        b.meet();
        std::printf("A has %02x, B has %02x\n", a.peek(2).bytes[0], b.peek(2).bytes[0]);
        network.remove(at_b);
        a.set(CCAN_DATAA1, 0x00ac);
        a.request(1);
        a.meet();
        network.frame();
        print("A", network.at(at_a), network.id());
        std::printf("TEC of A: %" PRIu32 "\n", a.tec());
        network.add(b);
        network.frame();
        print("A", network.at(at_a), network.id());
        b.meet();
        std::printf("TEC of A: %" PRIu32 ", B has %02x\n", a.tec(), b.peek(2).bytes[0]);
    } catch (const std::runtime_error &error) {
        std::fprintf(stderr, "%s\n", error.what());
        return 1;
    }
    return 0;
}
