/* C_CANs and D_CANs of libccan for SystemC with TLM 2.0: a module for each controller, and one for the bus between them.
 *
 *   ccan_systemc::Bus bus("bus");
 *   ccan_systemc::Controller can("can", bus, CCAN_LAYOUT_C_CAN, sc_core::sc_time(125, sc_core::SC_NS));
 *   interconnect.initiator.bind(can.registers);
 *   can.reset(reset_signal);
 *   can.interrupt(interrupt_signal);
 *
 * SystemC's kernel runs one process at a time, and no call of the library waits, so each call here has the whole chip. README.md
 * says what a platform finds there. This is C++, and nothing of it is proved; what the chips do, and what comes of a frame on the
 * bus, are calls of ccan.h. */
#ifndef CCAN_MODULE_H
#define CCAN_MODULE_H

#include <ccan_network.h>
#include <systemc>
#include <tlm>
#include <tlm_utils/simple_target_socket.h>

#include <array>
#include <cstdint>

namespace ccan_systemc {

/* A chip of the library as it is after its reset, open as long as this object is there. A code that no call can answer here is
 * reported as an error of SystemC. */
class Chip {
public:
    Chip(ccan_layout layout, uint32_t profile);
    ~Chip();
    Chip(const Chip &) = delete;
    Chip &operator=(const Chip &) = delete;

    /* Whether its registers are of 32 bits, so that an access may be, too. */
    bool has_words() const { return layout != CCAN_LAYOUT_C_CAN; }

    /* An access to the register, or the word, at this offset: false, and nothing is done, if none begins there. */
    bool read(uint32_t offset, uint16_t &value);
    bool read(uint32_t offset, uint32_t &value);
    bool write(uint32_t offset, uint16_t value);
    bool write(uint32_t offset, uint32_t value);

    void reset();
    bool pulls_line();
    bool takes_part();   /* Init is 0 */
    uint32_t bit_time(); /* in periods of CAN_CLK */

    ccan_bus *bus() { return &chip.bus; }
    void meet(); /* before a call on the bus's handle: it goes on from what was done on the others */

private:
    template <typename Call> bool on_interface(const char *name, Call call);
    uint16_t bus_register(uint32_t offset);

    const ccan_layout layout;
    ccan_chip chip = CCAN_CHIP_CLOSED;
};

/* Simulated time in bits. Bits follow each other without a gap; the first one of a new length begins when it is set. */
class BitClock {
public:
    void set_length(const sc_core::sc_time &bit);
    uint64_t now() const;                       /* the bit that is under way */
    sc_core::sc_time until(uint64_t bit) const; /* how long until this bit begins; zero if it has begun */
    sc_core::sc_time until_next() const;        /* how long until a bit begins; zero if one begins now */

private:
    sc_core::sc_time length{2, sc_core::SC_US};
    sc_core::sc_time since;
    uint64_t first = 0; /* the bit that began then */
};

class Controller;

/* A CAN bus: a network of ccan_network.h on simulated time. Its functions are for its controllers. It outlives them. */
class Bus : public sc_core::sc_module {
public:
    explicit Bus(const sc_core::sc_module_name &name);

    uint32_t join(Controller &controller); /* its place */
    void leave(uint32_t place);

    /* Before a write by which a host may clear Init: the groups of recessive bits from before don't count for the way back from
     * bus off. */
    void pass();
    /* After a write by which a host may have requested a transmission, or cleared Init: a frame begins with the next bit if the
     * bus is free. */
    void kick();

private:
    void run();
    void finish();
    uint64_t start();
    void find_bit_time();
    void spoil();
    void meet();

    ccan_network network{};
    std::array<Controller *, CCAN_NETWORK_MEMBERS> controllers{}; /* each at its place */
    BitClock clock;
    sc_core::sc_event wake;
};

/* A controller: its registers at a socket, its reset and its interrupt line. */
class Controller : public sc_core::sc_module {
public:
    tlm_utils::simple_target_socket<Controller> registers;
    sc_core::sc_in<bool> reset;      /* a rise resets the chip */
    sc_core::sc_out<bool> interrupt; /* the level of the line, 1 if it is pulled */

    /* `can_clk` is the period of its CAN_CLK. `profile` is 1 for 32 message objects, 2 for 64. */
    Controller(const sc_core::sc_module_name &name, Bus &bus, ccan_layout layout, const sc_core::sc_time &can_clk,
        uint32_t profile = 1);
    ~Controller() override;

    /* It finds this error in the next frames that it sends, so many. */
    void spoil(ccan_fault fault, uint32_t frames);

private:
    friend class Bus;

    void b_transport(tlm::tlm_generic_payload &payload, sc_core::sc_time &delay);
    tlm::tlm_response_status refusal(const tlm::tlm_generic_payload &payload) const;
    bool access(tlm::tlm_generic_payload &payload);
    template <typename Value> bool read(tlm::tlm_generic_payload &payload);
    template <typename Value> bool write(tlm::tlm_generic_payload &payload);
    void update() { changed.notify(sc_core::SC_ZERO_TIME); }
    void on_reset();
    void drive_interrupt();

    Bus &bus;
    Chip chip;
    const sc_core::sc_time can_clk;
    ccan_fault fault = CCAN_QUIET;
    uint32_t fault_frames = 0;
    sc_core::sc_event changed; /* the line may be another now */
    uint32_t place = CCAN_NETWORK_MEMBERS; /* none yet */
};

} // namespace ccan_systemc
#endif
