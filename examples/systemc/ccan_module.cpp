/* C_CANs and D_CANs of libccan for SystemC: see ccan_module.h. */
#include "ccan_module.h"

#include <cstring>
#include <string>

using sc_core::sc_time;
using sc_core::sc_time_stamp;
using sc_core::SC_ZERO_TIME;

namespace ccan_systemc {

namespace {

constexpr const char *REPORTS = "/ccan/systemc"; /* the type of our reports */
constexpr uint16_t INIT = 0x0001;                /* in Control */
constexpr uint32_t TRIES = 100;                  /* no other thread is there, so the first one is enough */

/* Reports a code that says that something was not done. One process at a time makes all calls, so none of them is lost; what is
 * left is an opening that is refused, and a 33rd controller on a bus. */
void must(uint32_t code, const char *call)
{
    if (code != CCAN_DONE)
        SC_REPORT_ERROR(REPORTS, (std::string(call) + ": " + ccan_text(code)).c_str());
}

/* The same in a destructor, which may not throw. */
void should(uint32_t code, const char *call)
{
    if (code != CCAN_DONE)
        SC_REPORT_WARNING(REPORTS, (std::string(call) + ": " + ccan_text(code)).c_str());
}

uint32_t bit_timing_at(ccan_layout layout)
{
    return layout == CCAN_LAYOUT_C_CAN ? CCAN_OFFSET_BIT_TIMING : 2 * CCAN_OFFSET_BIT_TIMING;
}

uint32_t brp_extension_at(ccan_layout layout)
{
    switch (layout) {
    case CCAN_LAYOUT_C_CAN:
        return CCAN_OFFSET_BRP_EXTENSION;
    case CCAN_LAYOUT_C_CAN_32:
        return 2 * CCAN_OFFSET_BRP_EXTENSION;
    case CCAN_LAYOUT_D_CAN: /* the upper half of BTR */
        break;
    }
    return bit_timing_at(layout) + 2;
}

} // namespace

/* ---- a chip */

Chip::Chip(ccan_layout layout, uint32_t profile) : layout(layout)
{
    must(ccan_open_reset(&chip, profile, 0, TRIES, layout), "ccan_open_reset");
}

Chip::~Chip()
{
    ccan_final records;
    should(ccan_end(&chip, &records), "ccan_end");
}

void Chip::meet() { must(ccan_meet(&chip), "ccan_meet"); }

/* The registers of IF2 are for its own handle alone; that of IF1 has all others. */
template <typename Call> bool Chip::on_interface(const char *name, Call call)
{
    meet();
    uint32_t code = call(&chip.if1);
    if (code == CCAN_OTHER_INTERFACE)
        code = call(&chip.if2);
    if (code == CCAN_OFFSET_RANGE)
        return false;
    must(code, name);
    return true;
}

bool Chip::read(uint32_t offset, uint16_t &value)
{
    return on_interface("ccan_read16", [&](ccan_host *host) { return ccan_read16(host, offset, &value); });
}

bool Chip::read(uint32_t offset, uint32_t &value)
{
    return on_interface("ccan_read32", [&](ccan_host *host) { return ccan_read32(host, offset, &value); });
}

bool Chip::write(uint32_t offset, uint16_t value)
{
    return on_interface("ccan_write16", [&](ccan_host *host) { return ccan_write16(host, offset, value); });
}

bool Chip::write(uint32_t offset, uint32_t value)
{
    return on_interface("ccan_write32", [&](ccan_host *host) { return ccan_write32(host, offset, value); });
}

void Chip::reset() { must(ccan_reset(&chip), "ccan_reset"); }

bool Chip::pulls_line()
{
    uint32_t pulled = 0;
    meet();
    must(ccan_line(&chip.if1, &pulled), "ccan_line");
    return pulled != 0;
}

uint16_t Chip::bus_register(uint32_t offset)
{
    uint16_t value = 0;
    must(ccan_bus_read16(&chip.bus, offset, &value), "ccan_bus_read16");
    return value;
}

bool Chip::takes_part() { return (bus_register(CCAN_OFFSET_CONTROL) & INIT) == 0; }

uint32_t Chip::bit_time()
{
    return ccan_bit_time(bus_register(bit_timing_at(layout)), bus_register(brp_extension_at(layout)));
}

/* ---- time */

void BitClock::set_length(const sc_time &bit)
{
    if (bit == length)
        return;
    first = now();
    since = sc_time_stamp();
    length = bit;
}

uint64_t BitClock::now() const { return first + (sc_time_stamp() - since).value() / length.value(); }

sc_time BitClock::until(uint64_t bit) const
{
    const uint64_t bits = bit > first ? bit - first : 0;
    const sc_time begins = since + sc_time::from_value(bits * length.value());
    return begins > sc_time_stamp() ? begins - sc_time_stamp() : SC_ZERO_TIME;
}

sc_time BitClock::until_next() const
{
    const uint64_t over = (sc_time_stamp() - since).value() % length.value();
    return over == 0 ? SC_ZERO_TIME : length - sc_time::from_value(over);
}

/* ---- the bus */

Bus::Bus(const sc_core::sc_module_name &name) : sc_module(name)
{
    SC_HAS_PROCESS(Bus);
    SC_METHOD(run);
    sensitive << wake;
    dont_initialize();
    ccan_network_init(&network, clock.now());
}

uint32_t Bus::join(Controller &controller)
{
    uint32_t place = CCAN_NETWORK_MEMBERS;
    must(ccan_network_add_chip(&network, controller.chip.bus(), &place), "ccan_network_add_chip");
    controllers.at(place) = &controller;
    return place;
}

void Bus::leave(uint32_t place)
{
    should(ccan_network_remove(&network, place), "ccan_network_remove");
    controllers[place] = nullptr;
}

void Bus::pass()
{
    meet();
    must(ccan_network_pass(&network, clock.now()), "ccan_network_pass");
}

void Bus::kick()
{
    if (!network.under_way)
        wake.notify(clock.until_next());
}

/* Whatever is to be done at this bit: a frame ends, or one begins. */
void Bus::run()
{
    meet();
    if (network.under_way && clock.now() >= network.ended)
        finish();
    const uint64_t until = network.under_way ? network.ended : start();
    if (until != CCAN_NETWORK_NEVER)
        wake.notify(clock.until(until));
    for (Controller *controller : controllers)
        if (controller != nullptr)
            controller->update();
}

void Bus::finish()
{
    uint64_t until = 0;
    must(ccan_network_finish(&network, clock.now(), &until), "ccan_network_finish");
    meet();
}

/* Begins a frame if it can, and says at which bit there is something to do again. */
uint64_t Bus::start()
{
    uint64_t until = CCAN_NETWORK_NEVER;
    find_bit_time();
    must(ccan_network_start(&network, clock.now(), &until), "ccan_network_start");
    if (network.under_way)
        spoil();
    return until;
}

/* A bit is as long as the registers of the first controller say that takes part. */
void Bus::find_bit_time()
{
    for (Controller *controller : controllers)
        if (controller != nullptr && controller->chip.takes_part()) {
            clock.set_length(sc_time::from_value(controller->chip.bit_time() * controller->can_clk.value()));
            return;
        }
}

/* Gives the senders of the frame that begins the errors that they are to find. */
void Bus::spoil()
{
    for (Controller *controller : controllers)
        if (controller != nullptr && controller->fault_frames != 0
            && network.wire.part[controller->place] == CCAN_PART_SENDER) {
            controller->fault_frames--;
            must(ccan_network_fault(&network, controller->place, controller->fault), "ccan_network_fault");
        }
}

void Bus::meet()
{
    for (Controller *controller : controllers)
        if (controller != nullptr)
            controller->chip.meet();
}

/* ---- a controller */

Controller::Controller(const sc_core::sc_module_name &name, Bus &bus, ccan_layout layout, const sc_time &can_clk,
    uint32_t profile)
    : sc_module(name), registers("registers"), reset("reset"), interrupt("interrupt"), bus(bus), chip(layout, profile),
      can_clk(can_clk)
{
    if (can_clk == SC_ZERO_TIME)
        SC_REPORT_ERROR(REPORTS, "CAN_CLK has a period of zero");
    registers.register_b_transport(this, &Controller::b_transport);
    SC_HAS_PROCESS(Controller);
    SC_METHOD(drive_interrupt);
    sensitive << changed;
    SC_METHOD(on_reset);
    sensitive << reset.pos();
    dont_initialize();
    place = bus.join(*this);
}

Controller::~Controller() { bus.leave(place); }

void Controller::spoil(ccan_fault error, uint32_t frames)
{
    fault = error;
    fault_frames = frames;
}

/* An access is made when the initiator's own time has come, and takes none. */
void Controller::b_transport(tlm::tlm_generic_payload &payload, sc_time &delay)
{
    payload.set_dmi_allowed(false);
    payload.set_response_status(refusal(payload));
    if (!payload.is_response_ok())
        return;
    if (delay != SC_ZERO_TIME)
        wait(delay);
    delay = SC_ZERO_TIME;
    if (!access(payload))
        payload.set_response_status(tlm::TLM_ADDRESS_ERROR_RESPONSE);
    update();
}

/* How a payload is refused that is no access to a register, wherever it lies; TLM_OK_RESPONSE if it may be one. */
tlm::tlm_response_status Controller::refusal(const tlm::tlm_generic_payload &payload) const
{
    const unsigned length = payload.get_data_length();
    if (!payload.is_read() && !payload.is_write())
        return tlm::TLM_COMMAND_ERROR_RESPONSE;
    if (payload.get_byte_enable_ptr() != nullptr)
        return tlm::TLM_BYTE_ENABLE_ERROR_RESPONSE;
    if (length != sizeof(uint16_t) && !(length == sizeof(uint32_t) && chip.has_words()))
        return tlm::TLM_BURST_ERROR_RESPONSE;
    if (payload.get_streaming_width() < length)
        return tlm::TLM_BURST_ERROR_RESPONSE;
    if (payload.get_address() > UINT32_MAX)
        return tlm::TLM_ADDRESS_ERROR_RESPONSE;
    return tlm::TLM_OK_RESPONSE;
}

/* Whether a register, or a word, begins there; else nothing is done. */
bool Controller::access(tlm::tlm_generic_payload &payload)
{
    const bool word = payload.get_data_length() == sizeof(uint32_t);
    if (payload.is_read())
        return word ? read<uint32_t>(payload) : read<uint16_t>(payload);
    return word ? write<uint32_t>(payload) : write<uint16_t>(payload);
}

/* The bytes of a payload are in the host's order, which is that of the library's numbers. */
template <typename Value> bool Controller::read(tlm::tlm_generic_payload &payload)
{
    Value value = 0;
    if (!chip.read(static_cast<uint32_t>(payload.get_address()), value))
        return false;
    std::memcpy(payload.get_data_ptr(), &value, sizeof value);
    return true;
}

template <typename Value> bool Controller::write(tlm::tlm_generic_payload &payload)
{
    Value value = 0;
    std::memcpy(&value, payload.get_data_ptr(), sizeof value);
    bus.pass();
    if (!chip.write(static_cast<uint32_t>(payload.get_address()), value))
        return false;
    bus.kick();
    return true;
}

void Controller::on_reset()
{
    chip.reset();
    update();
}

void Controller::drive_interrupt() { interrupt.write(chip.pulls_line()); }

} // namespace ccan_systemc
