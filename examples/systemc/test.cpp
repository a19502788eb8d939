/* Tests of ccan_module.h: each on a board of its own, with two processors, their controllers and the bus between them. All boards
 * run at once, in one simulated time.
 *
 * Each value was worked out by hand, after the C_CAN User's Manual 1.2, for a D_CAN after the AM335x Technical Reference Manual,
 * and after CAN Specification 2.0.
 *
 * The bit time. CAN_CLK has 8 MHz, so its period is 125 ns. Bit Timing 0x2301 is BRP 1, TSeg1 3 and TSeg2 2: a time quantum has
 * two periods, 250 ns, and a bit 1 + 4 + 3 = 8 quanta, 2 us. That is 500 kbit/s.
 *
 * The frames. These are their bits, with a stuff bit in brackets behind each five equal ones. The CRC sequences, 0x60c5 and 0x194f,
 * are remainders by x^15 + x^14 + x^10 + x^8 + x^7 + x^4 + x^3 + 1.
 *
 *             SOF  identifier      RTR   IDE   r0  DLC      data      CRC sequence
 *   100#BB    0    00100000(1)000  0     0(1)  0   0001     10111011  1100000(1)11000101
 *   200#AA    0    0100000(1)0000  0(1)  0     0   000(1)1  10101010  001100101001111
 *
 * So each has 1 + 11 + 1 + 1 + 1 + 4 + 8 + 15 = 42 bits and 3 stuff bits; behind them come the CRC delimiter, the ACK slot, the ACK
 * delimiter and the end of frame, 1 + 1 + 1 + 7 = 10 bits. Together these are 55 bits, 110 us. The intermission has 3, 6 us. */
#include "ccan_module.h"

#include <tlm_utils/simple_initiator_socket.h>

#include <array>
#include <cstdio>
#include <cstring>
#include <memory>
#include <sstream>
#include <vector>

using ccan_systemc::Bus;
using ccan_systemc::Controller;
using sc_core::sc_time;
using sc_core::sc_time_stamp;
using sc_core::wait;

namespace {

enum : uint16_t { INIT = 0x01, IE = 0x02, SIE = 0x04, EIE = 0x08, CCE = 0x40 };       /* in Control */
enum : uint16_t { BOFF = 0x80, EWARN = 0x40, EPASS = 0x20, RXOK = 0x10, TXOK = 0x08 }; /* in Status */
constexpr uint16_t STATUS_INTERRUPT = 0x8000;                                        /* in Interrupt */
constexpr uint16_t SENDS = 1, RECEIVES = 2;                                          /* message objects */

/* The word registers of a D_CAN that are used here. */
enum : uint32_t {
    D_CONTROL = 0x00, D_STATUS = 0x04, D_BTR = 0x0c, D_INTERRUPT = 0x10, D_NEW_DATA_12 = 0x9c,
    D_IF1_COMMAND = 0x100, D_IF1_MASK = 0x104, D_IF1_ARBITRATION = 0x108, D_IF1_CONTROL = 0x10c, D_IF1_DATA_A = 0x110,
    D_IF2_COMMAND = 0x120, D_IF2_ARBITRATION = 0x128, D_IF2_CONTROL = 0x12c, D_IF2_DATA_A = 0x130
};

sc_time ns(uint64_t count) { return sc_time(static_cast<double>(count), sc_core::SC_NS); }
sc_time bits(uint64_t count) { return ns(2000 * count); }
sc_time frame() { return bits(55); }
sc_time intermission() { return bits(3); }

/* ---- the bench */

/* Ends the simulation with an error if the two differ. */
template <typename Value> void expect(const char *what, const Value &found, const Value &expected)
{
    if (found == expected)
        return;
    std::ostringstream text;
    text << what << " is " << found << ", and not " << expected;
    SC_REPORT_ERROR("/ccan/test", text.str().c_str());
}

void expect_register(const char *what, uint32_t found, uint32_t expected)
{
    char text[80];
    std::snprintf(text, sizeof text, "%s in hexadecimal: %x, and %x is expected", what, found, expected);
    if (found != expected)
        SC_REPORT_ERROR("/ccan/test", text);
}

/* An access, with its data. */
struct Access {
    Access(tlm::tlm_command command, uint64_t address, unsigned length)
    {
        payload.set_command(command);
        payload.set_address(address);
        payload.set_data_ptr(data.data());
        payload.set_data_length(length);
        payload.set_streaming_width(length);
    }

    std::array<unsigned char, 8> data{};
    tlm::tlm_generic_payload payload;
};

/* A processor and its controller. */
class Node : public sc_core::sc_module {
public:
    Node(const sc_core::sc_module_name &name, Bus &bus, ccan_layout layout)
        : sc_module(name), can("can", bus, layout, ns(125)), scale(layout == CCAN_LAYOUT_C_CAN_32 ? 2 : 1)
    {
        socket.bind(can.registers);
        can.reset(reset);
        can.interrupt(line);
        SC_HAS_PROCESS(Node);
        SC_METHOD(note_rise);
        sensitive << line.posedge_event();
        dont_initialize();
    }

    tlm::tlm_response_status send(Access &access, sc_time delay = sc_core::SC_ZERO_TIME)
    {
        socket->b_transport(access.payload, delay);
        expect("the delay that is left", delay, sc_time(sc_core::SC_ZERO_TIME));
        return access.payload.get_response_status();
    }

    template <typename Value> Value get(uint32_t address)
    {
        Value value = 0;
        Access access(tlm::TLM_READ_COMMAND, address, sizeof value);
        expect("the response to a read", send(access), tlm::TLM_OK_RESPONSE);
        std::memcpy(&value, access.data.data(), sizeof value);
        return value;
    }

    template <typename Value> void set(uint32_t address, Value value, const sc_time &delay = sc_core::SC_ZERO_TIME)
    {
        Access access(tlm::TLM_WRITE_COMMAND, address, sizeof value);
        std::memcpy(access.data.data(), &value, sizeof value);
        expect("the response to a write", send(access, delay), tlm::TLM_OK_RESPONSE);
    }

    /* A register of a C_CAN, at its offset of enum ccan_offset. */
    uint16_t get16(uint32_t offset) { return get<uint16_t>(scale * offset); }
    void set16(uint32_t offset, uint16_t value) { set(scale * offset, value); }

    /* A word, wherever it lies. */
    uint32_t get32(uint32_t address) { return get<uint32_t>(address); }
    void set32(uint32_t address, uint32_t value) { set(address, value); }

    Controller can;
    tlm_utils::simple_initiator_socket<Node> socket{"socket"};
    sc_core::sc_signal<bool> reset{"reset"}, line{"line"};
    sc_time rose; /* when the interrupt line rose last */

private:
    void note_rise() { rose = sc_time_stamp(); }

    const uint32_t scale;
};

class Board;
using Test = void (*)(Board &board);

/* Two processors on a bus, and a test that runs on them. */
class Board : public sc_core::sc_module {
public:
    Board(const sc_core::sc_module_name &name, ccan_layout layout, Test test)
        : sc_module(name), a("a", bus, layout), b("b", bus, layout), test(test)
    {
        SC_HAS_PROCESS(Board);
        SC_THREAD(run);
    }

    Bus bus{"bus"};
    Node a, b;
    bool passed = false;

private:
    void run()
    {
        test(*this);
        passed = true;
    }

    const Test test;
};

/* ---- a driver of a C_CAN, over registers alone */

/* Writes an object: arbitration, message control and two bytes of data. Its masks are 0. */
void set_object(Node &node, uint16_t object, uint16_t arbitration, uint16_t control, uint16_t bytes)
{
    node.set16(CCAN_OFFSET_IF1_COMMAND_MASK, 0x00f3);
    node.set16(CCAN_OFFSET_IF1_MASK_1, 0);
    node.set16(CCAN_OFFSET_IF1_MASK_2, 0);
    node.set16(CCAN_OFFSET_IF1_ARBITRATION_1, 0);
    node.set16(CCAN_OFFSET_IF1_ARBITRATION_2, arbitration);
    node.set16(CCAN_OFFSET_IF1_MESSAGE_CONTROL, control);
    node.set16(CCAN_OFFSET_IF1_DATA_A1, bytes);
    node.set16(CCAN_OFFSET_IF1_COMMAND_REQUEST, object);
}

/* Object 1 sends this identifier with one byte: MsgVal, Dir; TxIE, TxRqst, EoB. */
void request(Node &node, uint16_t id, uint16_t byte)
{
    set_object(node, SENDS, static_cast<uint16_t>(0xa000 | id << 2), 0x0981, byte);
}

/* Starts a controller; object 2 takes everything: MsgVal; UMask, RxIE, EoB. */
void open(Node &node, uint16_t control)
{
    node.set16(CCAN_OFFSET_CONTROL, INIT | CCE);
    node.set16(CCAN_OFFSET_BIT_TIMING, 0x2301);
    set_object(node, RECEIVES, 0x8000, 0x1480, 0);
    node.set16(CCAN_OFFSET_CONTROL, control);
}

void open_both(Board &board)
{
    open(board.a, IE);
    open(board.b, IE);
}

/* Reads an object by IF2, and clears its NewDat and IntPnd. */
void take(Node &node, uint16_t object)
{
    node.set16(CCAN_OFFSET_IF2_COMMAND_MASK, 0x007f);
    node.set16(CCAN_OFFSET_IF2_COMMAND_REQUEST, object);
}

/* Object 2 has this frame: NewDat, IntPnd, UMask, RxIE, EoB and a length of 1. */
void expect_taken(Node &node, uint16_t id, uint16_t byte)
{
    expect_register("NewDat", node.get16(CCAN_OFFSET_NEW_DATA_1), 1 << (RECEIVES - 1));
    take(node, RECEIVES);
    expect_register("Arbitration 2", node.get16(CCAN_OFFSET_IF2_ARBITRATION_2), 0x8000u | id << 2);
    expect_register("Message Control", node.get16(CCAN_OFFSET_IF2_MESSAGE_CONTROL), 0xb481);
    expect_register("the first byte", node.get16(CCAN_OFFSET_IF2_DATA_A1) & 0xffu, byte);
    expect_register("NewDat, cleared", node.get16(CCAN_OFFSET_NEW_DATA_1), 0);
}

void expect_nothing_came(Node &node) { expect_register("NewDat", node.get16(CCAN_OFFSET_NEW_DATA_1), 0); }

/* The interrupt line follows an access in the same instant, some delta cycles later. */
void settle() { wait(sc_core::sc_get_time_resolution()); }

/* ---- the tests */

void test_reset_values(Board &board)
{
    settle();
    expect_register("Control", board.a.get16(CCAN_OFFSET_CONTROL), INIT);
    expect_register("Status", board.a.get16(CCAN_OFFSET_STATUS), 0);
    expect_register("Error Counter", board.a.get16(CCAN_OFFSET_ERROR_COUNTER), 0);
    expect_register("Bit Timing", board.a.get16(CCAN_OFFSET_BIT_TIMING), 0x2301);
    expect_register("Interrupt", board.a.get16(CCAN_OFFSET_INTERRUPT), 0);
    expect_register("Command Request", board.a.get16(CCAN_OFFSET_IF1_COMMAND_REQUEST), 1);
    expect_register("Mask 1 of IF2", board.a.get16(CCAN_OFFSET_IF2_MASK_1), 0xffff);
    expect_register("MsgVal", board.a.get16(CCAN_OFFSET_MESSAGE_VALID_1), 0);
    expect("the line", board.a.line.read(), false);
}

/* An access that is refused by this response, and neither reads nor writes. */
void expect_refused(Node &node, Access &access, tlm::tlm_response_status response)
{
    access.data.fill(0x5a);
    expect("the response", node.send(access), response);
    expect("what was read", static_cast<int>(access.data[0]), 0x5a);
}

void expect_refused(Node &node, tlm::tlm_command command, uint64_t address, unsigned length, tlm::tlm_response_status response)
{
    Access access(command, address, length);
    expect_refused(node, access, response);
}

void test_refused(Board &board)
{
    const tlm::tlm_command read = tlm::TLM_READ_COMMAND, write = tlm::TLM_WRITE_COMMAND;
    const uint32_t at = CCAN_OFFSET_IF1_DATA_A1;
    Node &node = board.a;
    node.set16(at, 0x1234);
    expect_refused(node, read, 0x0e, 2, tlm::TLM_ADDRESS_ERROR_RESPONSE); /* no register is there */
    expect_refused(node, write, 0x0e, 2, tlm::TLM_ADDRESS_ERROR_RESPONSE);
    expect_refused(node, read, at + 1, 2, tlm::TLM_ADDRESS_ERROR_RESPONSE); /* none begins there */
    expect_refused(node, write, at + 0x100000000, 2, tlm::TLM_ADDRESS_ERROR_RESPONSE);
    expect_refused(node, read, at, 1, tlm::TLM_BURST_ERROR_RESPONSE);
    expect_refused(node, write, at, 1, tlm::TLM_BURST_ERROR_RESPONSE);
    expect_refused(node, write, CCAN_OFFSET_IF1_DATA_A2, 4, tlm::TLM_BURST_ERROR_RESPONSE); /* its registers are of 16 bits */
    expect_refused(node, tlm::TLM_IGNORE_COMMAND, at, 2, tlm::TLM_COMMAND_ERROR_RESPONSE);
    Access streamed(write, at, 2), enabled(write, at, 2);
    streamed.payload.set_streaming_width(1);
    expect_refused(node, streamed, tlm::TLM_BURST_ERROR_RESPONSE);
    std::array<unsigned char, 2> enables{ TLM_BYTE_ENABLED, TLM_BYTE_ENABLED };
    enabled.payload.set_byte_enable_ptr(enables.data());
    enabled.payload.set_byte_enable_length(enables.size());
    expect_refused(node, enabled, tlm::TLM_BYTE_ENABLE_ERROR_RESPONSE);
    expect_register("Data A1", node.get16(at), 0x1234);
    expect_register("Data A2", node.get16(CCAN_OFFSET_IF1_DATA_A2), 0);
}

/* A C_CAN whose registers stand alone in words of 32 bits, each at twice its offset. */
void test_words(Board &board)
{
    const uint32_t at = 2 * CCAN_OFFSET_IF1_DATA_A1;
    Node &node = board.a;
    node.set32(at, 0x1234);
    expect_register("Data A1, a half", node.get16(CCAN_OFFSET_IF1_DATA_A1), 0x1234);
    expect_register("Data A1, a word", node.get32(at), 0x1234);
    node.set16(CCAN_OFFSET_IF1_DATA_A1, 0x5678);
    expect_register("Data A1, written by a half", node.get32(at), 0x5678);
    expect_refused(node, tlm::TLM_READ_COMMAND, at + 2, 2, tlm::TLM_ADDRESS_ERROR_RESPONSE);  /* no register is there */
    expect_refused(node, tlm::TLM_WRITE_COMMAND, at + 2, 4, tlm::TLM_ADDRESS_ERROR_RESPONSE); /* no multiple of 4 */
    expect_refused(node, tlm::TLM_WRITE_COMMAND, 0x1f0, 4, tlm::TLM_ADDRESS_ERROR_RESPONSE);
    expect_refused(node, tlm::TLM_READ_COMMAND, at, 8, tlm::TLM_BURST_ERROR_RESPONSE);
    expect_register("Data A1, at last", node.get32(at), 0x5678);
}

/* Both have their interrupt when the frame ends, 55 bits behind its request, and not before. */
void test_frame(Board &board)
{
    open_both(board);
    wait(bits(10));
    const sc_time requested = sc_time_stamp();
    request(board.a, 0x100, 0xbb);
    wait(frame() - sc_core::sc_get_time_resolution());
    expect_nothing_came(board.b);
    wait(bits(1));
    expect("when the sender's line rose", board.a.rose, requested + frame());
    expect("when the receiver's line rose", board.b.rose, requested + frame());
    expect_register("the sender's Interrupt", board.a.get16(CCAN_OFFSET_INTERRUPT), SENDS);
    expect_register("the receiver's Interrupt", board.b.get16(CCAN_OFFSET_INTERRUPT), RECEIVES);
    expect_register("the sender's Status", board.a.get16(CCAN_OFFSET_STATUS), TXOK);
    expect_register("the receiver's Status", board.b.get16(CCAN_OFFSET_STATUS), RXOK);
    expect_register("TxRqst", board.a.get16(CCAN_OFFSET_TRANSMISSION_REQUEST_1), 0);
    expect("the receiver's line", board.b.line.read(), true);
    expect_taken(board.b, 0x100, 0xbb);
    settle();
    expect("the receiver's line, once it is served", board.b.line.read(), false);
    expect("the sender's line", board.a.line.read(), true);
}

/* A status interrupt goes with a read of Status. Object 2 has no RxIE. */
void test_status_interrupt(Board &board)
{
    open_both(board);
    board.b.set16(CCAN_OFFSET_CONTROL, IE | SIE);
    set_object(board.b, RECEIVES, 0x8000, 0x1080, 0);
    request(board.a, 0x100, 0xbb);
    wait(frame() + bits(1));
    expect("when the line rose", board.b.rose, frame());
    expect_register("Interrupt", board.b.get16(CCAN_OFFSET_INTERRUPT), STATUS_INTERRUPT);
    expect_register("Status", board.b.get16(CCAN_OFFSET_STATUS), RXOK);
    settle();
    expect("the line", board.b.line.read(), false);
    expect_register("Interrupt, once Status is read", board.b.get16(CCAN_OFFSET_INTERRUPT), 0);
}

/* BRPE 1 and BRP 1 are a quantum of 64 + 1 + 1 periods, 8.25 us, and a bit of eight quanta, 66 us. */
sc_time slow_frame() { return 55 * ns(66000); }

void open_slow(Node &node)
{
    node.set16(CCAN_OFFSET_CONTROL, INIT | CCE);
    node.set16(CCAN_OFFSET_BRP_EXTENSION, 1);
    open(node, IE);
}

/* The bus goes on with other bits behind a frame. */
void test_bit_time(Board &board)
{
    open_both(board);
    request(board.a, 0x100, 0xbb);
    wait(frame() + bits(10));
    expect_taken(board.b, 0x100, 0xbb);
    wait(bits(2));
    const sc_time requested = sc_time_stamp();
    open_slow(board.a);
    open_slow(board.b);
    request(board.a, 0x200, 0xaa);
    wait(slow_frame() + bits(1));
    expect("when the receiver's line rose", board.b.rose, requested + slow_frame());
    expect_taken(board.b, 0x200, 0xaa);
}

/* Controllers with different bits: the bus has those of the first one, and goes on. */
void test_bit_time_of_the_first(Board &board)
{
    open(board.a, IE);
    open_slow(board.b);
    request(board.b, 0x100, 0xbb);
    wait(frame() + bits(1));
    expect("when the receiver's line rose", board.a.rose, frame());
}

/* The first controller is not started, so the bus has the bits of the second one. Nobody acknowledges its frame: it sees that
 * behind the ACK slot, and here when the error frame is over, at most 62 bits behind the start of the frame. */
void test_bit_time_of_the_second(Board &board)
{
    open_slow(board.b);
    request(board.b, 0x100, 0xbb);
    wait(slow_frame() - bits(1));
    expect_register("Status", board.b.get16(CCAN_OFFSET_STATUS), 0);
    wait(8 * ns(66000));
    expect_register("Status", board.b.get16(CCAN_OFFSET_STATUS), 3);
}

/* A frame that is requested within a bit, here at 10.7 of them, begins with the next one. */
void test_within_a_bit(Board &board)
{
    open_both(board);
    wait(ns(21400));
    request(board.a, 0x100, 0xbb);
    wait(frame() + bits(2));
    expect("when the sender's line rose", board.a.rose, bits(11) + frame());
    expect("when the receiver's line rose", board.b.rose, bits(11) + frame());
}

/* An initiator that runs ahead of simulated time, here by ten bits: its write is made when that time has come. */
void test_decoupled(Board &board)
{
    open_both(board);
    set_object(board.a, SENDS, 0xa400, 0x0881, 0x00bb); /* 0x100, without TxRqst */
    board.a.set16(CCAN_OFFSET_IF1_COMMAND_MASK, 0x0084); /* a write that requests the transmission */
    board.a.set(CCAN_OFFSET_IF1_COMMAND_REQUEST, SENDS, bits(10));
    expect("the time behind the write", sc_time_stamp(), bits(10));
    wait(frame() + bits(1));
    expect("when the receiver's line rose", board.b.rose, bits(10) + frame());
    expect_taken(board.b, 0x100, 0xbb);
}

/* Two processors request at once, each in a process of its own. The lower identifier is sent, and 3 bits behind it the other. */
void test_arbitration(Board &board)
{
    open_both(board);
    wait(bits(10));
    const sc_time requested = sc_time_stamp();
    sc_core::sc_spawn([&board] { request(board.b, 0x100, 0xbb); });
    request(board.a, 0x200, 0xaa);
    wait(frame() + bits(1));
    expect("when a's line rose", board.a.rose, requested + frame());
    expect("when b's line rose", board.b.rose, requested + frame());
    expect_register("a's TxRqst", board.a.get16(CCAN_OFFSET_TRANSMISSION_REQUEST_1), 1 << (SENDS - 1));
    expect_taken(board.a, 0x100, 0xbb);
    expect_nothing_came(board.b);
    take(board.b, SENDS);
    wait(intermission() + frame());
    expect("when a's line rose again", board.a.rose, requested + frame() + intermission() + frame());
    expect("when b's line rose again", board.b.rose, requested + frame() + intermission() + frame());
    expect_taken(board.b, 0x200, 0xaa);
}

/* A request while a frame is on the bus waits for its end and the intermission, also with a lower identifier. */
void test_request_meanwhile(Board &board)
{
    open_both(board);
    request(board.a, 0x200, 0xaa);
    wait(bits(20));
    request(board.b, 0x100, 0xbb);
    wait(frame() - bits(19));
    expect("when b's line rose", board.b.rose, frame());
    expect_taken(board.b, 0x200, 0xaa);
    expect_nothing_came(board.a);
    take(board.a, SENDS);
    wait(intermission() + frame());
    expect("when a's line rose", board.a.rose, frame() + intermission() + frame());
    expect_taken(board.a, 0x100, 0xbb);
}

/* The sender is reset 20 bits behind the start of its frame. The bus is recessive from then on, and the receiver finds a stuff
 * error: LEC 1, REC 1. The sender is as after each reset, and sends again once it is started again. */
void test_reset(Board &board)
{
    open_both(board);
    request(board.a, 0x100, 0xbb);
    wait(bits(20));
    board.a.reset.write(true);
    settle();
    board.a.reset.write(false);
    expect_register("Control", board.a.get16(CCAN_OFFSET_CONTROL), INIT);
    expect_register("Mask 1", board.a.get16(CCAN_OFFSET_IF1_MASK_1), 0xffff);
    expect_register("MsgVal", board.a.get16(CCAN_OFFSET_MESSAGE_VALID_1), 0);
    expect_register("TxRqst", board.a.get16(CCAN_OFFSET_TRANSMISSION_REQUEST_1), 0);
    wait(2 * frame());
    expect_nothing_came(board.b);
    expect("the receiver's line", board.b.line.read(), false);
    expect_register("the receiver's Status", board.b.get16(CCAN_OFFSET_STATUS), 1);
    expect_register("the receiver's Error Counter", board.b.get16(CCAN_OFFSET_ERROR_COUNTER), 1 << 8);
    open(board.a, IE);
    request(board.a, 0x200, 0xaa);
    wait(frame() + bits(1));
    expect_taken(board.b, 0x200, 0xaa);
    expect_register("the receiver's Error Counter", board.b.get16(CCAN_OFFSET_ERROR_COUNTER), 0);
}

/* A reset releases the interrupt line. */
void test_reset_of_the_line(Board &board)
{
    open_both(board);
    request(board.a, 0x100, 0xbb);
    wait(frame() + bits(1));
    expect("the line", board.b.line.read(), true);
    board.b.reset.write(true);
    settle();
    expect("the line behind the reset", board.b.line.read(), false);
}

/* Nobody else is on the bus, so nobody acknowledges: LEC 3 and TEC 8. The error flag begins behind the ACK slot, 8 bits before the
 * end of the frame, so that 61 bits stand before the intermission; ccan_network.h says at most 62. Then the other one is there: the
 * frame is sent, and TEC is 7. */
void test_no_acknowledge(Board &board)
{
    open(board.a, IE);
    request(board.a, 0x100, 0xbb);
    wait(bits(63));
    expect_register("Status", board.a.get16(CCAN_OFFSET_STATUS), 3);
    expect_register("Error Counter", board.a.get16(CCAN_OFFSET_ERROR_COUNTER), 8);
    expect("the line", board.a.line.read(), false);
    open(board.b, IE);
    wait(intermission() + frame());
    expect_register("Status", board.a.get16(CCAN_OFFSET_STATUS), TXOK);
    expect_register("Error Counter", board.a.get16(CCAN_OFFSET_ERROR_COUNTER), 7);
    expect_taken(board.b, 0x100, 0xbb);
}

/* A controller spoils what it sends, and not what it receives. The frame that it spoils is taken as long as it can be: 45 bits to
 * the end of its CRC sequence, and 20 of an error frame. Then it is sent again. */
void test_spoiled(Board &board)
{
    open_both(board);
    board.b.can.spoil(CCAN_BIT1, 1);
    request(board.a, 0x100, 0xbb);
    wait(frame() + intermission());
    expect_taken(board.b, 0x100, 0xbb);
    request(board.b, 0x200, 0xaa);
    wait(frame() + bits(1));
    expect_nothing_came(board.a);
    expect_register("the receiver's Error Counter", board.a.get16(CCAN_OFFSET_ERROR_COUNTER), 1 << 8);
    expect_register("the sender's Error Counter", board.b.get16(CCAN_OFFSET_ERROR_COUNTER), 8);
    take(board.a, SENDS);
    wait(bits(45 + 20 + 3));
    expect("when the receiver's line rose", board.a.rose, frame() + intermission() + bits(45 + 20 + 3) + frame());
    expect_taken(board.a, 0x200, 0xaa);
    expect_register("the sender's Error Counter, at last", board.b.get16(CCAN_OFFSET_ERROR_COUNTER), 7);
}

/* 32 bit errors of 8 each lead the sender to TEC 256: it is bus off, and Init is 1. The receiver has a stuff error of each frame.
 * Once Init is cleared, the sender is back behind 128 groups of eleven recessive bits, and sends what waits. It counts for nothing
 * that the bus was idle before. */
void test_bus_off(Board &board)
{
    open(board.a, IE | EIE);
    open(board.b, IE);
    board.a.can.spoil(CCAN_BIT1, 32);
    request(board.a, 0x100, 0xbb);
    wait(32 * 2 * frame());
    expect("the line", board.a.line.read(), true);
    expect_register("Interrupt", board.a.get16(CCAN_OFFSET_INTERRUPT), STATUS_INTERRUPT);
    expect_register("Status", board.a.get16(CCAN_OFFSET_STATUS) & (BOFF | EWARN | EPASS), BOFF | EWARN | EPASS);
    expect_register("Control", board.a.get16(CCAN_OFFSET_CONTROL), INIT | IE | EIE);
    expect_register("the receiver's Error Counter", board.b.get16(CCAN_OFFSET_ERROR_COUNTER), 32 << 8);
    expect_nothing_came(board.b);
    wait(bits(1000));
    board.a.set16(CCAN_OFFSET_CONTROL, IE | EIE);
    wait(bits(127 * 11));
    expect_register("BOff", board.a.get16(CCAN_OFFSET_STATUS) & BOFF, BOFF);
    wait(bits(2 * 11));
    expect_register("BOff", board.a.get16(CCAN_OFFSET_STATUS) & BOFF, 0);
    expect_register("Error Counter", board.a.get16(CCAN_OFFSET_ERROR_COUNTER), 0);
    wait(frame());
    expect_taken(board.b, 0x100, 0xbb);
}

/* ---- a D_CAN, by words */

/* Starts a D_CAN with BRPE 1 and BRP 1, by one word. */
void open_d_can(Node &node)
{
    node.set32(D_CONTROL, INIT | CCE);
    node.set32(D_BTR, 0x00012301);
    node.set32(D_IF1_MASK, 0);
    node.set32(D_IF1_ARBITRATION, 0x80000000); /* MsgVal */
    node.set32(D_IF1_CONTROL, 0x1480);         /* UMask, RxIE, EoB */
    node.set32(D_IF1_COMMAND, 0x00f30000 | RECEIVES);
    node.set32(D_CONTROL, IE);
}

void test_d_can(Board &board)
{
    expect_register("Control", board.a.get32(D_CONTROL), 0x1401);
    expect_register("Status", board.a.get32(D_STATUS), 7);
    expect_register("BTR", board.a.get32(D_BTR), 0x2301);
    open_d_can(board.a);
    open_d_can(board.b);
    expect_register("BTR", board.a.get32(D_BTR), 0x00012301);
    board.a.set32(D_IF1_ARBITRATION, 0xa4000000); /* MsgVal, Dir, 0x100 */
    board.a.set32(D_IF1_CONTROL, 0x0981);         /* TxIE, TxRqst, EoB, one byte */
    board.a.set32(D_IF1_DATA_A, 0xbb);
    board.a.set32(D_IF1_COMMAND, 0x00f30000 | SENDS);
    wait(slow_frame() + bits(1));
    expect("when the sender's line rose", board.a.rose, slow_frame());
    expect("when the receiver's line rose", board.b.rose, slow_frame());
    expect_register("Interrupt", board.b.get32(D_INTERRUPT), RECEIVES);
    expect_register("NewDat", board.b.get32(D_NEW_DATA_12), 1 << (RECEIVES - 1));
    board.b.set32(D_IF2_COMMAND, 0x007f0000 | RECEIVES);
    expect_register("Arbitration", board.b.get32(D_IF2_ARBITRATION), 0x84000000);
    expect_register("Message Control", board.b.get32(D_IF2_CONTROL), 0xb481);
    expect_register("Data A", board.b.get32(D_IF2_DATA_A), 0xbb);
    expect_register("Status", board.b.get32(D_STATUS), RXOK);
    expect_register("Status, once it is read", board.b.get32(D_STATUS), 7);
}

/* ---- all of them */

struct Case {
    const char *name;
    ccan_layout layout;
    Test test;
};

constexpr Case CASES[] = {
    { "reset_values", CCAN_LAYOUT_C_CAN, test_reset_values },
    { "refused", CCAN_LAYOUT_C_CAN, test_refused },
    { "words", CCAN_LAYOUT_C_CAN_32, test_words },
    { "frame", CCAN_LAYOUT_C_CAN, test_frame },
    { "frame_of_words", CCAN_LAYOUT_C_CAN_32, test_frame },
    { "bit_time", CCAN_LAYOUT_C_CAN, test_bit_time },
    { "bit_time_of_the_first", CCAN_LAYOUT_C_CAN, test_bit_time_of_the_first },
    { "bit_time_of_the_second", CCAN_LAYOUT_C_CAN, test_bit_time_of_the_second },
    { "bit_time_of_words", CCAN_LAYOUT_C_CAN_32, test_bit_time },
    { "status_interrupt", CCAN_LAYOUT_C_CAN, test_status_interrupt },
    { "within_a_bit", CCAN_LAYOUT_C_CAN, test_within_a_bit },
    { "decoupled", CCAN_LAYOUT_C_CAN, test_decoupled },
    { "arbitration", CCAN_LAYOUT_C_CAN, test_arbitration },
    { "request_meanwhile", CCAN_LAYOUT_C_CAN, test_request_meanwhile },
    { "reset", CCAN_LAYOUT_C_CAN, test_reset },
    { "reset_of_the_line", CCAN_LAYOUT_C_CAN, test_reset_of_the_line },
    { "no_acknowledge", CCAN_LAYOUT_C_CAN, test_no_acknowledge },
    { "spoiled", CCAN_LAYOUT_C_CAN, test_spoiled },
    { "bus_off", CCAN_LAYOUT_C_CAN, test_bus_off },
    { "d_can", CCAN_LAYOUT_D_CAN, test_d_can },
};

} // namespace

/* Exits 0 if all tests pass. An expectation that isn't met ends the simulation, with its text, and 1. */
int sc_main(int, char *[])
{
    std::vector<std::unique_ptr<Board>> boards;
    for (const Case &test : CASES)
        boards.push_back(std::make_unique<Board>(test.name, test.layout, test.test));
    sc_core::sc_start(sc_time(1, sc_core::SC_SEC));
    int failures = 0;
    for (const auto &board : boards)
        if (!board->passed) {
            std::printf("%s does not come to its end\n", board->name());
            failures++;
        }
    std::printf("%zu of %zu tests pass\n", boards.size() - failures, boards.size());
    return failures == 0 ? 0 : 1;
}
