/* A C_CAN or a D_CAN of one thread, whose calls are those of ccan.h, made of steps: each place of a call in the chip's history is a
 * step. */
#ifndef CHIP_H
#define CHIP_H
#include "../explorer.h"
#include <ccan.h>
#include <string.h>

enum {
    NEWDAT = 0x8000, MSGLST = 0x4000, INTPND = 0x2000, UMASK = 0x1000, TXIE = 0x0800, RXIE = 0x0400, RMTEN = 0x0200, TXRQST = 0x0100,
    EOB = 0x0080, DLC = 0x000f
};
enum { IDENTIFIER = 0x1fffffff, STANDARD = 0x1ffc0000, DIR = 1 << 29, XTD = 1 << 30, MDIR = 1 << 30 };
#define MSGVAL 0x80000000u
#define MXTD 0x80000000u
enum { INIT = 0x01, IE = 0x02, SIE = 0x04, EIE = 0x08, CCE = 0x40, TEST = 0x80 };  /* in Control */
enum { SWR = 0x8000, PMD_OFF = 0x1400 };                                          /* in Control of a D_CAN */
enum { PDR = 0x0100, PDA = 0x0400 };                                              /* in its upper half, and in Status of a D_CAN */
enum { LBACK = 0x10, RX_RECESSIVE = 0x80 };                                       /* in Test */

/* Parts of the controller: bits of ROW_CONTROLLER. */
enum {
    PART_INIT = 1, PART_IE = 2, PART_ENABLES = 4, PART_CONTROL = 8, PART_FLAGS = 16, PART_PENDING = 32, PART_COUNTERS = 64,
    PART_TIMING = 128, PART_EXTENSION = 256, PART_TEST = 512, PART_LEFT = 1024, PART_POWER = 2048, ALL_PARTS = 4095
};

/* A node's error counters. */
typedef struct { uint16_t tec, rec; uint32_t groups; bool init_cleared; } counters;

typedef struct {
    uint16_t control, timing, extension, test;
    uint8_t flags;    /* RxOk 4, TxOk 3, LEC 2 to 0 */
    uint8_t pending;  /* status interrupts: 1 a transfer or an error, 2 a change of BOff or EWarn */
    bool has_left;    /* Init was 1 since the bus joined the controller last */
    bool pdr;         /* PDR of a D_CAN: a host asks for local power down */
    counters counters;
} controller;

/* The registers of IF1 or IF2. */
typedef struct { uint16_t mask, request; ccan_record buffer; } interface;

typedef struct {
    ccan_record records[64];
    interface interfaces[2];
    controller controller;
    counters nodes[9];    /* from 1 on */
    uint32_t loaded;      /* the object whose frame is loaded, 0 none */
    ccan_record held;     /* its record at its start */
    uint32_t objects, others, tries, layout;
    bool is_open;
} chip;
extern chip *the_chip;
#define C (*the_chip)

/* chip.c */
uint64_t all_objects(void);
uint64_t up_to_first_pending(void);
unsigned first_pending(void);
void step_at_object(unsigned object, bool changes);
void read_object(unsigned object, unsigned rows);
void changed_object(unsigned object, const ccan_record *before);
void step_at_objects(unsigned rows, uint64_t which);
void step_at_controller(uint64_t reads, uint64_t writes);
void changed_controller(const controller *before);
void step_at_interface(unsigned side, uint64_t reads, uint64_t writes);
enum { ALL_ROWS = (1 << ROW_CONTROLLER) - 1 };

/* controller.c */
bool is_off(const counters *of);
uint32_t state_of(const counters *of);
enum counted { COUNT_NONE, COUNT_SENT, COUNT_RECEIVED, COUNT_SEND_FAULT, COUNT_NO_ACK, COUNT_RECEIVE_FAULT };
void count(counters *of, enum counted what);
void let_groups_pass(counters *of, uint32_t groups, bool is_host);
uint8_t levels_of(const counters *of);
bool shows_status(void);
bool is_powered_down(void);
uint16_t status_word(void);
uint16_t error_counter_word(void);
void set_control(uint16_t value);
void reset_controller(void);
void reset_record(ccan_record *record);

/* frames.c */
typedef struct { uint32_t id; bool xtd, rtr; uint8_t dlc, bytes[8]; } frame;
frame frame_of(const ccan_record *record);
frame frame_of_offer(const ccan_offer *offer);
bool accepts(const ccan_record *record, const frame *of);
ccan_record stored(const ccan_record *record, const frame *of);
bool is_ready(const ccan_record *record);
uint32_t arbitration_key(const frame *of);
const char *text_of(const frame *of);

/* words.c */
enum { COMMAND_REQUEST = 10 }; /* of an interface, behind the registers of ccan.h */
enum reg_name {
    CONTROL, STATUS, ERROR_COUNTER, BIT_TIMING, INTERRUPT, TEST_REGISTER, EXTENSION, CONTROL_UPPER, OF_INTERFACE, OF_FLAG, NO_REGISTER
};
const char *interface_words(unsigned side, uint32_t reg, uint16_t value);
const char *controller_words(enum reg_name name, uint16_t value);
const char *code_words(uint16_t status);
const char *record_words(const ccan_record *record);
const char *flags_changed(const ccan_record *before, const ccan_record *now);
const char *objects_words(uint64_t which);

/* host.c and registers.c */
unsigned side_of(const ccan_host *host);
uint16_t get_register(unsigned side, uint32_t reg);
void set_register(unsigned side, uint32_t reg, uint16_t value);
void set_byte(unsigned side, uint32_t reg, bool upper, uint8_t value);
uint16_t with_byte(uint16_t word, bool upper, uint8_t value);
void transfer(unsigned side, uint16_t request);
void request_of_d_can(unsigned side, uint16_t request);
bool is_d_can(void);
uint64_t flags_now(uint32_t flag, uint64_t which);
uint16_t pending_object(void);
bool shows_flag(const ccan_record *record, uint32_t flag);
unsigned row_of_flag(uint32_t flag);
extern const char *const flag_names[5];
uint16_t read_interrupt(void);
bool read_line(void);
uint16_t read_status(void);
#endif
