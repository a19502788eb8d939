/* libccan 0.5: a Bosch C_CAN controller (User's Manual 1.2) as a proved library for C11 and C++11.
 *
 * A chip has three handles: two for the hosts at IF1 and IF2, and one for the bus. Each may be used by a thread of its own,
 * without a lock. docs/EMBEDDING.md is the guide, with a first program; docs/C_REFERENCE.md has what each call counts in the one
 * history of the chip, and how calls differ from the lines of a script. docs/PROVED.md has what is proved. No proof reads this
 * header; tests hold it to the library.
 *
 * C promises the following, which no call of the proved library checks. libccan_checked.a reports what it sees, and aborts.
 *  1. A ccan_chip begins as CCAN_CHIP_CLOSED, or by ccan_chip_init. C neither reads nor writes the insides of a chip or a handle,
 *     nor copies or moves them. Only handles of such a chip are passed to a call.
 *  2. A handle is in one call at a time. Different handles of one chip may be in calls at the same time.
 *  3. ccan_open, ccan_open_reset, ccan_restore, ccan_reset, ccan_save, ccan_end, ccan_meet and ccan_is_open take the whole chip:
 *     while one of them runs, no other of them does on that chip, and no call on one of its handles.
 *  4. C orders calls of different threads on one handle, chip or note: by the start or the join of a thread, a mutex, a condition
 *     variable, a barrier, or an atomic stored and then loaded as seq_cst. Memory of C's own is ordered by these too, and by no call.
 *  5. Each pointer leads to a valid object of its type, none is null, and no two arguments of a call overlap. While a call runs,
 *     nobody else touches what its arguments lead to. An output may have held anything.
 *  6. malloc, realloc and free are of one allocator, whose blocks are aligned to 16. No call is made from a signal handler, nor in
 *     the child of a fork of a process with several threads.
 *  7. A chip that is discarded without ccan_end leaks its memory, and so does a note that is neither heeded nor forgotten.
 *  8. A ccan_note begins as CCAN_NOTE_EMPTY. C neither reads, writes, copies nor moves its insides. Only a handle of the chip that
 *     told it heeds it, and only until that chip is ended or restored.
 * A call on a closed handle is safe, and so is a second ccan_end: both answer CCAN_CLOSED.
 *
 * The library is built for Linux on x86-64, x86-64-v2 or later. The asserts below hold the compiler of C to its layout. */
#ifndef CCAN_H
#define CCAN_H
#include <stdbool.h>
#include <stddef.h>
#include <stdint.h>
#ifdef __cplusplus
extern "C" {
#endif

/* The version of this header: ten thousand times the first number, a hundred times the second, and the third. ccan_version
 * gives that of the library. */
#define CCAN_VERSION 500

/* Each call returns a code; the compiler warns if a program ignores it. */
#if defined(__GNUC__)
#define CCAN_CODE __attribute__((warn_unused_result)) uint32_t
#else
#define CCAN_CODE uint32_t
#endif

/* What holds if this header is compiled for the platform of the library. */
#ifdef __cplusplus
#define CCAN_HOLDS(fact) static_assert(fact, #fact)
#else
#define CCAN_HOLDS(fact) _Static_assert(fact, #fact)
#endif

/* A host's handle, IF1 or IF2. */
typedef struct { bool ccan_private_full; void *ccan_private_at; } ccan_host;
/* The bus's handle. */
typedef struct { bool ccan_private_full; void *ccan_private_at; } ccan_bus;

/* The three handles of a chip, in memory of the caller's, each on cache lines of its own; the chip itself is memory of malloc's. */
typedef struct {
    ccan_host if1;
    uint64_t ccan_private_apart[14];
    ccan_host if2;
    uint64_t ccan_private_apart_too[14];
    ccan_bus bus;
} ccan_chip;

CCAN_HOLDS(sizeof(bool) == 1 && sizeof(void *) == 8 && sizeof(size_t) == 8);
CCAN_HOLDS(sizeof(ccan_host) == 16 && offsetof(ccan_host, ccan_private_at) == 8);
CCAN_HOLDS(sizeof(ccan_bus) == 16 && offsetof(ccan_bus, ccan_private_at) == 8);
CCAN_HOLDS(sizeof(ccan_chip) == 272 && offsetof(ccan_chip, if2) == 128 && offsetof(ccan_chip, bus) == 256);

/* A chip that is closed, as each begins. */
#define CCAN_CHIP_CLOSED { { false, NULL }, { 0 }, { false, NULL }, { 0 }, { false, NULL } }

/* Makes memory that may hold anything, as that of malloc, a chip that is closed. A chip that is open would lose its memory.
 * This function is C, and not proved. */
static inline void ccan_chip_init(ccan_chip *chip)
{
    static const ccan_chip closed = CCAN_CHIP_CLOSED;
    *chip = closed;
}

/* The version of the library, as CCAN_VERSION has that of the header. */
uint32_t ccan_version(void);

/* What a call answers. If several apply, the call says which comes first. */
enum ccan_code {
    CCAN_DONE = 0,
    CCAN_CLOSED = 1,         /* the handle is closed, or a handle of the chip is */
    CCAN_BUSY = 2,           /* each try of a change was lost to a change of the same object, or of the controller, by another
                                port; it never comes if no other port changes it meanwhile */
    CCAN_SPENT = 3,          /* the port has made all the changes of objects that it can: 2^47 - 1, some 1.4 * 10^14 */
    CCAN_NO_MEMORY = 4,      /* malloc refused */
    CCAN_SHARED = 5,         /* the chip's memory is still in use elsewhere: C has broken its promises */
    CCAN_PROFILE_RANGE = 6,  /* the profile is neither 1 nor 2 */
    CCAN_NODES_RANGE = 7,    /* there are more than 8 other nodes */
    /* 8 was CCAN_QUOTA_RANGE before version 0.2 */
    CCAN_TRIES_RANGE = 9,    /* the tries aren't 1 to 1000 */
    CCAN_REGISTER_RANGE = 10,/* no register has this number */
    CCAN_OBJECT_RANGE = 11,  /* the chip has no object of this number */
    CCAN_FLAG_RANGE = 12,    /* no flag has this number */
    CCAN_TURNS_RANGE = 13,   /* the turns aren't 1 to 1000000 */
    CCAN_NODE_RANGE = 14,    /* the bus has no node of this number */
    CCAN_GROUPS_RANGE = 15,  /* the groups aren't 1 to 10000 */
    CCAN_FRAMES_RANGE = 16,  /* there are more than 8 frames */
    CCAN_FRAME_RANGE = 17,   /* an identifier has more than 11 or 29 bits, or a length is more than 15 */
    CCAN_FAULT_RANGE = 18,   /* no fault has this number */
    CCAN_SENDERS = 19,       /* a frame's node isn't 1 to the number of other nodes, or has another frame */
    CCAN_OFFSET_RANGE = 20,  /* no register of the chip's layout begins at this offset */
    CCAN_OTHER_INTERFACE = 21, /* the register is of IF1 or IF2, and this handle is not that of it */
    CCAN_LAYOUT_RANGE = 22,  /* no layout has this number */
    CCAN_NO_SAVED_CHIP = 23, /* the bytes are not a saved chip, or of a version that this library doesn't know */
    CCAN_NO_CHIP = 24,       /* the saved state is not one that a chip can be in */
    CCAN_UNTOLD = 25,        /* the note is empty */
    CCAN_MEMBERS_RANGE = 26, /* there are more than 32 members */
    CCAN_MEMBER_RANGE = 27,  /* a member's role, fault or frame is out of its range */
    CCAN_WIRE_RANGE = 28,    /* what is on the bus has no such kind, or its frame is out of its range */
    CCAN_PLACE_RANGE = 29,   /* the place isn't 0 to 31 */
    CCAN_EVENT_RANGE = 30,   /* no event of a controller has these numbers */
    CCAN_COUNTERS_RANGE = 31 /* a node can't have such error counters */
};

/* The text of a code, without an end of line; for another number "no code". This function is not proved. */
static inline const char *ccan_text(uint32_t code)
{
    static const char *const texts[] = {
        "done", "the handle is closed", "each try was lost to a change of another port",
        "the port has made all the changes that it can", "out of memory", "somebody else holds the memory",
        "the profile is out of range", "the number of nodes is out of range", "no code",
        "the number of tries is out of range", "no such register", "no such object", "no such flag",
        "the number of turns is out of range", "no such node", "the number of groups is out of range",
        "too many frames", "an identifier or a length is out of range", "no such fault",
        "a sender is none of the other nodes, or sends twice", "no register begins at this offset",
        "the register is of another port's interface", "no such layout", "these bytes are no saved chip",
        "no chip can be as these bytes say", "the note is empty", "the number of members is out of range",
        "a member is out of range", "what is on the bus is out of range", "no such place", "no such event",
        "error counters are out of range" };
    return code < sizeof texts / sizeof texts[0] ? texts[code] : "no code";
}

/* ---- opening and ending */

/* The record of a message object, by the bits of its registers. */
typedef struct {
    uint32_t masks;       /* Mask 2 above Mask 1: MXtd 31, MDir 30, Msk28 to Msk0 in bits 28 to 0 */
    uint32_t arbitration; /* Arbitration 2 above 1: MsgVal 31, Xtd 30, Dir 29, ID28 to ID0 in bits 28 to 0 */
    uint16_t control;     /* NewDat 15, MsgLst 14, IntPnd 13, UMask 12, TxIE 11, RxIE 10, RmtEn 9, TxRqst 8, EoB 7,
                             the data length code in bits 3 to 0 */
    uint8_t bytes[8];     /* the data, byte 0 first */
} ccan_record;
CCAN_HOLDS(sizeof(ccan_record) == 20 && offsetof(ccan_record, arbitration) == 4);
CCAN_HOLDS(offsetof(ccan_record, control) == 8 && offsetof(ccan_record, bytes) == 10);

typedef struct {
    uint32_t objects;         /* 32 or 64 */
    ccan_record records[64];  /* object k at k - 1; zero past the last object */
} ccan_final;
CCAN_HOLDS(sizeof(ccan_final) == 1284 && offsetof(ccan_final, records) == 4);

/* Opens a chip whose records and registers are all zero, all of it or nothing: Init too, so that it takes part at once. (The
 * Command Request registers read 1.) Its layout is CCAN_LAYOUT_C_CAN. `profile` is 1 for 32 message objects, 2 for 64; `nodes`
 * how many other nodes are on the bus, 0 to 8; `tries` how often a change of an object may be tried, 1 to 1000. Answers the first
 * of CCAN_PROFILE_RANGE, CCAN_NODES_RANGE and CCAN_TRIES_RANGE that applies; else CCAN_NO_MEMORY or CCAN_DONE. A chip that was
 * open ends, without its records, if it answers CCAN_DONE. */
CCAN_CODE ccan_open(ccan_chip *chip, uint32_t profile, uint32_t nodes, uint32_t tries);

/* How the registers lie, in bytes from where the chip begins. All have the same registers of 16 bits, and a D_CAN has the upper half of
 * Control too, at 0x02. */
enum ccan_layout {
    CCAN_LAYOUT_C_CAN,    /* C_CAN: the registers side by side, at the offsets of enum ccan_offset */
    CCAN_LAYOUT_C_CAN_32, /* C_CAN: each register at twice that offset, alone in a word of 32 bits */
    CCAN_LAYOUT_D_CAN     /* D_CAN: the halves of its registers of 32 bits, see docs/REGISTERS.md. What differs from a C_CAN is said
                           * at the calls; what a D_CAN has beside that, as parity, auto bus on, DMA, IF3 and a second interrupt
                           * line, is left out (docs/C_REFERENCE.md) */
};

/* Opens a chip as a part is after its reset, all of it or nothing: Init is 1, so that it takes part only once a write of Control
 * has cleared it; Bit Timing is 0x2301; all bits of the masks of IF1 and IF2 are 1, except bit 13 of Mask 2, which is reserved
 * and reads 0 (Mask 1 reads 0xffff, Mask 2 0xdfff); Command Request reads 1; in CCAN_LAYOUT_D_CAN Control reads 0x1401 and Status
 * 7; every other register is 0, and so are the records, which a part leaves undefined. `layout` is an enum ccan_layout. Answers
 * the first of CCAN_PROFILE_RANGE, CCAN_NODES_RANGE, CCAN_TRIES_RANGE and CCAN_LAYOUT_RANGE that applies; all else is as with
 * ccan_open. */
CCAN_CODE ccan_open_reset(ccan_chip *chip, uint32_t profile, uint32_t nodes, uint32_t tries, uint32_t layout);

/* Whether all three handles are open. */
bool ccan_is_open(const ccan_chip *chip);

/* Ends a chip, frees its memory, and gives the records that its history leaves. The chip is then closed, and may be opened
 * again. CCAN_CLOSED if it isn't open; CCAN_SHARED closes the chip, and leaves `out` as it was. */
CCAN_CODE ccan_end(ccan_chip *chip, ccan_final *out);

/* Shows each port of the chip what the others have seen, of objects and of the controller: the next call on each handle goes on
 * from all that was done on the three. For who has the whole chip in one thread and reads by one handle what was written by
 * another. It makes no step of the chip. CCAN_CLOSED if the chip isn't open; else CCAN_DONE. */
CCAN_CODE ccan_meet(ccan_chip *chip);

/* ---- handing over from one handle to another, in threads of their own */

/* What a handle has told, for another handle of the same chip; or nothing, as each begins. */
typedef struct { bool ccan_private_full; void *ccan_private_at; } ccan_note;
CCAN_HOLDS(sizeof(ccan_note) == 16 && offsetof(ccan_note, ccan_private_at) == 8);
#define CCAN_NOTE_EMPTY { false, NULL }

/* Notes all that the handle's port has seen of the chip, its own steps among it. What it held before is dropped. No step of
 * the chip. For two threads that hand something over by a lock of C's own: the one tells before it unlocks, the other heeds after
 * it has locked.
 * CCAN_CLOSED if the handle isn't open; CCAN_NO_MEMORY if malloc refused: the note stays as it was. */
CCAN_CODE ccan_tell(ccan_host *host, ccan_note *note);
CCAN_CODE ccan_bus_tell(ccan_bus *bus, ccan_note *note);

/* Shows the handle's port what the note holds, and empties it: each step that the handle makes from now on comes after all that
 * the other handle had done and seen before its ccan_tell. No step of the chip.
 * CCAN_CLOSED if the handle isn't open; CCAN_UNTOLD if the note is empty. Then handle and note stay as they were. */
CCAN_CODE ccan_heed(ccan_host *host, ccan_note *note);
CCAN_CODE ccan_bus_heed(ccan_bus *bus, ccan_note *note);

/* Empties a note that nobody is to heed, and gives its memory back. An empty one stays empty. Always CCAN_DONE. */
CCAN_CODE ccan_forget(ccan_note *note);

/* ---- saving, restoring and resetting */

/* A chip as bytes, which may be kept in a file and read by another program: see docs/REGISTERS.md, "A saved chip". Its first bytes
 * say that it is one, and of which version of the format. */
typedef struct { uint8_t bytes[1672]; } ccan_saved;
CCAN_HOLDS(sizeof(ccan_saved) == 1672);

/* Saves a chip: its records, all registers of the controller with what is behind them (the groups that count on the way back
 * from bus off, the status interrupts that are pending), the registers of IF1 and IF2, its layout, tries and number of other
 * nodes. Not of the chip, and not saved: the error counters of the other nodes; and that a frame is loaded, since its object stays
 * requested. The three ports meet, so that what is saved comes after all that was done on the three handles; and then the bus's looks
 * once at the controller and once at each object. Nothing is changed. CCAN_CLOSED if the chip isn't open; else CCAN_DONE. */
CCAN_CODE ccan_save(ccan_chip *chip, ccan_saved *out);

/* Opens a chip as the saved one was, all of it or nothing. The other nodes begin again, error active, and no frame is loaded. The
 * chip goes there by steps that every chip can make, and then it is looked at: CCAN_DONE says that the looks found what was saved,
 * and the three ports have then seen it. Else:
 *  - CCAN_NO_SAVED_CHIP: these bytes are none. It never comes of bytes that ccan_save gave.
 *  - CCAN_NO_MEMORY: malloc refused.
 *  - CCAN_NO_CHIP: no chip can be as they say. That it never comes of bytes that ccan_save gave is tested, not proved.
 *  - CCAN_BUSY, CCAN_SPENT: nobody can bring them about, since nobody else has the new chip yet; that is not proved.
 * A chip that was open ends, without its records, if it answers CCAN_DONE. */
CCAN_CODE ccan_restore(ccan_chip *chip, const ccan_saved *saved);

/* Resets an open chip in its place, without memory, as the reset of a part does: the controller's registers, its error counters
 * among them, and those of IF1 and IF2 have their reset values, Init 1; and MsgVal, NewDat, IntPnd and TxRqst of each message
 * object become 0. All else of the objects stays, as the data in the message RAM of a part does. What was loaded is dropped. The
 * layout and the tries stay, and the other nodes with their error counters. The three ports meet, the bus's makes a change of the
 * controller and one of each object, and they meet again: so the reset is behind all that was done on the three handles, and
 * before all that comes. For a chip as after power-on: ccan_open_reset.
 * CCAN_CLOSED if the chip isn't open. CCAN_BUSY: another call changed the controller or an object meanwhile, which promise 3
 * rules out; that is not proved. Nothing was reset, or the controller and the objects before that one were; the call may be made
 * again.
 * CCAN_SPENT, of an object, in the same way. Else CCAN_DONE. */
CCAN_CODE ccan_reset(ccan_chip *chip);

/* ---- registers by their offsets: each call answers CCAN_CLOSED first, if its handle is closed */

/* The registers of CCAN_LAYOUT_C_CAN. In CCAN_LAYOUT_C_CAN_32 each is at twice this offset. With 32 objects there are no
 * registers 3 and 4 of a flag. */
enum ccan_offset {
    CCAN_OFFSET_CONTROL = 0x00,       /* Test 7, CCE 6, DAR 5, EIE 3, SIE 2, IE 1, Init 0 */
    CCAN_OFFSET_STATUS = 0x02,        /* BOff 7, EWarn 6, EPass 5, RxOk 4, TxOk 3, the last error code in bits 2 to 0 */
    CCAN_OFFSET_ERROR_COUNTER = 0x04, /* RP 15, REC in bits 14 to 8, TEC in bits 7 to 0 */
    CCAN_OFFSET_BIT_TIMING = 0x06,    /* TSeg2 in bits 14 to 12, TSeg1 11 to 8, SJW 7 and 6, BRP 5 to 0 */
    CCAN_OFFSET_INTERRUPT = 0x08,
    CCAN_OFFSET_TEST = 0x0a,          /* LBack 4, Silent 3, Basic 2 */
    CCAN_OFFSET_BRP_EXTENSION = 0x0c, /* BRPE in bits 3 to 0 */
    CCAN_OFFSET_IF1_COMMAND_REQUEST = 0x10,
    CCAN_OFFSET_IF1_COMMAND_MASK = 0x12,
    CCAN_OFFSET_IF1_MASK_1 = 0x14,
    CCAN_OFFSET_IF1_MASK_2 = 0x16,
    CCAN_OFFSET_IF1_ARBITRATION_1 = 0x18,
    CCAN_OFFSET_IF1_ARBITRATION_2 = 0x1a,
    CCAN_OFFSET_IF1_MESSAGE_CONTROL = 0x1c,
    CCAN_OFFSET_IF1_DATA_A1 = 0x1e,
    CCAN_OFFSET_IF1_DATA_A2 = 0x20,
    CCAN_OFFSET_IF1_DATA_B1 = 0x22,
    CCAN_OFFSET_IF1_DATA_B2 = 0x24,
    CCAN_OFFSET_IF2_COMMAND_REQUEST = 0x40,
    CCAN_OFFSET_IF2_COMMAND_MASK = 0x42,
    CCAN_OFFSET_IF2_MASK_1 = 0x44,
    CCAN_OFFSET_IF2_MASK_2 = 0x46,
    CCAN_OFFSET_IF2_ARBITRATION_1 = 0x48,
    CCAN_OFFSET_IF2_ARBITRATION_2 = 0x4a,
    CCAN_OFFSET_IF2_MESSAGE_CONTROL = 0x4c,
    CCAN_OFFSET_IF2_DATA_A1 = 0x4e,
    CCAN_OFFSET_IF2_DATA_A2 = 0x50,
    CCAN_OFFSET_IF2_DATA_B1 = 0x52,
    CCAN_OFFSET_IF2_DATA_B2 = 0x54,
    CCAN_OFFSET_TRANSMISSION_REQUEST_1 = 0x80, /* objects 1 to 16; the next three those up to 32, 48 and 64 */
    CCAN_OFFSET_TRANSMISSION_REQUEST_2 = 0x82,
    CCAN_OFFSET_TRANSMISSION_REQUEST_3 = 0x84,
    CCAN_OFFSET_TRANSMISSION_REQUEST_4 = 0x86,
    CCAN_OFFSET_NEW_DATA_1 = 0x90,
    CCAN_OFFSET_NEW_DATA_2 = 0x92,
    CCAN_OFFSET_NEW_DATA_3 = 0x94,
    CCAN_OFFSET_NEW_DATA_4 = 0x96,
    CCAN_OFFSET_INTERRUPT_PENDING_1 = 0xa0,
    CCAN_OFFSET_INTERRUPT_PENDING_2 = 0xa2,
    CCAN_OFFSET_INTERRUPT_PENDING_3 = 0xa4,
    CCAN_OFFSET_INTERRUPT_PENDING_4 = 0xa6,
    CCAN_OFFSET_MESSAGE_VALID_1 = 0xb0,
    CCAN_OFFSET_MESSAGE_VALID_2 = 0xb2,
    CCAN_OFFSET_MESSAGE_VALID_3 = 0xb4,
    CCAN_OFFSET_MESSAGE_VALID_4 = 0xb6
};

/* Reads the register of 16 bits at an offset of the chip's layout. Reserved bits are 0. Rx of Test, the level of the
 * bus, is 1: recessive.
 *  - Control, Error Counter, Bit Timing, Test, BRP Extension: one look at the controller. Error Counter shows a TEC above 255 as
 *    255, RP and the low seven bits of REC.
 *  - Status: as it is; and the pending status interrupts are cleared, and in CCAN_LAYOUT_D_CAN also TxOk and RxOk, and LEC becomes
 *    7. That is a change of the controller, so this read alone may answer CCAN_BUSY: then nothing was read and nothing cleared,
 *    and the call may be made again. In CCAN_LAYOUT_D_CAN it shows PDA too, bit 10: the controller is in local power down, PDR and
 *    Init are both 1 (ccan_power_down).
 *  - In CCAN_LAYOUT_D_CAN the upper half of Control, at 0x02: PDR, bit 8 of it. One look at the controller.
 *  - Interrupt: 0x8000 if a status interrupt is shown: SIE is 1 and a transfer or an error was since the last read of Status,
 *    or EIE is 1 and BOff or EWarn has changed since. Else the number of the first object with IntPnd, or 0.
 *  - The registers of an interface: what they hold. Command Request has the number of the object that was requested last, and
 *    Busy, bit 15, is 0: the write that starts a transfer returns when it is over.
 *  - The registers of the flags: 16 objects, at one moment.
 * The first of CCAN_OFFSET_RANGE, CCAN_OTHER_INTERFACE, CCAN_BUSY that applies; else CCAN_DONE. */
CCAN_CODE ccan_read16(ccan_host *host, uint32_t offset, uint16_t *out);

/* Writes the register of 16 bits at an offset of the chip's layout. Reserved bits are dropped.
 *  - Control: as it is written. Init from 1 to 0 starts the way back of a controller that is bus off. In CCAN_LAYOUT_D_CAN a write
 *    with SWR, bit 15, and Init resets the chip: the controller's registers have their reset values, MsgVal, NewDat, IntPnd and
 *    TxRqst of each message object become 0, and what was loaded is dropped. The registers of IF1 and IF2 stay. That is one change
 *    of the controller and then one of each object, which may be refused as those of ccan_reset. SWR without Init is dropped. PDR
 *    stays, except in a reset.
 *  - In CCAN_LAYOUT_D_CAN the upper half of Control, at 0x02: PDR as it is written in bit 8, by one change of the controller. All
 *    else of Control stays, Init too: see ccan_power_down.
 *  - Status: TxOk, RxOk and LEC are set as written, the other bits dropped; in CCAN_LAYOUT_D_CAN all are.
 *  - Bit Timing, BRP Extension: taken only if Init and CCE are 1, else dropped. Test: only if Test of Control is 1.
 *  - Command Request: the transfer that Command Mask says, as ccan_request. In CCAN_LAYOUT_D_CAN the number has eight bits, and one
 *    that no object has moves nothing; and a write with TxRqst/NewDat sets NewDat of the object too.
 *  - The other registers of an interface: as ccan_set.
 *  - Error Counter, Interrupt and the registers of the flags: dropped.
 * The first of CCAN_OFFSET_RANGE and CCAN_OTHER_INTERFACE that applies. Else CCAN_DONE; CCAN_BUSY, of Control, its upper half,
 * Status, Bit Timing, BRP Extension, Test and Command Request: nothing was changed, and the call may be made again; CCAN_SPENT, of
 * Command Request. A reset by SWR may be refused at an object: then the controller and the objects before that one were reset. */
CCAN_CODE ccan_write16(ccan_host *host, uint32_t offset, uint16_t value);

/* Reads the byte at an offset of the chip's layout: at an even one bits 7 to 0 of the register of 16 bits that begins there, at an
 * odd one bits 15 to 8 of the one that begins at the offset before. It is one ccan_read16 of that register, of which out gets the
 * byte. So a read of either byte of Status clears what a read of Status clears. The codes are those of ccan_read16:
 * CCAN_OFFSET_RANGE if no register begins at the even one of the two offsets, as in the upper half of each word of
 * CCAN_LAYOUT_C_CAN_32. */
CCAN_CODE ccan_read8(ccan_host *host, uint32_t offset, uint8_t *out);

/* Writes the byte at an offset of the chip's layout, as ccan_read8 has it. What the register has in its other byte stays.
 *  - Command Request: its lower byte is written as by ccan_write16 with an upper byte of 0, which makes the transfer. A write of
 *    its upper byte does nothing.
 *  - The other registers of an interface: the byte is set; no transfer happens.
 *  - Control, Status, BRP Extension, Test: all bits that can be written are in the lower byte. That is written as by ccan_write16
 *    with an upper byte of 0, and the upper byte is dropped. But in CCAN_LAYOUT_D_CAN a write of the upper byte of Control with
 *    SWR, bit 7 of it, is one look at the controller, and then, if that shows Init, the reset of ccan_write16.
 *  - In CCAN_LAYOUT_D_CAN the upper half of Control: its bit is in the upper byte, at 0x03, which is written as by ccan_write16. The
 *    lower byte, at 0x02, is dropped.
 *  - Bit Timing: one look at the controller, and then as ccan_write16, with the other byte as that look shows it. These are two
 *    steps: what another handle writes into the other byte between them is lost.
 *  - Error Counter, Interrupt and the registers of the flags: dropped.
 * The codes are those of ccan_write16. CCAN_OTHER_INTERFACE is for both bytes of Command Request too. */
CCAN_CODE ccan_write8(ccan_host *host, uint32_t offset, uint8_t value);

/* Reads the word of 32 bits at an offset of the chip's layout, a multiple of 4. If both halves are registers of one flag, its 32
 * objects are read at one moment. If they are both halves of Control, or Bit Timing and BRP Extension, as in CCAN_LAYOUT_D_CAN, it
 * is one look at the controller. Else it is as ccan_read16 of its lower half, at the offset, and then, unless that is refused, of
 * its upper half, two bytes on: between these two reads other ports may make steps. A half at which no register begins reads 0.
 * The first of CCAN_OFFSET_RANGE (also if neither half is a register), CCAN_OTHER_INTERFACE and CCAN_BUSY that applies; else
 * CCAN_DONE. */
CCAN_CODE ccan_read32(ccan_host *host, uint32_t offset, uint32_t *out);

/* Writes the word of 32 bits at an offset of the chip's layout, a multiple of 4. If its halves are Bit Timing and BRP Extension,
 * as in CCAN_LAYOUT_D_CAN, both are set by one change of the controller, if Init and CCE are 1. If they are both halves of Control,
 * that is one change too, with PDR at bit 24; or with SWR and Init the reset of ccan_write16. Else it is as ccan_write16 of its upper
 * half, two bytes on, and then, unless that is refused, of its lower half. So the mask of a command of CCAN_LAYOUT_D_CAN is there
 * before its request makes the transfer. What is for a half at which no register begins is dropped.
 * CCAN_OFFSET_RANGE (also if neither half is a register) and CCAN_OTHER_INTERFACE: nothing was written. Else CCAN_DONE;
 * CCAN_BUSY and CCAN_SPENT as with ccan_write16, of the half that was refused: if that is the lower one, the upper one is
 * written, and after CCAN_BUSY the call may be made again. */
CCAN_CODE ccan_write32(ccan_host *host, uint32_t offset, uint32_t value);

/* Whether the part pulls its interrupt line: 1 if IE is 1 and the Interrupt register is not 0, else 0.
 *
 * So that a simulator needn't ask after each call, these are the calls that may change the line, by what they do to IE, SIE, EIE,
 * the pending status interrupts and IntPnd (read off their definitions, not proved):
 *  - ccan_request, and a write of Command Request; ccan_clear_objects;
 *  - a read of Status, and a write of Control, whatever bytes of it; ccan_status and ccan_control;
 *  - ccan_round and ccan_recessive; ccan_finish and ccan_retry_event.
 * No other call on a handle changes it. Of those on the whole chip ccan_reset may, and those that open one. */
CCAN_CODE ccan_line(ccan_host *host, uint32_t *out);

/* The same by the thread of the bus, whose handle has no registers of an interface: those of IF1 and IF2 are for their own handles
 * alone, and answer CCAN_OTHER_INTERFACE here. */
CCAN_CODE ccan_bus_read16(ccan_bus *bus, uint32_t offset, uint16_t *out);
CCAN_CODE ccan_bus_write16(ccan_bus *bus, uint32_t offset, uint16_t value);
CCAN_CODE ccan_bus_read8(ccan_bus *bus, uint32_t offset, uint8_t *out);
CCAN_CODE ccan_bus_write8(ccan_bus *bus, uint32_t offset, uint8_t value);
CCAN_CODE ccan_bus_read32(ccan_bus *bus, uint32_t offset, uint32_t *out);
CCAN_CODE ccan_bus_write32(ccan_bus *bus, uint32_t offset, uint32_t value);
CCAN_CODE ccan_bus_line(ccan_bus *bus, uint32_t *out);

/* ---- a host: each call answers CCAN_CLOSED first, if its handle is closed */

enum ccan_register {
    CCAN_CMASK, CCAN_MASK1, CCAN_MASK2, CCAN_ARB1, CCAN_ARB2, CCAN_CTRL,
    CCAN_DATAA1, CCAN_DATAA2, CCAN_DATAB1, CCAN_DATAB2
};

enum ccan_flag { CCAN_NEWDAT, CCAN_MSGLST, CCAN_INTPND, CCAN_TXRQST, CCAN_MSGVAL };

/* Writes an interface register; its reserved bits are dropped. The message RAM has no part in it. CCAN_REGISTER_RANGE. */
CCAN_CODE ccan_set(ccan_host *host, uint32_t reg, uint16_t value);

/* Reads an interface register; its reserved bits are 0. The message RAM has no part in it. CCAN_REGISTER_RANGE. */
CCAN_CODE ccan_get(ccan_host *host, uint32_t reg, uint16_t *out);

/* Writes the Command Request register: makes the transfer that the Command Mask register says, between the interface
 * registers and the object that the low six bits of `request` name (0 is the last object). CCAN_DONE: the transfer is in the
 * history, and the registers show it. CCAN_BUSY, CCAN_SPENT: no change was made, and the message buffer is as it was; after
 * CCAN_BUSY the call may be made again. Command Request then reads the number of the object, in each of these cases. */
CCAN_CODE ccan_request(ccan_host *host, uint16_t request);

/* A flag of all objects in one moment, that of object k in bit k - 1. CCAN_FLAG_RANGE. */
CCAN_CODE ccan_flags(ccan_host *host, uint32_t flag, uint64_t *out);

/* The interrupt value of the objects in one moment: the number of the first object with IntPnd, or 0. It knows of no status
 * interrupt; the Interrupt register at CCAN_OFFSET_INTERRUPT does. */
CCAN_CODE ccan_interrupt(ccan_host *host, uint16_t *out);

/* One look at an object: its record. The interface registers have no part in it, and nothing is changed. CCAN_OBJECT_RANGE. */
CCAN_CODE ccan_peek(ccan_host *host, uint32_t object, ccan_record *out);

/* Looks at an object until it shows the flag, at most `turns` times: 1 if a look did, else 0. The first of
 * CCAN_OBJECT_RANGE, CCAN_FLAG_RANGE and CCAN_TURNS_RANGE that applies. */
CCAN_CODE ccan_until(ccan_host *host, uint32_t object, uint32_t flag, uint32_t turns, uint32_t *out);

/* Makes each message object one of zeros, one after another in the order of their numbers, as dcan_raminit of an AM335x does with
 * the message RAM of a D_CAN; in each layout. Nothing else changes: the interface registers stay, and what is loaded stays loaded.
 * CCAN_BUSY, CCAN_SPENT: an object was refused, those before it are of zeros, and it and those behind it were not changed; after
 * CCAN_BUSY the call may be made again. */
CCAN_CODE ccan_clear_objects(ccan_host *host);

/* ---- the bus: each call answers CCAN_CLOSED first, if its handle is closed */

/* A frame that was on the bus, or is to be. A switch is 0 for no, and 1 for yes. */
typedef struct {
    uint32_t id;      /* of 11 bits, or of 29 if it is extended */
    uint8_t xtd;      /* switch: an extended identifier */
    uint8_t rtr;      /* switch: a remote frame */
    uint8_t dlc;      /* the data length code, 0 to 15; from 8 on it means eight bytes */
    uint8_t bytes[8]; /* the data, byte 0 first; zero past its end */
} ccan_frame;
CCAN_HOLDS(sizeof(ccan_frame) == 16 && offsetof(ccan_frame, xtd) == 4 && offsetof(ccan_frame, rtr) == 5);
CCAN_HOLDS(offsetof(ccan_frame, dlc) == 6 && offsetof(ccan_frame, bytes) == 7);

enum ccan_load_kind { CCAN_LOAD_NOTHING, CCAN_LOAD_LOADED, CCAN_LOAD_HELD, CCAN_LOAD_BUSY, CCAN_LOAD_SPENT };

typedef struct {
    uint32_t kind;    /* an enum ccan_load_kind */
    uint32_t object;  /* the object, 0 with CCAN_LOAD_NOTHING */
    ccan_record held; /* the record after its start of the object that is loaded; zero if none is */
    ccan_frame frame; /* the frame that is to be sent of it; zero if nothing is loaded */
} ccan_loaded;
CCAN_HOLDS(sizeof(ccan_loaded) == 44 && offsetof(ccan_loaded, object) == 4 && offsetof(ccan_loaded, held) == 8);
CCAN_HOLDS(offsetof(ccan_loaded, frame) == 28);

/* Looks at the controller. What was loaded is dropped, and stays requested, if Init was 1 since the last load or round, even
 * only for a moment, or the chip was reset or went bus off. If Init is 1 or it is bus off, it takes no part: CCAN_LOAD_NOTHING.
 * Else it chooses the object to send, and starts it, if it has none. It chooses in one moment: of the objects that are valid
 * and requested then it starts the lowest; if a host has changed that one since, so that it is ready no more, the next one.
 * CCAN_BUSY and CCAN_SPENT go with the kinds of that name: `object` wasn't started; after CCAN_BUSY the call may be made again. */
CCAN_CODE ccan_load(ccan_bus *bus, ccan_loaded *out);

/* What another node sends. A switch is 0 for no, and each other number is yes. */
typedef struct {
    uint32_t id;      /* of 11 bits, or of 29 if it is extended */
    uint8_t node;     /* 1 to the number of other nodes */
    uint8_t xtd;      /* switch: an extended identifier */
    uint8_t rtr;      /* switch: a remote frame */
    uint8_t dlc;      /* the data length code, 0 to 15; from 8 on it means eight bytes */
    uint8_t bytes[8]; /* the data, byte 0 first; what is past the length doesn't count */
} ccan_offer;
CCAN_HOLDS(sizeof(ccan_offer) == 16 && offsetof(ccan_offer, node) == 4 && offsetof(ccan_offer, xtd) == 5);
CCAN_HOLDS(offsetof(ccan_offer, rtr) == 6 && offsetof(ccan_offer, dlc) == 7 && offsetof(ccan_offer, bytes) == 8);

/* What spoils the frame that wins. These numbers are not those that the Status register then shows as the last error code:
 * stuff 1, form 2, bit 1 as 4, bit 0 as 5, CRC 6. */
enum ccan_fault { CCAN_QUIET, CCAN_STUFF, CCAN_FORM, CCAN_BIT1, CCAN_BIT0, CCAN_CRC };

enum ccan_round_kind {
    CCAN_IDLE,      /* no frame contended */
    CCAN_SENT,      /* the controller's frame was sent, and its object finished */
    CCAN_RECEIVED,  /* another node's frame was sent; `stored` has it, or no object takes it */
    CCAN_PASSED,    /* another node's frame was sent, and the controller took no part: it is off, or Init is 1 */
    CCAN_COLLISION, /* two or more frames with the same bits of arbitration were sent */
    CCAN_NO_ACK,    /* no other node is on, so nobody acknowledged the frame */
    CCAN_FAULT,     /* the fault spoiled the frame */
    CCAN_LOOPED,    /* in loop back mode the controller sent to itself */
    CCAN_ROUND_BUSY, CCAN_ROUND_SPENT /* a change of `object` was given up; all else remains, see ccan_round */
};

/* The step that was refused. With CCAN_STEP_LOAD no frame was on the bus; with those below it one was. */
enum ccan_step {
    CCAN_STEP_NONE,
    CCAN_STEP_LOAD,   /* the start of the object to be sent */
    CCAN_STEP_FINISH, /* the finish of the object that was sent */
    CCAN_STEP_STORE,  /* the store of the frame that was received; in loop back mode its object was finished */
    CCAN_STEP_EVENT   /* the round's event at the controller: its error counters and Status don't have the frame */
};

/* The node of no frame. */
enum { CCAN_NO_NODE = 255 };

typedef struct {
    uint32_t kind;             /* an enum ccan_round_kind */
    uint32_t object;           /* the object that was sent, or at which a step was given up; else 0 */
    ccan_record finished;      /* its record after the finish, if it was finished; else zero */
    uint32_t stored;           /* the object that stored the frame, 0 if none did */
    ccan_record stored_record; /* its record after the store; else zero */
    uint32_t loaded;           /* the object that this round loaded itself; 0 if an earlier load did, or none is loaded */
    uint32_t refused;          /* an enum ccan_step: CCAN_STEP_EVENT, with any kind; else with CCAN_ROUND_BUSY and
                                  CCAN_ROUND_SPENT the step at an object that was refused */
    uint32_t winner;           /* the node whose frame was on the bus, 0 the controller. CCAN_NO_NODE if no single frame was:
                                  with CCAN_IDLE, CCAN_COLLISION and CCAN_STEP_LOAD */
    ccan_frame frame;          /* that frame, as it was on the bus; zero if no single frame was */
} ccan_outcome;
CCAN_HOLDS(sizeof(ccan_outcome) == 80 && offsetof(ccan_outcome, object) == 4 && offsetof(ccan_outcome, finished) == 8);
CCAN_HOLDS(offsetof(ccan_outcome, stored) == 28 && offsetof(ccan_outcome, stored_record) == 32);
CCAN_HOLDS(offsetof(ccan_outcome, loaded) == 52 && offsetof(ccan_outcome, refused) == 56);
CCAN_HOLDS(offsetof(ccan_outcome, winner) == 60 && offsetof(ccan_outcome, frame) == 64);

/* Plays a round: looks at the controller and loads, as ccan_load does; then the frames of all nodes that are on contend, and
 * `fault` spoils the winner's if it isn't CCAN_QUIET; then the object that was sent is finished, or the frame that was
 * received is stored; and last the event is made at the controller: its error counters, TxOk, RxOk and LEC, its status
 * interrupts, and Init if it goes off. A host whose call finds the event finds the object done, unless that step was refused
 * (CCAN_STEP_FINISH, CCAN_STEP_STORE). The lowest identifier wins, by its first 11 bits and then by the 18 others; with the same
 * first 11 bits a standard frame beats an extended one, and with the same identifier a data frame beats a remote frame. `offers`
 * are `count` frames, not null even for 0. The first of CCAN_FRAMES_RANGE, CCAN_FRAME_RANGE, CCAN_FAULT_RANGE and CCAN_SENDERS
 * that applies; else `out` is written. CCAN_BUSY if `refused` is CCAN_STEP_EVENT; else CCAN_BUSY and CCAN_SPENT go with the
 * kinds of that name. With both a step was given up, and is not made later; `refused` says which. With CCAN_STEP_LOAD no frame
 * was on the bus. With CCAN_STEP_FINISH and CCAN_STEP_STORE `frame` was: the error counters and the Status register have it, but
 * the object that was sent is not finished, or no object stored the frame. With CCAN_STEP_EVENT `frame` was, and `kind` says
 * what came of it at the objects, but the controller's registers have nothing of it: each try was lost to a write of Control,
 * Status, Bit Timing, BRP Extension or Test, or a read of Status, by a host. A second call plays a second round. */
CCAN_CODE ccan_round(ccan_bus *bus, const ccan_offer *offers, size_t count, uint32_t fault, ccan_outcome *out);

/* The Status register, as it is read on a C_CAN, in each layout: BOff 7, EWarn 6, EPass 5, RxOk 4, TxOk 3, the last error code in
 * bits 2 to 0. No status interrupt is then pending. CCAN_BUSY: nothing was read. */
CCAN_CODE ccan_status(ccan_bus *bus, uint16_t *out);

enum ccan_state { CCAN_ACTIVE, CCAN_PASSIVE, CCAN_OFF };

typedef struct {
    uint32_t tec;   /* the transmit error counter, 0 to 263 */
    uint32_t rec;   /* the receive error counter, 0 to 255 */
    uint32_t state; /* an enum ccan_state */
} ccan_counts;
CCAN_HOLDS(sizeof(ccan_counts) == 12 && offsetof(ccan_counts, rec) == 4 && offsetof(ccan_counts, state) == 8);

/* The error counters of a node; node 0 is the controller, by a look at its registers. CCAN_NODE_RANGE. */
CCAN_CODE ccan_counters(ccan_bus *bus, uint32_t node, ccan_counts *out);

/* Sets SIE and EIE of the CAN Control register in one step, and leaves its other bits. Two switches: 0 is off, each other number is
 * on. CCAN_BUSY. */
CCAN_CODE ccan_control(ccan_bus *bus, uint32_t sie, uint32_t eie);

/* Clears Init in one step, and leaves the other bits of Control: from then on the controller takes part, or, if it is bus off,
 * groups of recessive bits count for it. CCAN_BUSY. */
CCAN_CODE ccan_init(ccan_bus *bus);

/* Lets 1 to 10000 groups of eleven recessive bits pass, and gives the controller's state, an enum ccan_state.
 * CCAN_GROUPS_RANGE. CCAN_BUSY: no node has seen any group, and the call may be made again. */
CCAN_CODE ccan_recessive(ccan_bus *bus, uint32_t groups, uint32_t *out);

/* Lets a D_CAN enter local power down (AM335x Technical Reference Manual, chapter DCAN, "Local Power-Down Mode"): to be called when
 * the bus is idle, that is after eleven recessive bits. If PDR is 1, Init is 0 and no object has TxRqst, it sets Init, and PDA then
 * reads 1. `out` is 1 if the controller is in local power down, PDR and Init both 1, else 0. A host asks for power down by PDR, and
 * wakes the chip by clearing PDR and then Init; in the other layouts no host can set PDR.
 * The call looks at the controller; if PDR is 1 and Init 0, at TxRqst of all objects in one moment; and if none is set, it changes
 * the controller, which sets Init only if PDR is still 1. From ccan_begin to ccan_finish the call makes no step and `out` is 0, also
 * of a chip that is in power down; if nobody sends, ccan_finish with CCAN_WIRE_IDLE ends that. CCAN_BUSY: Init was not set, and the
 * call may be made again. */
CCAN_CODE ccan_power_down(ccan_bus *bus, uint32_t *out);

/* Sets loop back mode, a switch: on sets Test of Control, and then LBack of Test, with Basic and Silent 0; off clears Test of
 * Control, and LBack stays and doesn't count. CCAN_BUSY: after that of the second step Test of Control is set; the call may be made
 * again. If another port clears Test between the two steps, LBack is not set. */
CCAN_CODE ccan_loop_back(ccan_bus *bus, uint32_t on);

/* The Interrupt register, as at CCAN_OFFSET_INTERRUPT. */
CCAN_CODE ccan_bus_interrupt(ccan_bus *bus, uint16_t *out);

/* As ccan_flags, in one moment. CCAN_FLAG_RANGE. */
CCAN_CODE ccan_bus_flags(ccan_bus *bus, uint32_t flag, uint64_t *out);

/* ---- several chips on one bus, with time
 *
 * ccan_round plays whole frames between one chip and nodes that only it knows. For a bus of several chips each frame is cut at the
 * points where the others and time come in:
 *
 *   its start   ccan_begin of each chip and ccan_node_begin of each other node say what each is to the bus, its member; ccan_decide
 *               says of all members who sends what. Its length is known from here (ccan_frame_bits).
 *   until then  time passes, and hosts do what they like. A request that is made now is in no frame before the next start.
 *   its end     ccan_stay of each chip says who has left the bus meanwhile; the caller sets the faults of those who find one;
 *               ccan_decide_again says how the frame ends; and ccan_finish and ccan_node_finish give each its event.
 *
 * A chip has one place on the bus, 0 to 31, from a start to its end: the index of its member. Which order the calls of several chips
 * have is the caller's; if those who listen come first, a frame is stored at them before its sender's TxOk. ccan_network.h has a
 * bus of several chips ready-made, over these calls.
 *
 * What is decided follows CAN Specification 2.0 (arbitration, acknowledgement, error signalling and fault confinement); the table
 * with each case is in docs/C_REFERENCE.md. The events of a chip are in that chip's history, as those of a round do. Of several
 * chips no common history is promised: what joins them is that each one's events are its part of the same wires. So what one chip
 * has sent, another member has received, and two that have sent have sent the same frame: if C passes on what it was given, and
 * each chip is still as its ccan_stay found it. */

/* What a member does on the bus (User's Manual, "CAN Control Register", "Test Mode"). */
enum ccan_role {
    CCAN_ROLE_ABSENT,  /* nothing: Init is 1, it is bus off, or it has left since the start */
    CCAN_ROLE_SILENT,  /* it listens, and sends recessive bits alone: no frame, no acknowledgement, no error flag */
    CCAN_ROLE_ALONE,   /* loop back mode with Silent: it hears itself and nobody else, and nobody sees its bits */
    CCAN_ROLE_PASSIVE, /* it takes part and is error passive: its error flags are of recessive bits */
    CCAN_ROLE_ACTIVE,  /* it takes part and is error active: its error flags are of dominant bits */
    CCAN_ROLE_LOOPED   /* loop back mode without Silent: it hears itself and nobody else, and its frames are on the bus. It never
                          stops, and acknowledges nothing; its own fault doesn't count */
};

/* A member of a bus while one frame is sent. */
typedef struct {
    uint32_t role;    /* an enum ccan_role */
    uint32_t fault;   /* an enum ccan_fault: the error that this member finds by itself, CCAN_QUIET for none. An error that it
                         sees because another member sends an error flag is not said here, nor is a missing acknowledgement. If
                         an earlier error ends the frame for all, a later one has no effect on the bus. */
    uint32_t sends;   /* switch: it starts to send `frame` */
    ccan_frame frame; /* does not count if `sends` is 0 */
} ccan_member;
CCAN_HOLDS(sizeof(ccan_member) == 28 && offsetof(ccan_member, fault) == 4 && offsetof(ccan_member, sends) == 8);
CCAN_HOLDS(offsetof(ccan_member, frame) == 12);

enum ccan_wire_kind {
    CCAN_WIRE_IDLE,     /* nobody sends */
    CCAN_WIRE_COLLIDED, /* frames with the same bits of arbitration, and an error flag ends them all; or a frame in loop back mode
                           is driven over another */
    CCAN_WIRE_BROKEN,   /* the frame ends before the end of its CRC sequence: by an error flag, or as its senders have left */
    CCAN_WIRE_FLAGGED,  /* it is acknowledged or flagged in the ACK slot, and an error flag of dominant bits ends it */
    CCAN_WIRE_UNHEARD,  /* nobody acknowledges it; `flagged` says whether an error flag of dominant bits follows */
    CCAN_WIRE_CARRIED   /* it is acknowledged, and no error flag of dominant bits ends it */
};

/* What a member is to the frame on the bus. Of frames that collide, each one's sender is a sender. */
enum ccan_part { CCAN_PART_LISTENER, CCAN_PART_SENDER, CCAN_PART_DROPPED };

/* What is on the bus while one frame is sent. */
typedef struct {
    uint32_t kind;    /* an enum ccan_wire_kind */
    uint32_t flagged; /* 1 or 0, see CCAN_WIRE_UNHEARD; 0 with each other kind */
    ccan_frame frame; /* the frame that won the arbitration; zero with CCAN_WIRE_IDLE and CCAN_WIRE_COLLIDED */
    uint8_t part[32]; /* at the index of each place an enum ccan_part. Several are senders if their frames are equal to the last bit;
                         one has dropped out if it sends another frame with the same bits of arbitration and is error passive */
} ccan_wire;
CCAN_HOLDS(sizeof(ccan_wire) == 56 && offsetof(ccan_wire, flagged) == 4 && offsetof(ccan_wire, frame) == 8);
CCAN_HOLDS(offsetof(ccan_wire, part) == 24);

/* The start of a frame, at a chip. Looks at the controller, and joins the bus if the controller comes back, as ccan_load does. What
 * an earlier ccan_begin has loaded is dropped if Init was 1 meanwhile, even only for a moment, or the chip was reset or went bus off.
 * If nothing is loaded and the role may send (not CCAN_ROLE_ABSENT, not CCAN_ROLE_SILENT), an object is chosen and started as ccan_load does;
 * else what is loaded stays. An object that is started while DAR of Control is 1 is tried once: its TxRqst is 0 from its start on,
 * whatever becomes of its frame. What ccan_load has loaded is dropped; ccan_load and ccan_round drop what ccan_begin has. `out` is what
 * the chip is to the bus, without a fault. CCAN_BUSY, CCAN_SPENT: the start of an object was refused, and the member sends nothing. */
CCAN_CODE ccan_begin(ccan_bus *bus, ccan_member *out);

/* A look at the controller between the start and the end of a frame: what the chip is to the bus from there. If it has left the bus
 * since the start, even if it is back, it is CCAN_ROLE_ABSENT, nothing is loaded, and its object stays requested. */
CCAN_CODE ccan_stay(ccan_bus *bus, ccan_member *out);

/* What a frame was to a chip. */
enum ccan_event {
    CCAN_EVENT_NONE,     /* nothing */
    CCAN_EVENT_SENT,     /* its frame was sent */
    CCAN_EVENT_RECEIVED, /* it received the frame; `stored` has it, or no object takes it */
    CCAN_EVENT_LOOPED,   /* in loop back mode it sent to itself */
    CCAN_EVENT_ERROR     /* an error; `code` is the last error code */
};

/* What an event is to the error counters (CAN Specification 2.0, "Fault Confinement"). */
enum ccan_counting {
    CCAN_COUNTS_NOTHING,
    CCAN_COUNTS_SENT,          /* TEC one less */
    CCAN_COUNTS_RECEIVED,      /* REC one less, or 119 from 128 on */
    CCAN_COUNTS_SEND_ERROR,    /* TEC 8 more */
    CCAN_COUNTS_NO_ACK,        /* TEC 8 more, and not if it is error passive */
    CCAN_COUNTS_RECEIVE_ERROR  /* REC one more */
};

typedef struct {
    uint32_t event;            /* an enum ccan_event */
    uint32_t code;             /* with CCAN_EVENT_ERROR the last error code: stuff 1, form 2, acknowledge 3, bit 1 as 4, bit 0 as 5,
                                  CRC 6; else 0 */
    uint32_t counts;           /* an enum ccan_counting */
    uint32_t object;           /* the object that was sent, or at which a step was given up; else 0 */
    ccan_record finished;      /* its record after the finish, if it was finished; else zero */
    uint32_t stored;           /* the object that stored the frame, 0 if none did */
    ccan_record stored_record; /* its record after the store; else zero */
    uint32_t refused;          /* an enum ccan_step: CCAN_STEP_NONE, CCAN_STEP_FINISH, CCAN_STEP_STORE or CCAN_STEP_EVENT */
} ccan_finished;
CCAN_HOLDS(sizeof(ccan_finished) == 64 && offsetof(ccan_finished, code) == 4 && offsetof(ccan_finished, counts) == 8);
CCAN_HOLDS(offsetof(ccan_finished, object) == 12 && offsetof(ccan_finished, finished) == 16);
CCAN_HOLDS(offsetof(ccan_finished, stored) == 36 && offsetof(ccan_finished, stored_record) == 40);
CCAN_HOLDS(offsetof(ccan_finished, refused) == 60);

/* The end of a frame, at the chip that has this place on the bus and finds this error by itself, an enum ccan_fault. What the chip
 * is to the bus it knows from its own ccan_begin. Looks at the controller: one that has left since the start has no event. Else the
 * object that was sent is finished, or the frame that was received is stored; and last the event is made at the controller, as with
 * ccan_round. `wire` may be any: if nothing happens to the chip by it, `out` has CCAN_EVENT_NONE. Nothing is under way afterwards;
 * after an event nothing is loaded. The first of CCAN_WIRE_RANGE, CCAN_PLACE_RANGE and CCAN_FAULT_RANGE that applies; else `out` is
 * written. CCAN_BUSY if `refused` is CCAN_STEP_EVENT: each of 1000 tries was lost, and ccan_retry_event tries again. Else CCAN_BUSY
 * and CCAN_SPENT: the step `refused` was given up at `object`, and is not made later; counters and Status have the frame. */
CCAN_CODE ccan_finish(ccan_bus *bus, const ccan_wire *wire, uint32_t place, uint32_t fault, ccan_finished *out);

/* Makes the event of `lost` at the controller, in up to 1000 tries: for a ccan_finish whose `refused` was CCAN_STEP_EVENT. It is made
 * as it is given, each time that it is asked for. CCAN_EVENT_RANGE, also for CCAN_EVENT_NONE. CCAN_BUSY: each try was lost again. */
CCAN_CODE ccan_retry_event(ccan_bus *bus, const ccan_finished *lost);

/* What these members put on the bus, `count` of them, each at the place of its index; not null even for 0. A member's frame counts if
 * its role lets it send. Pure: no chip has a part in it. The first of CCAN_MEMBERS_RANGE and CCAN_MEMBER_RANGE that applies. */
CCAN_CODE ccan_decide(const ccan_member *members, size_t count, ccan_wire *out);

/* How the frame ends that `start` was decided to be, as these members are until its end: who won has won, and a collision stays one.
 * One that has left is CCAN_ROLE_ABSENT. The first of CCAN_WIRE_RANGE, CCAN_MEMBERS_RANGE and CCAN_MEMBER_RANGE that applies. */
CCAN_CODE ccan_decide_again(const ccan_wire *start, const ccan_member *members, size_t count, ccan_wire *out);

/* A node without a chip. All zero is a new one; C may read it, and copy it. */
typedef struct {
    uint32_t tec;    /* the transmit error counter, 0 to 263; from 256 on it is bus off */
    uint32_t rec;    /* the receive error counter, 0 to 255 */
    uint32_t groups; /* groups of recessive bits that count so far for one that is bus off, 0 to 127; else 0 */
} ccan_node;
CCAN_HOLDS(sizeof(ccan_node) == 12 && offsetof(ccan_node, rec) == 4 && offsetof(ccan_node, groups) == 8);

/* The start of a frame, at a node, which offers `frame` if the switch `sends` is on: what it is to the bus. The first of
 * CCAN_COUNTERS_RANGE and CCAN_FRAME_RANGE that applies; a frame that is not sent doesn't count. */
CCAN_CODE ccan_node_begin(const ccan_node *node, uint32_t sends, const ccan_frame *frame, ccan_member *out);

/* The end of a frame, at the node that is this member at this place; `event` is the enum ccan_event that it is to the node. The first
 * of CCAN_COUNTERS_RANGE, CCAN_WIRE_RANGE, CCAN_PLACE_RANGE and CCAN_MEMBER_RANGE that applies. */
CCAN_CODE ccan_node_finish(ccan_node *node, const ccan_wire *wire, uint32_t place, const ccan_member *member, uint32_t *event);

/* Lets 1 to 10000 groups of eleven recessive bits pass. They count for a node that is bus off; the last of 128 brings it back. The
 * first of CCAN_COUNTERS_RANGE and CCAN_GROUPS_RANGE that applies. */
CCAN_CODE ccan_node_recessive(ccan_node *node, uint32_t groups);

/* How many bits a frame has on the bus, from its start of frame to the end of its end of frame: with its CRC sequence and its stuff
 * bits, and without the intermission of 3 bits (CAN Specification 2.0, "Frame Types", "Coding"). At most 157. CCAN_FRAME_RANGE. */
CCAN_CODE ccan_frame_bits(const ccan_frame *frame, uint32_t *out);

/* The nominal bit time of these words of Bit Timing and BRP Extension (User's Manual, sections of these names), in periods of CAN_CLK:
 * 3 to 25600. Reserved bits don't count. */
uint32_t ccan_bit_time(uint16_t bit_timing, uint16_t extension);

#ifdef __cplusplus
}
#endif
#endif
