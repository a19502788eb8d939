/* A C_CAN or D_CAN at an address of an emulator, over libccan: its registers by their offsets, its interrupt line, the bus.
 *
 * An emulator calls its devices from one thread at a time. For each access of the guest it calls device_read and device_write,
 * for each frame of another node device_receive, and when its clock says that the bus is idle device_run; after each of these it
 * takes the interrupt line from device_line. The registers are the library's own: the device only says which handle an access
 * goes to, and makes accesses of 32 bits of two halves. docs/EMBEDDING.md tells who owns time, the line and the lock.
 *
 *   cc device.c $(pkg-config --cflags --libs ccan) */
#include <ccan.h>
#include <stdio.h>
#include <stdlib.h>

/* Takes a frame that the controller has sent. */
typedef void send_frame(const ccan_frame *frame);

struct device {
    ccan_chip chip;
    send_frame *send;
};

/* Ends the program where a call was refused, which no access of a guest can bring about. */
static void must(uint32_t code)
{
    if (code != CCAN_DONE) {
        fprintf(stderr, "ccan: %s\n", ccan_text(code));
        exit(1);
    }
}

/* ---- the registers */

/* One register of 16 bits. The registers of IF2 are for the handle of IF2 alone, all others IF1's reads too; each handle goes on
 * from what was done on the others. Where no register begins, the guest reads 0. No call is busy: one thread makes them all. */
uint16_t device_read(struct device *device, uint32_t offset)
{
    uint16_t value = 0;
    must(ccan_meet(&device->chip));
    uint32_t code = ccan_read16(&device->chip.if1, offset, &value);
    if (code == CCAN_OTHER_INTERFACE)
        code = ccan_read16(&device->chip.if2, offset, &value);
    if (code != CCAN_OFFSET_RANGE)
        must(code);
    return value;
}

void device_write(struct device *device, uint32_t offset, uint16_t value)
{
    must(ccan_meet(&device->chip));
    uint32_t code = ccan_write16(&device->chip.if1, offset, value);
    if (code == CCAN_OTHER_INTERFACE)
        code = ccan_write16(&device->chip.if2, offset, value);
    if (code != CCAN_OFFSET_RANGE)
        must(code);
}

/* A register of 32 bits of a D_CAN. */
uint32_t device_read32(struct device *device, uint32_t offset)
{
    uint32_t value = 0;
    must(ccan_meet(&device->chip));
    uint32_t code = ccan_read32(&device->chip.if1, offset, &value);
    if (code == CCAN_OTHER_INTERFACE)
        code = ccan_read32(&device->chip.if2, offset, &value);
    if (code != CCAN_OFFSET_RANGE)
        must(code);
    return value;
}

void device_write32(struct device *device, uint32_t offset, uint32_t value)
{
    must(ccan_meet(&device->chip));
    uint32_t code = ccan_write32(&device->chip.if1, offset, value);
    if (code == CCAN_OTHER_INTERFACE)
        code = ccan_write32(&device->chip.if2, offset, value);
    if (code != CCAN_OFFSET_RANGE)
        must(code);
}

/* Whether the controller pulls its interrupt line. */
int device_line(struct device *device)
{
    uint32_t pulled;
    must(ccan_meet(&device->chip));
    must(ccan_line(&device->chip.if1, &pulled));
    return (int)pulled;
}

/* ---- the bus */

/* One frame on the bus, if anybody has one. */
static ccan_outcome play(struct device *device, const ccan_offer *offers, size_t count, uint32_t fault)
{
    ccan_outcome outcome;
    must(ccan_meet(&device->chip));
    must(ccan_round(&device->chip.bus, offers, count, fault, &outcome));
    if (outcome.kind == CCAN_SENT || outcome.kind == CCAN_LOOPED)
        device->send(&outcome.frame);
    return outcome;
}

/* Lets the controller send what it has to send: at most a frame of each object. With Init 1 it sends nothing. Then the bus is idle, and
 * a D_CAN enters local power down if its guest asks for it. */
void device_run(struct device *device)
{
    static const ccan_offer none;
    uint32_t is_down, kind = CCAN_SENT;
    for (int frame = 0; frame < 64 && (kind == CCAN_SENT || kind == CCAN_LOOPED); frame++)
        kind = play(device, &none, 0, CCAN_QUIET).kind;
    must(ccan_power_down(&device->chip.bus, &is_down));
}

/* A frame of another node: frames of the controller that win against it are sent first. */
void device_receive(struct device *device, const ccan_offer *offer)
{
    for (int frame = 0; frame <= 64; frame++)
        if (play(device, offer, 1, CCAN_QUIET).winner != 0)
            return;
}

/* Two other nodes are on the bus, so that somebody acknowledges frames while the controller takes no part. */
void device_open(struct device *device, uint32_t layout, send_frame *send)
{
    ccan_chip_init(&device->chip);
    device->send = send;
    must(ccan_open_reset(&device->chip, 1, 2, 1, layout));
}

/* ---- a guest: a small driver over registers alone, at the offsets of the manual */

enum { IE = 0x02, EIE = 0x08 }; /* in Control */

static void configure(struct device *device, uint16_t object, uint16_t arbitration2, uint16_t control)
{
    device_write(device, CCAN_OFFSET_IF1_COMMAND_MASK, 0x00f3); /* write all but the flags */
    device_write(device, CCAN_OFFSET_IF1_ARBITRATION_2, arbitration2);
    device_write(device, CCAN_OFFSET_IF1_MESSAGE_CONTROL, control);
    device_write(device, CCAN_OFFSET_IF1_COMMAND_REQUEST, object);
}

/* Serves the interrupts that are pending, the status first, as the Interrupt register tells them. */
static void serve(struct device *device)
{
    for (int served = 0; served < 64 && device_line(device); served++) {
        uint16_t cause = device_read(device, CCAN_OFFSET_INTERRUPT);
        if (cause == 0x8000) {
            uint16_t status = device_read(device, CCAN_OFFSET_STATUS), counts = device_read(device, CCAN_OFFSET_ERROR_COUNTER);
            printf("status %04x, error counter %04x, control %04x\n", status, counts, device_read(device, CCAN_OFFSET_CONTROL));
        } else {
            device_write(device, CCAN_OFFSET_IF1_COMMAND_MASK, 0x007f); /* read all, clear IntPnd and NewDat */
            device_write(device, CCAN_OFFSET_IF1_COMMAND_REQUEST, cause);
            printf("object %d: control %04x, data %04x\n", cause, device_read(device, CCAN_OFFSET_IF1_MESSAGE_CONTROL),
                device_read(device, CCAN_OFFSET_IF1_DATA_A1));
        }
    }
}

static void show(const ccan_frame *frame)
{
    printf("sent %03x with %d bytes, the first %02x\n", (unsigned)frame->id, frame->dlc, frame->bytes[0]);
}

static void run_c_can(const ccan_offer *offer)
{
    static struct device device;
    static ccan_final last;
    device_open(&device, CCAN_LAYOUT_C_CAN, show);
    printf("opened: control %04x, bit timing %04x, command request %04x, mask %04x\n",
        device_read(&device, CCAN_OFFSET_CONTROL), device_read(&device, CCAN_OFFSET_BIT_TIMING),
        device_read(&device, CCAN_OFFSET_IF1_COMMAND_REQUEST), device_read(&device, CCAN_OFFSET_IF2_MASK_2));
    configure(&device, 1, 0x848c, 0x0482); /* object 1: valid, receives 0x123; RxIE, EoB, two bytes */
    configure(&device, 2, 0xa400, 0x0882); /* object 2: valid, sends 0x100; TxIE, EoB, two bytes */
    device_write(&device, CCAN_OFFSET_CONTROL, IE | EIE);
    device_receive(&device, offer);
    serve(&device);
    device_write(&device, CCAN_OFFSET_IF2_COMMAND_MASK, 0x0087); /* write the data, and request the transmission */
    device_write(&device, CCAN_OFFSET_IF2_DATA_A1, 0x4433);
    device_write(&device, CCAN_OFFSET_IF2_COMMAND_REQUEST, 2);
    printf("requested: transmission request %04x\n", device_read(&device, CCAN_OFFSET_TRANSMISSION_REQUEST_1));
    device_run(&device);
    serve(&device);
    device_write(&device, CCAN_OFFSET_IF2_COMMAND_REQUEST, 2); /* again, on a bus that spoils each frame */
    for (int fault = 0; fault < 32; fault++) {
        play(&device, offer, 0, CCAN_BIT1);
        serve(&device);
    }
    device_write(&device, CCAN_OFFSET_CONTROL, IE | EIE); /* Init is cleared: 128 groups of recessive bits, and it is back */
    uint32_t state;
    must(ccan_meet(&device.chip));
    must(ccan_recessive(&device.chip.bus, 128, &state));
    printf("back: %s, control %04x\n", state == CCAN_ACTIVE ? "active" : "not active", device_read(&device, CCAN_OFFSET_CONTROL));
    device_run(&device);
    serve(&device);
    must(ccan_end(&device.chip, &last));
    printf("object 2 ends as %08x %04x\n", last.records[1].arbitration, last.records[1].control);
}

/* The same frame received by a D_CAN, in registers of 32 bits. */
static void run_d_can(const ccan_offer *offer)
{
    static struct device device;
    static ccan_final last;
    device_open(&device, CCAN_LAYOUT_D_CAN, show);
    device_write32(&device, 0x108, 0x848c0000); /* IF1 Arbitration: valid, receives 0x123 */
    device_write32(&device, 0x10c, 0x0482);     /* IF1 Message Control: RxIE, EoB, two bytes */
    device_write32(&device, 0x100, 0x00f30001); /* IF1 Command: write all, object 1 */
    device_write32(&device, 0x000, IE | EIE);   /* CAN Control */
    device_receive(&device, offer);
    uint32_t cause = device_read32(&device, 0x010); /* Interrupt */
    device_write32(&device, 0x100, 0x007f0000 | cause);
    uint32_t data = device_read32(&device, 0x110), status = device_read32(&device, 0x004); /* IF1 Data A; Error and Status */
    printf("D_CAN: object %u, data %08x, status %08x, then %08x\n", cause, data, status, device_read32(&device, 0x004));
    device_write32(&device, 0x000, 0x01000000 | IE | EIE); /* PDR: local power down */
    device_run(&device);
    printf("D_CAN: in local power down control %08x, status %08x\n", device_read32(&device, 0x000), device_read32(&device, 0x004));
    must(ccan_end(&device.chip, &last));
}

int main(void)
{
    static const ccan_offer offer = { 0x123, 1, 0, 0, 2, { 0x11, 0x22 } };
    run_c_can(&offer);
    run_d_can(&offer);
    return 0;
}
