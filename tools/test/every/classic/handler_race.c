/* A handler on the processor of a task: the task's read and write of a word are not held together by ccan_irq_off, so the
 * handler's own change of it is lost. With -DMASKED they are. */
#include <ccan_every.h>
#include <stdio.h>

static ccan_chip chip = CCAN_CHIP_CLOSED;
static volatile int served;

static void must(uint32_t code) { ccan_require(code == CCAN_DONE, "%s", ccan_text(code)); }

static void on_interrupt(void)
{
    uint16_t object;
    must(ccan_read16(&chip.if1, CCAN_OFFSET_INTERRUPT, &object));
    must(ccan_set(&chip.if1, CCAN_CMASK, 0x0008));
    must(ccan_request(&chip.if1, object));
    served++;
}

static void task(void)
{
    ccan_on_cpu(1);
#ifdef MASKED
    ccan_irq_off();
#endif
    served += 10;
#ifdef MASKED
    ccan_irq_on();
#endif
}

int main(void)
{
    static const ccan_offer frame = { .id = 0x123, .node = 1, .dlc = 1 };
    must(ccan_open(&chip, 1, 1, 1));
    must(ccan_set(&chip.if1, CCAN_CMASK, 0x00f3));
    must(ccan_set(&chip.if1, CCAN_ARB2, 0x848c));
    must(ccan_set(&chip.if1, CCAN_CTRL, 0x0481));
    must(ccan_request(&chip.if1, 1));
    must(ccan_write16(&chip.if1, CCAN_OFFSET_CONTROL, 0x0002));
    ccan_irq("handler", 1, on_interrupt);
    ccan_thread("task", task);
    ccan_bus_sends(&chip, &frame, 1, 0);
    ccan_quiet();
    printf("%d\n", served);
    return 0;
}
