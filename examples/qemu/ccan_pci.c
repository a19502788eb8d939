/*
 * A C_CAN on PCI, by libccan: the Intel PCH's CAN (8086:8818), ccan-pci, or
 * the STA2X11's (104a:cc11), ccan-sta2x11. Linux's driver c_can_pci knows
 * both.
 *
 *   -object can-bus,id=bus0 -device ccan-pci,canbus=bus0
 *   -device ccan-pci,canbus=bus0
 *
 * All C_CANs of one can-bus are on one network: see ccan_net.h. At run time,
 * by qom-set, the properties `fault` and `fault-frames` spoil the next frames
 * that a C_CAN sends: as an enum ccan_fault, and how many. Everything
 * here runs under the big lock, so one thread at a time has all handles of
 * the chip, and ccan_meet goes before each call on another handle.
 */
#include "qemu/osdep.h"
#include "qemu/error-report.h"
#include "qemu/log.h"
#include "qemu/module.h"
#include "qapi/error.h"
#include "ccan_net.h"
#include "hw/pci/msi.h"
#include "hw/pci/pci.h"
#include "hw/qdev-properties.h"
#include "migration/vmstate.h"
#include "qom/object.h"

#define TYPE_CCAN_BASE "ccan-pci-base"
#define TYPE_CCAN_PCI "ccan-pci"
#define TYPE_CCAN_STA2X11 "ccan-sta2x11"
OBJECT_DECLARE_TYPE(CcanPciState, CcanPciClass, CCAN_BASE)

enum {
    BAR_SIZE = 0x200,
    /* CCAN_LAYOUT_C_CAN_32 has each register at twice its offset. */
    AT_CONTROL = 2 * CCAN_OFFSET_CONTROL,
    AT_STATUS = 2 * CCAN_OFFSET_STATUS,
    AT_TEST = 2 * CCAN_OFFSET_TEST,
    AT_IF1_REQUEST = 2 * CCAN_OFFSET_IF1_COMMAND_REQUEST,
    AT_IF2_REQUEST = 2 * CCAN_OFFSET_IF2_COMMAND_REQUEST,
    AT_SOFT_RESET = 0x1fc, /* of the PCH, beside the C_CAN: bit 0 */
    PROFILE = 1,           /* 32 message objects */
    TRIES = 1000
};

struct CcanPciState {
    PCIDevice dev;
    MemoryRegion mmio;
    CanBusState *canbus;
    OnOffAuto msi;
    CcanNet *net;
    CcanChip chip;
    ccan_saved saved; /* in a migration */
    bool pulled;      /* the interrupt line, as the guest was last shown it */
};

struct CcanPciClass {
    PCIDeviceClass parent;
    int bar;
    uint32_t clock; /* of CAN_CLK, in Hz */
    bool has_soft_reset;
};

/* ---- the interrupt line */

static void ccan_pci_update(CcanChip *chip)
{
    CcanPciState *s = container_of(chip, CcanPciState, chip);
    uint32_t pulled = 0;

    ccan_net_check(ccan_meet(&chip->chip), "ccan_meet");
    ccan_net_check(ccan_line(&chip->chip.if1, &pulled), "ccan_line");
    if (!msi_enabled(&s->dev)) {
        pci_set_irq(&s->dev, pulled);
    } else if (pulled && !s->pulled) {
        msi_notify(&s->dev, 0);
    }
    s->pulled = pulled;
}

/* ---- the registers */

static uint32_t ccan_pci_read_at(ccan_host *host, uint32_t at, unsigned size,
                                 uint32_t *value)
{
    uint16_t half = 0;
    uint32_t code;

    if (size == 4) {
        return ccan_read32(host, at, value);
    }
    code = ccan_read16(host, at, &half);
    *value = half;
    return code;
}

static uint64_t ccan_pci_read(void *opaque, hwaddr at, unsigned size)
{
    CcanPciState *s = opaque;
    ccan_chip *chip = &s->chip.chip;
    uint32_t value = 0;
    uint32_t code;

    ccan_net_check(ccan_meet(chip), "ccan_meet");
    code = ccan_pci_read_at(&chip->if1, at, size, &value);
    if (code == CCAN_OTHER_INTERFACE) {
        code = ccan_pci_read_at(&chip->if2, at, size, &value);
    }
    if (code == CCAN_OFFSET_RANGE) {
        qemu_log_mask(LOG_GUEST_ERROR, "ccan: no register to read at 0x%x\n",
                      (unsigned)at);
        return 0;
    }
    ccan_net_check(code, "a read of a register");
    if (at == AT_STATUS) {
        ccan_pci_update(&s->chip);
    }
    return value;
}

static uint32_t ccan_pci_write_at(ccan_host *host, uint32_t at, unsigned size,
                                  uint32_t value)
{
    return size == 4 ? ccan_write32(host, at, value)
                     : ccan_write16(host, at, value);
}

static void ccan_pci_write_register(CcanPciState *s, hwaddr at, unsigned size,
                                    uint32_t value)
{
    ccan_chip *chip = &s->chip.chip;
    uint32_t code;

    ccan_net_check(ccan_meet(chip), "ccan_meet");
    code = ccan_pci_write_at(&chip->if1, at, size, value);
    if (code == CCAN_OTHER_INTERFACE) {
        code = ccan_pci_write_at(&chip->if2, at, size, value);
    }
    if (code == CCAN_OFFSET_RANGE) {
        qemu_log_mask(LOG_GUEST_ERROR, "ccan: no register to write at 0x%x\n",
                      (unsigned)at);
        return;
    }
    ccan_net_check(code, "a write of a register");
}

static void ccan_pci_reset_chip(CcanPciState *s)
{
    ccan_net_check(ccan_reset(&s->chip.chip), "ccan_reset");
    ccan_pci_update(&s->chip);
}

static bool ccan_pci_is_soft_reset(CcanPciState *s, hwaddr at)
{
    return CCAN_BASE_GET_CLASS(s)->has_soft_reset && at == AT_SOFT_RESET;
}

static void ccan_pci_write(void *opaque, hwaddr at, uint64_t value,
                           unsigned size)
{
    CcanPciState *s = opaque;

    if (ccan_pci_is_soft_reset(s, at)) {
        if (value & 1) {
            ccan_pci_reset_chip(s);
        }
        return;
    }
    if (at == AT_CONTROL) {
        ccan_net_pass(s->net);
    }
    ccan_pci_write_register(s, at, size, value);
    switch (at) {
    case AT_CONTROL:
    case AT_TEST:
    case AT_IF1_REQUEST:
    case AT_IF2_REQUEST:
        ccan_pci_update(&s->chip);
        ccan_net_kick(s->net);
        break;
    default:
        break;
    }
}

static const MemoryRegionOps ccan_pci_ops = {
    .read = ccan_pci_read,
    .write = ccan_pci_write,
    .endianness = DEVICE_LITTLE_ENDIAN,
    .valid = { .min_access_size = 2, .max_access_size = 4 },
    .impl = { .min_access_size = 2, .max_access_size = 4 },
};

/* ---- the device */

static void ccan_pci_reset(DeviceState *dev)
{
    ccan_pci_reset_chip(CCAN_BASE(dev));
}

static bool ccan_pci_init_msi(CcanPciState *s, Error **errp)
{
    Error *local_err = NULL;
    int ret;

    if (s->msi == ON_OFF_AUTO_OFF) {
        return true;
    }
    ret = msi_init(&s->dev, 0, 1, true, false, &local_err);
    if (ret && s->msi == ON_OFF_AUTO_ON) {
        error_propagate(errp, local_err);
        return false;
    }
    error_free(local_err); /* the board has no MSI, so INTx it is */
    return true;
}

static bool ccan_pci_open_chip(CcanPciState *s, Error **errp)
{
    uint32_t code;

    ccan_chip_init(&s->chip.chip);
    code = ccan_open_reset(&s->chip.chip, PROFILE, 0, TRIES,
                           CCAN_LAYOUT_C_CAN_32);
    if (code != CCAN_DONE) {
        error_setg(errp, "ccan_open_reset: %s", ccan_text(code));
        return false;
    }
    s->chip.clock = CCAN_BASE_GET_CLASS(s)->clock;
    s->chip.update = ccan_pci_update;
    return true;
}

static void ccan_pci_end_chip(CcanPciState *s)
{
    ccan_final last;

    ccan_net_check(ccan_end(&s->chip.chip, &last), "ccan_end");
}

static bool ccan_pci_join(CcanPciState *s, Error **errp)
{
    if (!ccan_pci_open_chip(s, errp)) {
        return false;
    }
    s->net = ccan_net_of(s->canbus, errp);
    if (!s->net || !ccan_net_join(s->net, &s->chip, errp)) {
        ccan_pci_end_chip(s);
        return false;
    }
    return true;
}

static void ccan_pci_realize(PCIDevice *dev, Error **errp)
{
    CcanPciState *s = CCAN_BASE(dev);

    if (!s->canbus) {
        error_setg(errp, "%s needs a canbus", object_get_typename(OBJECT(dev)));
        return;
    }
    if (!ccan_pci_init_msi(s, errp)) {
        return;
    }
    if (!ccan_pci_join(s, errp)) {
        msi_uninit(dev);
        return;
    }
    pci_config_set_interrupt_pin(dev->config, 1);
    memory_region_init_io(&s->mmio, OBJECT(s), &ccan_pci_ops, s, TYPE_CCAN_BASE,
                          BAR_SIZE);
    pci_register_bar(dev, CCAN_BASE_GET_CLASS(s)->bar,
                     PCI_BASE_ADDRESS_SPACE_MEMORY, &s->mmio);
}

static void ccan_pci_exit(PCIDevice *dev)
{
    CcanPciState *s = CCAN_BASE(dev);

    ccan_net_leave(s->net, &s->chip);
    ccan_pci_end_chip(s);
    msi_uninit(dev);
}

/* ---- migration */

static int ccan_pci_pre_save(void *opaque)
{
    CcanPciState *s = opaque;
    uint32_t code = ccan_save(&s->chip.chip, &s->saved);

    if (code != CCAN_DONE) {
        error_report("ccan_save: %s", ccan_text(code));
        return -EIO;
    }
    return 0;
}

static int ccan_pci_post_load(void *opaque, int version)
{
    CcanPciState *s = opaque;
    uint32_t code = ccan_restore(&s->chip.chip, &s->saved);

    if (code != CCAN_DONE) {
        error_report("ccan_restore: %s", ccan_text(code));
        return -EINVAL;
    }
    return 0;
}

static const VMStateDescription vmstate_ccan_pci = {
    .name = TYPE_CCAN_BASE,
    .version_id = 1,
    .minimum_version_id = 1,
    .pre_save = ccan_pci_pre_save,
    .post_load = ccan_pci_post_load,
    .fields = (VMStateField[]) {
        VMSTATE_PCI_DEVICE(dev, CcanPciState),
        VMSTATE_UINT8_ARRAY(saved.bytes, CcanPciState, sizeof(ccan_saved)),
        VMSTATE_BOOL(pulled, CcanPciState),
        VMSTATE_END_OF_LIST()
    }
};

/* ---- the types */

static void ccan_pci_instance_init(Object *obj)
{
    CcanPciState *s = CCAN_BASE(obj);

    s->chip.fault = CCAN_BIT1;
    object_property_add_uint32_ptr(obj, "fault", &s->chip.fault,
                                   OBJ_PROP_FLAG_READWRITE);
    object_property_add_uint32_ptr(obj, "fault-frames", &s->chip.fault_frames,
                                   OBJ_PROP_FLAG_READWRITE);
}

static Property ccan_pci_properties[] = {
    DEFINE_PROP_LINK("canbus", CcanPciState, canbus, TYPE_CAN_BUS,
                     CanBusState *),
    DEFINE_PROP_ON_OFF_AUTO("msi", CcanPciState, msi, ON_OFF_AUTO_AUTO),
    DEFINE_PROP_END_OF_LIST(),
};

static void ccan_base_class_init(ObjectClass *klass, void *data)
{
    DeviceClass *dc = DEVICE_CLASS(klass);
    PCIDeviceClass *k = PCI_DEVICE_CLASS(klass);

    k->realize = ccan_pci_realize;
    k->exit = ccan_pci_exit;
    k->class_id = 0x0c09; /* a serial bus, CAN */
    dc->reset = ccan_pci_reset;
    dc->vmsd = &vmstate_ccan_pci;
    device_class_set_props(dc, ccan_pci_properties);
    set_bit(DEVICE_CATEGORY_MISC, dc->categories);
}

static void ccan_pci_class_init(ObjectClass *klass, void *data)
{
    DeviceClass *dc = DEVICE_CLASS(klass);
    PCIDeviceClass *k = PCI_DEVICE_CLASS(klass);
    CcanPciClass *c = CCAN_BASE_CLASS(klass);

    dc->desc = "Intel PCH CAN, a Bosch C_CAN";
    k->vendor_id = PCI_VENDOR_ID_INTEL;
    k->device_id = 0x8818;
    c->bar = 1;
    c->clock = 50000000;
    c->has_soft_reset = true;
}

static void ccan_sta2x11_class_init(ObjectClass *klass, void *data)
{
    DeviceClass *dc = DEVICE_CLASS(klass);
    PCIDeviceClass *k = PCI_DEVICE_CLASS(klass);
    CcanPciClass *c = CCAN_BASE_CLASS(klass);

    dc->desc = "STA2X11 CAN, a Bosch C_CAN";
    k->vendor_id = 0x104a; /* STMicroelectronics */
    k->device_id = 0xcc11;
    c->bar = 0;
    c->clock = 52000000;
}

static const TypeInfo ccan_pci_types[] = {
    {
        .name = TYPE_CCAN_BASE,
        .parent = TYPE_PCI_DEVICE,
        .abstract = true,
        .instance_size = sizeof(CcanPciState),
        .instance_init = ccan_pci_instance_init,
        .class_size = sizeof(CcanPciClass),
        .class_init = ccan_base_class_init,
        .interfaces = (InterfaceInfo[]) {
            { INTERFACE_CONVENTIONAL_PCI_DEVICE },
            { }
        },
    },
    {
        .name = TYPE_CCAN_PCI,
        .parent = TYPE_CCAN_BASE,
        .class_init = ccan_pci_class_init,
    },
    {
        .name = TYPE_CCAN_STA2X11,
        .parent = TYPE_CCAN_BASE,
        .class_init = ccan_sta2x11_class_init,
    },
};

DEFINE_TYPES(ccan_pci_types)
