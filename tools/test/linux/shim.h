/* What the Linux driver c_can asks of its kernel, in user space. tools/test/check_linux_driver lets each header of the kernel that
 * the driver includes lead here; what <linux/can.h> and its kin have comes from those that programs have too. Written for this
 * repository: the functions have the kernel's names, and nothing of its code. Bodies that are not here are in run.c. */
#ifndef SHIM_H
#define SHIM_H
#include <errno.h>
#include <linux/can.h>
#include <linux/can/error.h>
#include <linux/can/netlink.h>
#include <linux/types.h>
#include <sched.h>
#include <stdatomic.h>
#include <stdbool.h>
#include <stddef.h>
#include <stdint.h>

typedef uint8_t u8;
typedef uint16_t u16;
typedef uint32_t u32;

/* ---- the language of the kernel */

#define __iomem
#define __maybe_unused __attribute__((unused))
#define KBUILD_MODNAME "c_can"
#define EXPORT_SYMBOL_GPL(name) struct module_note
#define MODULE_AUTHOR(text) struct module_note
#define MODULE_LICENSE(text) struct module_note
#define MODULE_DESCRIPTION(text) struct module_note

#define BIT(place) (1ul << (place))
#define GENMASK(high, low) ((~0ul >> (63 - (high))) & (~0ul << (low)))
#define likely(holds) (holds)
#define unlikely(holds) (holds)
#define ffs(word) __builtin_ffs((int)(word))
#define hweight32(word) ((u32)__builtin_popcount(word))
static inline int fls(u32 word) { return word ? 32 - __builtin_clz(word) : 0; }

/* The fences and atomics that the driver has. */
#define smp_mb() __atomic_thread_fence(__ATOMIC_SEQ_CST)
typedef struct { int counter; } atomic_t;
static inline int atomic_xchg(atomic_t *at, int value) { return __atomic_exchange_n(&at->counter, value, __ATOMIC_SEQ_CST); }
static inline void atomic_set(atomic_t *at, int value) { __atomic_store_n(&at->counter, value, __ATOMIC_RELAXED); }
static inline int test_bit(unsigned place, const unsigned long *word) { return *word >> place & 1; }
static inline void change_bit(unsigned place, unsigned long *word)
{
    __atomic_fetch_xor(word, 1ul << place, __ATOMIC_SEQ_CST);
}

static inline void udelay(unsigned long microseconds) { (void)microseconds; sched_yield(); }
static inline void msleep(unsigned milliseconds) { (void)milliseconds; sched_yield(); }

/* The kernel's time as the driver waits by it: it passes with turns of its loops, and not by a clock. */
static __maybe_unused unsigned long jiffies;
#define msecs_to_jiffies(milliseconds) ((unsigned long)(milliseconds))
#define time_after(later, earlier) ((long)((earlier) - (later)) < 0)
static inline void cpu_relax(void)
{
    static unsigned turns;
    jiffies += ++turns % 100000 == 0;
    sched_yield();
}
#define WARN_ON(holds) ((void)(holds))

/* ---- power and pins: none */

struct device { struct device *parent; };
struct pinctrl;
struct regmap;
static inline int pm_runtime_get_sync(struct device *device) { (void)device; return 0; }
static inline int pm_runtime_put_sync(struct device *device) { (void)device; return 0; }
static inline struct pinctrl *pinctrl_get_select(struct device *device, const char *name)
{
    (void)device;
    (void)name;
    return NULL;
}
static inline bool IS_ERR(const void *pointer) { return (uintptr_t)pointer >= (uintptr_t)-4095; }
static inline void pinctrl_put(struct pinctrl *pins) { (void)pins; }
static inline int pinctrl_pm_select_default_state(struct device *device) { (void)device; return 0; }
static inline int pinctrl_pm_select_sleep_state(struct device *device) { (void)device; return 0; }

/* ---- a device of the network, and its frames */

struct net_device;
struct ethtool_ops { int nothing; };

/* A frame on its way; `number` is ours. */
struct sk_buff {
    struct net_device *dev;
    unsigned char *data;
    struct can_frame frame;
    u32 number;
};

typedef enum { NETDEV_TX_OK, NETDEV_TX_BUSY = 16 } netdev_tx_t;

struct net_device_ops {
    int (*ndo_open)(struct net_device *dev);
    int (*ndo_stop)(struct net_device *dev);
    netdev_tx_t (*ndo_start_xmit)(struct sk_buff *skb, struct net_device *dev);
    int (*ndo_change_mtu)(struct net_device *dev, int size);
};

struct net_device_stats {
    unsigned long rx_packets, tx_packets, rx_bytes, tx_bytes, rx_errors, tx_errors, rx_dropped, tx_dropped;
    unsigned long rx_over_errors, tx_aborted_errors;
};

struct net_device {
    char name[16];
    int irq;
    unsigned flags;
    struct device dev;
    const struct net_device_ops *netdev_ops;
    const struct ethtool_ops *ethtool_ops;
    struct net_device_stats stats;
    _Alignas(64) char driver_data[4096];
};

enum { IFF_UP = 0x1, IFF_ECHO = 0x40000, IRQF_SHARED = 0x80 };
static inline void *netdev_priv(const struct net_device *dev) { return (void *)dev->driver_data; }

void netif_start_queue(struct net_device *dev);
void netif_stop_queue(struct net_device *dev);
void netif_wake_queue(struct net_device *dev);
int netif_receive_skb(struct sk_buff *skb);

/* An error that the driver tells is a fault of the run. */
void driver_error(const char *text);
#define netdev_info(dev, ...) ((void)(dev))
#define netdev_dbg(dev, ...) ((void)(dev))
#define netdev_err(dev, text, ...) ((void)(dev), driver_error(text))

/* ---- its interrupt, and the polls that it schedules */

typedef enum { IRQ_NONE, IRQ_HANDLED } irqreturn_t;
typedef irqreturn_t (*irq_handler_t)(int irq, void *of);
int request_irq(int irq, irq_handler_t handler, unsigned long flags, const char *name, void *of);
void free_irq(int irq, void *of);

struct napi_struct {
    struct net_device *dev;
    int (*poll)(struct napi_struct *napi, int quota);
    int weight;
    bool scheduled, enabled;
};
void netif_napi_add_weight(struct net_device *dev, struct napi_struct *napi, int (*poll)(struct napi_struct *, int), int weight);
void netif_napi_del(struct napi_struct *napi);
void napi_enable(struct napi_struct *napi);
void napi_disable(struct napi_struct *napi);
bool napi_schedule(struct napi_struct *napi);
bool napi_complete_done(struct napi_struct *napi, int done);

/* ---- a device of a CAN */

enum can_mode { CAN_MODE_STOP, CAN_MODE_START, CAN_MODE_SLEEP };
enum { ECHOES = 32 };

struct can_priv {
    struct can_device_stats can_stats;
    struct can_bittiming bittiming;
    const struct can_bittiming_const *bittiming_const;
    enum can_state state;
    u32 ctrlmode, ctrlmode_supported;
    int (*do_set_mode)(struct net_device *dev, enum can_mode mode);
    int (*do_get_berr_counter)(const struct net_device *dev, struct can_berr_counter *counts);
    struct sk_buff *_Atomic echoes[ECHOES]; /* the frames that were handed over and not yet told as sent, by their objects */
};

struct net_device *alloc_candev(int size, unsigned echoes);
void free_candev(struct net_device *dev);
int register_candev(struct net_device *dev);
void unregister_candev(struct net_device *dev);
int open_candev(struct net_device *dev);
void close_candev(struct net_device *dev);
int can_change_mtu(struct net_device *dev, int size);
void can_bus_off(struct net_device *dev);
struct sk_buff *alloc_can_skb(struct net_device *dev, struct can_frame **frame);
struct sk_buff *alloc_can_err_skb(struct net_device *dev, struct can_frame **frame);
int can_put_echo_skb(struct sk_buff *skb, struct net_device *dev, unsigned place, unsigned length);
unsigned can_get_echo_skb(struct net_device *dev, unsigned place, unsigned *length);
static inline bool can_dev_dropped_skb(struct net_device *dev, struct sk_buff *skb) { (void)dev; (void)skb; return false; }
static inline u8 can_cc_dlc2len(u8 dlc) { return dlc < 8 ? dlc : 8; }
#endif
