/* The modules and interfaces of the guest: see guest.h. */
#include <errno.h>
#include <fcntl.h>
#include <linux/can/netlink.h>
#include <linux/can/raw.h>
#include <linux/rtnetlink.h>
#include <net/if.h>
#include <stdio.h>
#include <string.h>
#include <sys/reboot.h>
#include <sys/socket.h>
#include <sys/syscall.h>
#include <time.h>
#include <unistd.h>
#include "guest.h"

enum { BITRATE = 500000 };

static const char *const names[CARDS] = { "can0", "can1", "can2" };

void switch_off(void)
{
    sync();
    reboot(RB_POWER_OFF);
    for (;;)
        pause();
}

void must(bool done, const char *what)
{
    if (!done) {
        printf("guest: FAILED: %s: %s\n", what, strerror(errno));
        switch_off();
    }
}

double seconds(void)
{
    struct timespec now;

    clock_gettime(CLOCK_MONOTONIC, &now);
    return (double)now.tv_sec + (double)now.tv_nsec / 1e9;
}

/* ---- modules */

static void load_module(const char *path)
{
    int file = open(path, O_RDONLY | O_CLOEXEC);

    must(file >= 0, path);
    must(syscall(SYS_finit_module, file, "", 0) == 0, path);
    close(file);
}

void load_modules(void)
{
    load_module("/can-dev.ko");
    load_module("/can.ko");
    load_module("/can-raw.ko");
    load_module("/c_can.ko");
    load_module("/c_can_pci.ko");
}

/* ---- interfaces */

struct request {
    struct nlmsghdr head;
    struct ifinfomsg link;
    char attributes[256];
};

static struct request request_of(uint32_t card, unsigned flags)
{
    struct request request = {
        .head = { .nlmsg_len = NLMSG_LENGTH(sizeof(struct ifinfomsg)),
                  .nlmsg_type = RTM_NEWLINK,
                  .nlmsg_flags = NLM_F_REQUEST | NLM_F_ACK },
        .link = { .ifi_family = AF_UNSPEC,
                  .ifi_index = (int)if_nametoindex(names[card]),
                  .ifi_flags = flags, .ifi_change = IFF_UP },
    };

    must(request.link.ifi_index != 0, names[card]);
    return request;
}

/* Adds an attribute, and says where it is. */
static struct rtattr *add(struct request *request, unsigned short type,
                          const void *data, size_t length)
{
    size_t at = NLMSG_ALIGN(request->head.nlmsg_len);
    struct rtattr *attribute = (struct rtattr *)((char *)request + at);

    must(at + RTA_SPACE(length) <= sizeof(*request), "an attribute");
    attribute->rta_type = type;
    attribute->rta_len = RTA_LENGTH(length);
    if (length)
        memcpy(RTA_DATA(attribute), data, length);
    request->head.nlmsg_len = at + RTA_ALIGN(attribute->rta_len);
    return attribute;
}

/* What was added since this attribute is inside of it. */
static void close_nest(struct request *request, struct rtattr *nest)
{
    nest->rta_len = (char *)request + request->head.nlmsg_len - (char *)nest;
}

static void ask_kernel(struct request *request, const char *what)
{
    struct {
        struct nlmsghdr head;
        struct nlmsgerr error;
        char rest[512];
    } answer;
    int netlink = socket(AF_NETLINK, SOCK_RAW | SOCK_CLOEXEC, NETLINK_ROUTE);

    must(netlink >= 0, "netlink");
    must(send(netlink, request, request->head.nlmsg_len, 0) > 0, "netlink");
    must(recv(netlink, &answer, sizeof(answer), 0) > 0, "netlink");
    must(answer.head.nlmsg_type == NLMSG_ERROR, "netlink");
    errno = -answer.error.error;
    must(answer.error.error == 0, what);
    close(netlink);
}

uint32_t count_cards(void)
{
    uint32_t count = 0;

    while (count < CARDS && if_nametoindex(names[count]) != 0)
        count++;
    return count;
}

void start_card(uint32_t card, uint32_t modes)
{
    struct can_bittiming timing = { .bitrate = BITRATE };
    struct can_ctrlmode mode = {
        .mask = CAN_CTRLMODE_LOOPBACK | CAN_CTRLMODE_LISTENONLY
                | CAN_CTRLMODE_BERR_REPORTING,
        .flags = modes | CAN_CTRLMODE_BERR_REPORTING,
    };
    uint32_t restart = RESTART_MS;
    struct request request = request_of(card, IFF_UP);
    struct rtattr *info, *data;

    info = add(&request, IFLA_LINKINFO, NULL, 0);
    add(&request, IFLA_INFO_KIND, "can", strlen("can"));
    data = add(&request, IFLA_INFO_DATA, NULL, 0);
    add(&request, IFLA_CAN_BITTIMING, &timing, sizeof(timing));
    add(&request, IFLA_CAN_CTRLMODE, &mode, sizeof(mode));
    add(&request, IFLA_CAN_RESTART_MS, &restart, sizeof(restart));
    close_nest(&request, data);
    close_nest(&request, info);
    ask_kernel(&request, "starting a card");
}

void stop_card(uint32_t card)
{
    struct request request = request_of(card, 0);

    ask_kernel(&request, "stopping a card");
}

int open_socket(uint32_t card, bool own)
{
    struct sockaddr_can address = { .can_family = AF_CAN };
    int with_own = own;
    int file = socket(PF_CAN, SOCK_RAW | SOCK_CLOEXEC, CAN_RAW);

    must(file >= 0, "a socket");
    must(setsockopt(file, SOL_CAN_RAW, CAN_RAW_RECV_OWN_MSGS, &with_own,
                    sizeof(with_own)) == 0, "CAN_RAW_RECV_OWN_MSGS");
    address.can_ifindex = (int)if_nametoindex(names[card]);
    must(bind(file, (struct sockaddr *)&address, sizeof(address)) == 0,
         "bind");
    return file;
}

void print_lines_of(const char *path)
{
    char line[512];
    FILE *file = fopen(path, "r");

    if (!file)
        return;
    while (fgets(line, sizeof(line), file)) {
        if (strstr(line, "can"))
            printf("guest: %s", line);
    }
    fclose(file);
}
