// Watches a lab of routers in network namespaces: reads all tables and rules of their kernels again and again, looks for loops
// in them, and sends probes from all routers to all targets. It needs root, and ends with its input.
//
// usage: watch FILE PROBE_MS READ_MS
//
// The FILE has these lines:
//   router NAME IPV4 IPV6      a namespace, and the addresses that its probes come from; the first router has the number 0
//   target ADDRESS NUMBER..    an address that probes go to, and the routers that have it
//
// A device with the number 100 + N leads to router N, and has its name. Every PROBE_MS milliseconds all routers send a probe to all
// targets of IPv4, or of IPv6 by turns. With 0 there are no probes. There are READ_MS milliseconds between two reads of all kernels.
//
// A packet that comes to a router is looked up by its rules in their order. Where that ends depends on which links have their
// carrier, so all ways are followed that the kernel would use now or after it loses carriers, if nobody writes to it. A read takes
// some milliseconds, so it need not show one moment. If it has a loop, the routers of the loop are read again, while their kernels tell what
// changes. If all steps are still there, and nothing of them has changed meanwhile, there was a moment at which all were there: the
// loop counts. If something has changed, the routers are read once more. A loop that is there in MOST_AGAIN reads counts as well.
//
// It prints these lines, with seconds of the clock CLOCK_MONOTONIC:
//   loop SECONDS ADDRESS NAME..          a loop
//   round SECONDS FAMILY STEPS           a round of probes that is over: two hexadecimal digits for each router and each target of the
//                                        FAMILY 4 or 6, by how many links the probe came, or 00 if it did not arrive in half a second
//   reads COUNT ONCE UNCLEAR TWICE MILLISECONDS
//                                        at the end: the reads, the loops at a first look, those that were gone after a read in which something had
//                                        changed, those that count, and how long a read took
#define _GNU_SOURCE
#include <arpa/inet.h>
#include <errno.h>
#include <fcntl.h>
#include <linux/fib_rules.h>
#include <linux/rtnetlink.h>
#include <net/if.h>
#include <pthread.h>
#include <sched.h>
#include <stdatomic.h>
#include <stdbool.h>
#include <stdint.h>
#include <stdio.h>
#include <stdlib.h>
#include <string.h>
#include <sys/epoll.h>
#include <sys/socket.h>
#include <time.h>
#include <unistd.h>

enum { MOST_ROUTERS = 128, MOST_TARGETS = 1024, FIRST_DEVICE = 100, MOST_HOPS = 16, TTL = 56, PORT = 7, ROUNDS = 256, LOOKS = 4, MOST_AGAIN = 8, PLACES = 4 * MOST_TARGETS, NONE = -1 };
// Where a packet comes in, if it is not from a router: it is the router's own, or it comes by any device, or by another one.
enum { OWN = -1, ANY = -2, OTHER = -3 };
static const double SECONDS_OF_A_PROBE = 0.5;

typedef unsigned __int128 Set;

struct address {
    int family;
    uint8_t bytes[16];
};

struct target {
    struct address at;
    char text[INET6_ADDRSTRLEN];
    bool has[MOST_ROUTERS];
};

struct route {
    struct address to;
    uint8_t length, kind;
    uint32_t table, metric;
    Set hops;
};

struct rule {
    struct address to;
    uint8_t length, action;
    int from;
    uint32_t table;
};

// A route that has a target, and the next one of the same target.
struct entry {
    int route, next;
};

struct kernel {
    int netlink, changes;
    struct route *routes;
    struct rule *rules;
    struct entry *entries;
    int route_count, route_space, rule_count, rule_space, entry_count, entry_space;
    int first[MOST_TARGETS];
};

struct round {
    bool is_used;
    double sent;
    uint32_t number;
    int family;
    uint8_t *steps;
};

static char names[MOST_ROUTERS][IFNAMSIZ];
static struct address own[2][MOST_ROUTERS];
static struct target targets[MOST_TARGETS];
static int router_count, target_count, places[PLACES];
static struct kernel kernels[MOST_ROUTERS];
static atomic_bool is_over;
static long probe_ms, read_ms;

static void stop(const char *what) {
    fprintf(stderr, "watch: %s: %s\n", what, strerror(errno));
    exit(1);
}

static double now(void) {
    struct timespec at;
    clock_gettime(CLOCK_MONOTONIC, &at);
    return at.tv_sec + at.tv_nsec * 1e-9;
}

static void *grown(void *some, int count, int *space, size_t size) {
    if (count < *space) return some;
    *space = *space ? 2 * *space : 64;
    some = reallocarray(some, *space, size);
    if (!some) stop("memory");
    return some;
}

// Takes this thread into the namespace of a router.
static void enter(int router) {
    char path[64];
    snprintf(path, sizeof path, "/run/netns/%s", names[router]);
    int file = open(path, O_RDONLY | O_CLOEXEC);
    if (file < 0 || setns(file, CLONE_NEWNET)) stop(path);
    close(file);
}

static struct address read_address(const char *text) {
    struct address it = {strchr(text, ':') ? AF_INET6 : AF_INET, {0}};
    if (inet_pton(it.family, text, it.bytes) != 1) stop(text);
    return it;
}

static int router_of(const char *name) {
    for (int it = 0; it < router_count; it++)
        if (!strcmp(names[it], name)) return it;
    return OTHER;
}

// Where the number of the target with an address is, or NONE.
static int *place_of(const struct address *it) {
    uint32_t hash = it->family;
    for (int at = 0; at < 16; at++) hash = (hash ^ it->bytes[at]) * 16777619;
    for (hash %= PLACES; places[hash] != NONE; hash = (hash + 1) % PLACES) {
        struct address *other = &targets[places[hash]].at;
        if (other->family == it->family && !memcmp(other->bytes, it->bytes, sizeof it->bytes)) break;
    }
    return &places[hash];
}

static void read_router(char *words) {
    char *name = strtok(words, " \n");
    if (router_count == MOST_ROUTERS || strlen(name) >= IFNAMSIZ) stop("too many routers, or a long name");
    strcpy(names[router_count], name);
    for (int family = 0; family < 2; family++) own[family][router_count] = read_address(strtok(NULL, " \n"));
    router_count++;
}

static void read_target(char *words) {
    if (target_count == MOST_TARGETS) stop("too many targets");
    struct target *it = &targets[target_count];
    char *text = strtok(words, " \n"), *number;
    it->at = read_address(text);
    *place_of(&it->at) = target_count++;
    strncpy(it->text, text, sizeof it->text - 1);
    while ((number = strtok(NULL, " \n"))) it->has[atoi(number) % MOST_ROUTERS] = true;
}

static void read_lab(const char *name) {
    FILE *file = fopen(name, "r");
    char *line = NULL;
    size_t space = 0;
    if (!file) stop(name);
    memset(places, NONE, sizeof places);
    while (getline(&line, &space, file) > 0) {
        if (!strncmp(line, "router ", 7)) read_router(line + 7);
        if (!strncmp(line, "target ", 7)) read_target(line + 7);
    }
    free(line);
    fclose(file);
}

// Whether the first bits of two addresses are the same.
static bool has_prefix(const struct address *it, const struct address *prefix, int length) {
    if (it->family != prefix->family || memcmp(it->bytes, prefix->bytes, length / 8)) return false;
    int rest = length % 8, at = length / 8;
    return !rest || (it->bytes[at] ^ prefix->bytes[at]) >> (8 - rest) == 0;
}

// What kernels hold

static void add_hop(struct route *it, int device, int flags) {
    int router = device - FIRST_DEVICE;
    if (!(flags & (RTNH_F_DEAD | RTNH_F_LINKDOWN)) && router >= 0 && router < router_count) it->hops |= (Set)1 << router;
}

static void add_hops(struct route *it, struct rtattr *some) {
    int left = RTA_PAYLOAD(some);
    for (struct rtnexthop *hop = RTA_DATA(some); RTNH_OK(hop, left); left -= NLMSG_ALIGN(hop->rtnh_len), hop = RTNH_NEXT(hop))
        add_hop(it, hop->rtnh_ifindex, hop->rtnh_flags);
}

static uint32_t number_in(struct rtattr *it) {
    uint32_t value;
    memcpy(&value, RTA_DATA(it), sizeof value);
    return value;
}

static void take_route(struct kernel *kernel, struct nlmsghdr *message) {
    struct rtmsg *head = NLMSG_DATA(message);
    struct route it = {.to.family = head->rtm_family, .length = head->rtm_dst_len, .kind = head->rtm_type};
    int left = RTM_PAYLOAD(message);
    it.table = head->rtm_table;
    if (head->rtm_flags & RTM_F_CLONED) return;
    for (struct rtattr *part = RTM_RTA(head); RTA_OK(part, left); part = RTA_NEXT(part, left)) {
        switch (part->rta_type & NLA_TYPE_MASK) {
            case RTA_DST: memcpy(it.to.bytes, RTA_DATA(part), RTA_PAYLOAD(part) < 16 ? RTA_PAYLOAD(part) : 16); break;
            case RTA_TABLE: it.table = number_in(part); break;
            case RTA_PRIORITY: it.metric = number_in(part); break;
            case RTA_OIF: add_hop(&it, number_in(part), head->rtm_flags); break;
            case RTA_MULTIPATH: add_hops(&it, part); break;
        }
    }
    kernel->routes = grown(kernel->routes, kernel->route_count, &kernel->route_space, sizeof it);
    kernel->routes[kernel->route_count++] = it;
}

static void take_rule(struct kernel *kernel, struct nlmsghdr *message) {
    struct fib_rule_hdr *head = NLMSG_DATA(message);
    struct rule it = {.to.family = head->family, .length = head->dst_len, .action = head->action, .from = ANY};
    int left = message->nlmsg_len - NLMSG_LENGTH(sizeof *head);
    struct rtattr *part = (void *)((char *)head + NLMSG_ALIGN(sizeof *head));
    it.table = head->table;
    for (; RTA_OK(part, left); part = RTA_NEXT(part, left)) {
        switch (part->rta_type & NLA_TYPE_MASK) {
            case FRA_DST: memcpy(it.to.bytes, RTA_DATA(part), RTA_PAYLOAD(part) < 16 ? RTA_PAYLOAD(part) : 16); break;
            case FRA_TABLE: it.table = number_in(part); break;
            case FRA_IIFNAME: it.from = strcmp(RTA_DATA(part), "lo") ? router_of(RTA_DATA(part)) : OWN; break;
            // what has marks, sources or ports is none of this lab's
            case FRA_SRC:
            case FRA_FWMARK:
            case FRA_OIFNAME: it.from = OTHER; break;
        }
    }
    kernel->rules = grown(kernel->rules, kernel->rule_count, &kernel->rule_space, sizeof it);
    kernel->rules[kernel->rule_count++] = it;
}

static void list(struct kernel *kernel, int type, int family, void (*take)(struct kernel *, struct nlmsghdr *)) {
    static _Alignas(8) char said[1 << 18];
    struct {
        struct nlmsghdr head;
        union {
            struct rtmsg route;
            struct fib_rule_hdr rule;
        };
    } asked = {{sizeof asked, type, NLM_F_REQUEST | NLM_F_DUMP, 0, 0}, {{.rtm_family = family}}};
    if (send(kernel->netlink, &asked, sizeof asked, 0) < 0) stop("netlink");
    for (;;) {
        int size = recv(kernel->netlink, said, sizeof said, 0);
        if (size < 0) stop("netlink");
        for (struct nlmsghdr *it = (void *)said; NLMSG_OK(it, (unsigned)size); it = NLMSG_NEXT(it, size)) {
            if (it->nlmsg_type == NLMSG_DONE || it->nlmsg_type == NLMSG_ERROR) return;
            take(kernel, it);
        }
    }
}

static void add_entry(struct kernel *kernel, int target, int route) {
    kernel->entries = grown(kernel->entries, kernel->entry_count, &kernel->entry_space, sizeof *kernel->entries);
    kernel->entries[kernel->entry_count] = (struct entry){route, kernel->first[target]};
    kernel->first[target] = kernel->entry_count++;
}

// Finds the routes of each target. Most are for one address.
static void sort_out(struct kernel *kernel) {
    kernel->entry_count = 0;
    memset(kernel->first, -1, sizeof kernel->first);
    for (int it = 0; it < kernel->route_count; it++) {
        struct route *route = &kernel->routes[it];
        if (route->length == (route->to.family == AF_INET ? 32 : 128)) {
            int target = *place_of(&route->to);
            if (target != NONE) add_entry(kernel, target, it);
            continue;
        }
        for (int target = 0; target < target_count; target++)
            if (has_prefix(&targets[target].at, &route->to, route->length)) add_entry(kernel, target, it);
    }
}

static void read_kernel(struct kernel *kernel) {
    kernel->route_count = kernel->rule_count = 0;
    for (int family = AF_INET; family; family = family == AF_INET ? AF_INET6 : 0) {
        list(kernel, RTM_GETROUTE, family, take_route);
        list(kernel, RTM_GETRULE, family, take_rule);
    }
    sort_out(kernel);
}

static int opened_netlink(void) {
    int size = 1 << 22, one = 1, netlink = socket(AF_NETLINK, SOCK_RAW | SOCK_CLOEXEC, NETLINK_ROUTE);
    // Without an address of its own, a socket is told no changes.
    if (netlink < 0 || bind(netlink, (void *)&(struct sockaddr_nl){.nl_family = AF_NETLINK}, sizeof(struct sockaddr_nl))) stop("netlink");
    setsockopt(netlink, SOL_SOCKET, SO_RCVBUFFORCE, &size, sizeof size);
    setsockopt(netlink, SOL_NETLINK, NETLINK_GET_STRICT_CHK, &one, sizeof one);
    return netlink;
}

static void open_kernel(int router) {
    enter(router);
    kernels[router].netlink = opened_netlink();
    kernels[router].changes = opened_netlink();
}

// What changes in kernels

// Has a kernel tell its changes from now on, or no more.
static void follow_changes(struct kernel *kernel, bool is_on) {
    static const int groups[] = {RTNLGRP_LINK, RTNLGRP_IPV4_ROUTE, RTNLGRP_IPV6_ROUTE, RTNLGRP_IPV4_RULE, RTNLGRP_IPV6_RULE, RTNLGRP_NEXTHOP};
    for (size_t it = 0; it < sizeof groups / sizeof *groups; it++)
        if (setsockopt(kernel->changes, SOL_NETLINK, is_on ? NETLINK_ADD_MEMBERSHIP : NETLINK_DROP_MEMBERSHIP, &groups[it], sizeof *groups))
            stop("netlink groups");
}

// Whether a change can be one of where packets to a target go. That of a route of other targets cannot.
static bool is_about(struct nlmsghdr *message, int target) {
    if (message->nlmsg_type != RTM_NEWROUTE && message->nlmsg_type != RTM_DELROUTE) return true;
    struct rtmsg *head = NLMSG_DATA(message);
    struct address to = {head->rtm_family, {0}};
    int left = RTM_PAYLOAD(message);
    for (struct rtattr *part = RTM_RTA(head); RTA_OK(part, left); part = RTA_NEXT(part, left))
        if (part->rta_type == RTA_DST) memcpy(to.bytes, RTA_DATA(part), RTA_PAYLOAD(part) < 16 ? RTA_PAYLOAD(part) : 16);
    return has_prefix(&targets[target].at, &to, head->rtm_dst_len);
}

// Takes the changes that a kernel has told. Returns whether some were about a target, or were lost.
static bool take_changes(struct kernel *kernel, int target) {
    static _Alignas(8) char said[1 << 18];
    bool has_changed = false;
    for (;;) {
        int size = recv(kernel->changes, said, sizeof said, MSG_DONTWAIT);
        if (size < 0 && errno != ENOBUFS) return has_changed;
        has_changed |= size < 0;
        for (struct nlmsghdr *it = (void *)said; size > 0 && NLMSG_OK(it, (unsigned)size); it = NLMSG_NEXT(it, size)) has_changed |= is_about(it, target);
    }
}

// Where packets go

// The longest route to a target in a table that is not longer than `length`. Of these, the one with the lowest metric; of those
// of this length, from `metric` on.
static struct route *best_route(struct kernel *kernel, int target, uint32_t table, int length, int64_t metric) {
    struct route *best = NULL;
    for (int at = kernel->first[target]; at >= 0; at = kernel->entries[at].next) {
        struct route *it = &kernel->routes[kernel->entries[at].route];
        if (it->table != table || it->length > length || (it->length == length && it->metric < metric)) continue;
        if (!best || it->length > best->length || (it->length == best->length && it->metric < best->metric)) best = it;
    }
    return best;
}

// Adds the routers that a look-up in a table can lead to. Returns whether the look-up ends there for certain.
static bool look_up(struct kernel *kernel, int target, uint32_t table, Set *hops) {
    struct route *it;
    int64_t metric = 0;
    int length = 128;
    while ((it = best_route(kernel, target, table, length, metric))) {
        if (it->kind == RTN_THROW) return false;
        if (it->kind != RTN_UNICAST) return true;
        length = it->length;
        metric = (int64_t)it->metric + 1;
        for (int at = kernel->first[target]; at >= 0; at = kernel->entries[at].next) {
            struct route *other = &kernel->routes[kernel->entries[at].route];
            bool is_beside = other->table == table && other->length == length && other->metric == it->metric;
            if (is_beside && other->kind == RTN_UNICAST) *hops |= other->hops;
        }
    }
    return false;
}

// The routers to which a router can send on a packet that came from a router.
static Set next_of(struct kernel *kernel, int from, int target) {
    Set hops = 0;
    for (struct rule *it = kernel->rules; it < kernel->rules + kernel->rule_count; it++) {
        if ((it->from != ANY && it->from != from) || !has_prefix(&targets[target].at, &it->to, it->length)) continue;
        if (it->action != FR_ACT_TO_TBL) return hops;
        if (look_up(kernel, target, it->table, &hops)) return hops;
    }
    return hops;
}

// A packet at a router, and the router that it came from.
struct step {
    int router, from;
};

struct walk {
    int target, depth;
    uint8_t seen[MOST_ROUTERS][MOST_ROUTERS + 1];
    struct step path[MOST_ROUTERS * MOST_HOPS];
};

enum { NEW, ON_PATH, DONE };

// Follows a packet. Returns whether it can come to where it was. Then the path is the loop.
static bool has_loop(struct walk *walk, struct step it) {
    uint8_t *seen = &walk->seen[it.router][it.from + 1];
    if (*seen == ON_PATH) {
        int at = 0;
        while (walk->path[at].router != it.router || walk->path[at].from != it.from) at++;
        walk->depth -= at;
        memmove(walk->path, walk->path + at, walk->depth * sizeof it);
        return true;
    }
    if (*seen == DONE || walk->depth == MOST_ROUTERS * MOST_HOPS) return false;
    *seen = ON_PATH;
    walk->path[walk->depth++] = it;
    Set hops = next_of(&kernels[it.router], it.from, walk->target);
    for (int next = 0; hops; next++, hops >>= 1)
        if (hops & 1 && has_loop(walk, (struct step){next, it.router})) return true;
    walk->depth--;
    *seen = DONE;
    return false;
}

// Whether packets to a target can go round. Then the path of the walk is a loop.
static bool find_loop(struct walk *walk, int target) {
    walk->target = target;
    walk->depth = 0;
    memset(walk->seen, NEW, sizeof walk->seen);
    for (int router = 0; router < router_count; router++)
        if (has_loop(walk, (struct step){router, OWN})) return true;
    return false;
}

enum again { GONE, CHANGED, THERE };

// Reads the routers of a loop again.
static enum again read_again(struct walk *walk) {
    bool has_changed = false;
    for (int at = 0; at < walk->depth; at++) take_changes(&kernels[walk->path[at].router], walk->target);
    for (int at = 0; at < walk->depth; at++) read_kernel(&kernels[walk->path[at].router]);
    for (int at = 0; at < walk->depth; at++) {
        struct step it = walk->path[at], next = walk->path[(at + 1) % walk->depth];
        if (!(next_of(&kernels[it.router], it.from, walk->target) >> next.router & 1)) return GONE;
    }
    for (int at = 0; at < walk->depth; at++) has_changed |= take_changes(&kernels[walk->path[at].router], walk->target);
    return has_changed ? CHANGED : THERE;
}

// Whether a loop is still there. It is unclear if it is gone after a read in which something has changed.
static bool is_still_there(struct walk *walk, long *unclear) {
    enum again found;
    int reads = 0;
    for (int at = 0; at < walk->depth; at++) follow_changes(&kernels[walk->path[at].router], true);
    do found = read_again(walk);
    while (found == CHANGED && ++reads < MOST_AGAIN);
    for (int at = 0; at < walk->depth; at++) follow_changes(&kernels[walk->path[at].router], false);
    *unclear += found == GONE && reads;
    return found != GONE;
}

static void tell_loop(struct walk *walk) {
    char line[MOST_ROUTERS * IFNAMSIZ];
    int size = 0;
    for (int at = 0; at < walk->depth && size < (int)sizeof line; at++)
        size += snprintf(line + size, sizeof line - size, " %s", names[walk->path[at].router]);
    printf("loop %.4f %s%s\n", now(), targets[walk->target].text, line);
    fflush(stdout);
}

static void *read_kernels(void *unused) {
    static struct walk walk;
    long reads = 0, once = 0, unclear = 0, twice = 0;
    double taken = 0;
    for (int it = 0; it < router_count; it++) open_kernel(it);
    while (!is_over) {
        double begun = now();
        for (int it = 0; it < router_count; it++) read_kernel(&kernels[it]);
        for (int target = 0; target < target_count; target++) {
            bool is_there = false;
            for (int look = 0; look < LOOKS && !is_there && find_loop(&walk, target); look++) {
                once++;
                is_there = is_still_there(&walk, &unclear);
            }
            if (is_there) tell_loop(&walk);
            twice += is_there;
        }
        taken += now() - begun;
        reads++;
        usleep(read_ms * 1000);
    }
    printf("reads %ld %ld %ld %ld %.2f\n", reads, once, unclear, twice, reads ? 1000 * taken / reads : 0);
    return unused;
}

// Probes

static struct round rounds[ROUNDS];
static int senders[2][MOST_ROUTERS], sinks;

struct probe {
    uint32_t number;
    uint16_t sender, target;
};

static void set(int file, int level, int option, int value) {
    if (setsockopt(file, level, option, &value, sizeof value)) stop("setsockopt");
}

static socklen_t address_for(struct sockaddr_storage *to, const struct address *it, int port) {
    memset(to, 0, sizeof *to);
    to->ss_family = it->family;
    if (it->family == AF_INET6) {
        struct sockaddr_in6 *six = (void *)to;
        six->sin6_port = htons(port);
        memcpy(&six->sin6_addr, it->bytes, 16);
        return sizeof *six;
    }
    struct sockaddr_in *four = (void *)to;
    four->sin_port = htons(port);
    memcpy(&four->sin_addr, it->bytes, 4);
    return sizeof *four;
}

static int opened(const struct address *at, int port) {
    struct sockaddr_storage to;
    int file = socket(at->family, SOCK_DGRAM | SOCK_NONBLOCK | SOCK_CLOEXEC, 0);
    if (file < 0) stop("socket");
    bool is_six = at->family == AF_INET6;
    if (is_six) set(file, IPPROTO_IPV6, IPV6_V6ONLY, 1);
    set(file, is_six ? IPPROTO_IPV6 : IPPROTO_IP, is_six ? IPV6_UNICAST_HOPS : IP_TTL, TTL);
    set(file, is_six ? IPPROTO_IPV6 : IPPROTO_IP, is_six ? IPV6_RECVHOPLIMIT : IP_RECVTTL, 1);
    set(file, SOL_SOCKET, SO_RCVBUF, 1 << 20);
    if (bind(file, (void *)&to, address_for(&to, at, port))) stop("bind");
    return file;
}

static void open_probes(void) {
    sinks = epoll_create1(EPOLL_CLOEXEC);
    for (int router = 0; router < router_count; router++) {
        enter(router);
        for (int family = 0; family < 2; family++) {
            struct address any = {family ? AF_INET6 : AF_INET, {0}};
            int sink = opened(&any, PORT);
            senders[family][router] = opened(&own[family][router], 0);
            if (epoll_ctl(sinks, EPOLL_CTL_ADD, sink, &(struct epoll_event){EPOLLIN, {.fd = sink}})) stop("epoll");
        }
    }
}

static void send_round(uint32_t number) {
    struct round *it = &rounds[number % ROUNDS];
    it->is_used = true;
    it->sent = now();
    it->number = number;
    it->family = number % 2 ? AF_INET6 : AF_INET;
    memset(it->steps, 0, router_count * target_count);
    for (int sender = 0; sender < router_count; sender++) {
        for (int target = 0; target < target_count; target++) {
            struct target *to = &targets[target];
            struct probe probe = {number, sender, target};
            struct sockaddr_storage at;
            if (to->at.family != it->family || to->has[sender]) continue;
            // a router without a route sends nothing, so the probe is lost
            socklen_t size = address_for(&at, &to->at, PORT);
            sendto(senders[number % 2][sender], &probe, sizeof probe, 0, (void *)&at, size);
        }
    }
}

static void receive(int sink) {
    struct probe probe;
    for (;;) {
        _Alignas(8) char control[64];
        struct iovec part = {&probe, sizeof probe};
        struct msghdr message = {.msg_iov = &part, .msg_iovlen = 1, .msg_control = control, .msg_controllen = sizeof control};
        if (recvmsg(sink, &message, 0) < (int)sizeof probe) return;
        struct cmsghdr *said = CMSG_FIRSTHDR(&message);
        struct round *it = &rounds[probe.number % ROUNDS];
        if (!said || !it->is_used || it->number != probe.number || probe.sender >= router_count || probe.target >= target_count) continue;
        int left;
        memcpy(&left, CMSG_DATA(said), sizeof left);
        it->steps[probe.sender * target_count + probe.target] = TTL - left + 1;
    }
}

static void tell_round(struct round *it) {
    static char line[2 * MOST_ROUTERS * MOST_TARGETS + 1];
    char *to = line;
    for (int sender = 0; sender < router_count; sender++) {
        for (int target = 0; target < target_count; target++) {
            if (targets[target].at.family != it->family) continue;
            int steps = it->steps[sender * target_count + target];
            *to++ = "0123456789abcdef"[steps >> 4];
            *to++ = "0123456789abcdef"[steps & 15];
        }
    }
    *to = 0;
    printf("round %.4f %d %s\n", it->sent, it->family == AF_INET ? 4 : 6, line);
    it->is_used = false;
}

static void *send_probes(void *unused) {
    uint32_t number = 0, told = 1;
    open_probes();
    for (int it = 0; it < ROUNDS; it++) rounds[it].steps = calloc(router_count, target_count);
    for (double due = now(); !is_over || told <= number;) {
        if (!is_over && now() >= due && number + 1 - told < ROUNDS) {
            send_round(++number);
            due = due + probe_ms / 1000.0 > now() ? due + probe_ms / 1000.0 : now();
        }
        struct epoll_event some[64];
        for (int left = epoll_wait(sinks, some, 64, 1); left > 0; left--) receive(some[left - 1].data.fd);
        while (told <= number && now() - rounds[told % ROUNDS].sent > SECONDS_OF_A_PROBE) tell_round(&rounds[told++ % ROUNDS]);
        fflush(stdout);
    }
    return unused;
}

int main(int count, char **words) {
    pthread_t reader, prober;
    char end;
    if (count != 4) {
        fprintf(stderr, "usage: watch FILE PROBE_MS READ_MS\n");
        return 2;
    }
    read_lab(words[1]);
    probe_ms = atol(words[2]);
    read_ms = atol(words[3]);
    if (pthread_create(&reader, NULL, read_kernels, NULL)) stop("thread");
    if (probe_ms && pthread_create(&prober, NULL, send_probes, NULL)) stop("thread");
    while (read(0, &end, 1) > 0);
    is_over = true;
    pthread_join(reader, NULL);
    if (probe_ms) pthread_join(prober, NULL);
    return 0;
}
