// Stands before the C library in a daemon (LD_PRELOAD), and makes its life hard. The environment variable STORM has words NAME=NUMBER:
//   seed     by which all is drawn, with the number of the process
//   lost     the share of datagrams that are lost, also of echo requests
//   late     the share of datagrams that arrive late, up to 3 seconds, also after a new start of their sender
//   mute     the share of datagrams that are lost together with all others of the socket for up to 1.5 seconds
//   slow     the most seconds that a write to the kernel takes
//   refused  the share of requests in writes that the kernel refuses, from the first datagram on
//   old      1 if the kernel knows no nexthop objects, as before Linux 5.3
//   clock    seconds by which the clock of the day is ahead
#define _GNU_SOURCE
#include <dlfcn.h>
#include <linux/netlink.h>
#include <linux/rtnetlink.h>
#include <pthread.h>
#include <stdlib.h>
#include <string.h>
#include <sys/socket.h>
#include <sys/uio.h>
#include <time.h>
#include <unistd.h>

enum { MOST_LATE = 64, MOST_BYTES = 2048, MOST_BATCH = 1 << 20, MOST_SOCKETS = 1024, NO_REQUEST = 0x7fff };
static const double SECONDS_OF_MUTE = 1.5, MOST_SECONDS_LATE = 3;

typedef ssize_t SendMessage(int, const struct msghdr *, int);
typedef ssize_t ReceiveMessage(int, struct msghdr *, int);
typedef int GetTime(clockid_t, struct timespec *);

// A datagram that arrived, and is not handed out before a time.
struct late {
    double due;
    int file, flags;
    struct sockaddr_storage from;
    socklen_t from_size;
    size_t size, control_size;
    char data[MOST_BYTES], control[256];
};

static double share_lost, share_late, share_mute, most_slow, share_refused, ahead;
static int has_begun, is_old;
static double mute_until[MOST_SOCKETS];
static struct late *held[MOST_LATE];
static unsigned short draws[3];
static pthread_mutex_t lock = PTHREAD_MUTEX_INITIALIZER;
static SendMessage *send_message;
static ReceiveMessage *receive_message;

static double number_of(const char *words, const char *name) {
    const char *at = strstr(words, name);
    return at ? atof(at + strlen(name)) : 0;
}

// Programs may ask for the time before `begin` runs.
static int real_time(clockid_t clock, struct timespec *at) {
    static GetTime *get_time;
    if (!get_time) get_time = (GetTime *)dlsym(RTLD_NEXT, "clock_gettime");
    return get_time(clock, at);
}

static double now(void) {
    struct timespec at;
    real_time(CLOCK_MONOTONIC, &at);
    return at.tv_sec + at.tv_nsec * 1e-9;
}

__attribute__((constructor)) static void begin(void) {
    const char *words = getenv("STORM");
    send_message = (SendMessage *)dlsym(RTLD_NEXT, "sendmsg");
    receive_message = (ReceiveMessage *)dlsym(RTLD_NEXT, "recvmsg");
    if (!words) return;
    long seed = number_of(words, "seed=") * 65537 + getpid();
    memcpy(draws, &seed, sizeof draws);
    share_lost = number_of(words, "lost=");
    share_late = number_of(words, "late=");
    share_mute = number_of(words, "mute=");
    most_slow = number_of(words, "slow=");
    share_refused = number_of(words, "refused=");
    is_old = number_of(words, "old=") > 0;
    ahead = number_of(words, "clock=");
}

static double chance(void) {
    return erand48(draws);
}

// Holds back a datagram that a buffer has. Most wait much less than the longest time.
static int hold_back(int file, const struct msghdr *message, size_t size) {
    int at = 0;
    while (at < MOST_LATE && held[at]) at++;
    if (at == MOST_LATE || message->msg_iovlen != 1 || size > MOST_BYTES) return 0;
    if (message->msg_controllen > sizeof held[0]->control) return 0;
    struct late *it = held[at] = calloc(1, sizeof *it);
    if (!it) return 0;
    double share = chance();
    *it = (struct late){.due = now() + share * share * MOST_SECONDS_LATE, .file = file, .flags = message->msg_flags};
    it->size = size, it->from_size = message->msg_namelen, it->control_size = message->msg_controllen;
    if (it->from_size) memcpy(&it->from, message->msg_name, it->from_size);
    memcpy(it->control, message->msg_control, it->control_size);
    memcpy(it->data, message->msg_iov[0].iov_base, size);
    return 1;
}

// Hands out a datagram of this socket whose time has come. Returns its length, or -1.
static ssize_t hand_out(int file, struct msghdr *message) {
    double time = now();
    for (int at = 0; at < MOST_LATE; at++) {
        struct late *it = held[at];
        if (!it || it->file != file || it->due > time) continue;
        if (message->msg_iovlen != 1 || message->msg_iov[0].iov_len < it->size) continue;
        if (message->msg_controllen < it->control_size || message->msg_namelen < it->from_size) continue;
        ssize_t size = (ssize_t)it->size;
        memcpy(message->msg_iov[0].iov_base, it->data, it->size);
        if (it->from_size) memcpy(message->msg_name, &it->from, it->from_size);
        memcpy(message->msg_control, it->control, it->control_size);
        message->msg_namelen = it->from_size, message->msg_controllen = it->control_size;
        message->msg_flags = it->flags;
        free(it);
        held[at] = NULL;
        return size;
    }
    return -1;
}

static ssize_t receive_datagram(int file, struct msghdr *message, int flags) {
    socklen_t name_size = message->msg_namelen;
    size_t control_size = message->msg_controllen;
    pthread_mutex_lock(&lock);
    ssize_t size = hand_out(file, message);
    while (size < 0) {
        message->msg_namelen = name_size, message->msg_controllen = control_size;
        size = receive_message(file, message, flags);
        if (size < 0 || chance() >= share_late || !hold_back(file, message, (size_t)size)) break;
        size = -1;
    }
    pthread_mutex_unlock(&lock);
    return size;
}

static ssize_t send_datagram(int file, const struct msghdr *message, int flags, size_t size) {
    pthread_mutex_lock(&lock);
    double *until = &mute_until[file % MOST_SOCKETS];
    has_begun = 1;
    if (chance() < share_mute) *until = now() + chance() * SECONDS_OF_MUTE;
    int is_lost = now() < *until || chance() < share_lost;
    pthread_mutex_unlock(&lock);
    return is_lost ? (ssize_t)size : send_message(file, message, flags);
}

// Gives some requests a kind that the kernel does not know, so it refuses them, and does the others.
static void spoil(char *data, size_t size) {
    int left = (int)size;
    for (struct nlmsghdr *it = (void *)data; NLMSG_OK(it, (unsigned)left); it = NLMSG_NEXT(it, left)) {
        // of four kinds in a row, the third one asks, and the fourth is not there
        int is_write = has_begun && it->nlmsg_type >= RTM_BASE && it->nlmsg_type % 4 < 2;
        int is_new = it->nlmsg_type >= RTM_NEWNEXTHOP && it->nlmsg_type <= RTM_GETNEXTHOP;
        if ((is_old && is_new) || (is_write && chance() < share_refused)) it->nlmsg_type = NO_REQUEST;
    }
}

static ssize_t write_to_kernel(int file, const struct msghdr *message, int flags, size_t size) {
    char *copy = size <= MOST_BATCH ? malloc(size) : NULL;
    if (!copy) return send_message(file, message, flags);
    struct iovec whole = {copy, size};
    struct msghdr spoilt = *message;
    pthread_mutex_lock(&lock);
    double wait = chance() * most_slow;
    char *to = copy;
    for (size_t part = 0; part < message->msg_iovlen; part++)
        to = mempcpy(to, message->msg_iov[part].iov_base, message->msg_iov[part].iov_len);
    spoil(copy, size);
    pthread_mutex_unlock(&lock);
    usleep(wait * 1e6);
    spoilt.msg_iov = &whole;
    spoilt.msg_iovlen = 1;
    ssize_t sent = send_message(file, &spoilt, flags);
    free(copy);
    return sent;
}

static int option_of(int file, int name) {
    int value = 0;
    socklen_t length = sizeof value;
    getsockopt(file, SOL_SOCKET, name, &value, &length);
    return value;
}

static int is_for_datagrams(int file) {
    int kind = option_of(file, SO_TYPE);
    return option_of(file, SO_DOMAIN) == AF_INET6 && (kind == SOCK_DGRAM || kind == SOCK_RAW);
}

ssize_t sendmsg(int file, const struct msghdr *message, int flags) {
    size_t size = 0;
    for (size_t part = 0; part < message->msg_iovlen; part++) size += message->msg_iov[part].iov_len;
    if (option_of(file, SO_DOMAIN) == AF_NETLINK) return write_to_kernel(file, message, flags, size);
    if (is_for_datagrams(file)) return send_datagram(file, message, flags, size);
    return send_message(file, message, flags);
}

ssize_t recvmsg(int file, struct msghdr *message, int flags) {
    return is_for_datagrams(file) ? receive_datagram(file, message, flags) : receive_message(file, message, flags);
}

ssize_t sendto(int file, const void *data, size_t size, int flags, const struct sockaddr *to, socklen_t to_size) {
    struct iovec part = {(void *)data, size};
    return sendmsg(file, &(struct msghdr){(void *)to, to ? to_size : 0, &part, 1, NULL, 0, 0}, flags);
}

ssize_t send(int file, const void *data, size_t size, int flags) {
    return sendto(file, data, size, flags, NULL, 0);
}

int clock_gettime(clockid_t clock, struct timespec *at) {
    int status = real_time(clock, at);
    if (!status && clock == CLOCK_REALTIME) at->tv_sec += (time_t)ahead;
    return status;
}
