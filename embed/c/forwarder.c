#include <pthread.h>
#include <revroute.h>
#include <stdatomic.h>
#include <stdio.h>
#include <unistd.h>

enum { MOST_THREADS = 64, STEPS = 100000, ROOM = 8 };

static atomic_int is_over;

/* Follows node 2 until the changes are over, and returns how long its last route is. */
static void *forward(void *reader) {
    uint32_t nodes[ROOM];
    size_t length = 0;
    for (int is_last = 0; !is_last;) {
        is_last = is_over; /* what is read after the end is the last hop of each node */
        revroute_reader_walk(reader, 2, nodes, ROOM, &length);
    }
    return (void *)length;
}

int main(void) {
    revroute session = REVROUTE_NEW;
    revroute_link links[] = {{1, 0}, {2, 1}, {2, 3}, {3, 4}, {4, 0}};
    revroute_edit feed[] = {{REVROUTE_CUT, 1, 0}, {REVROUTE_JOIN, 1, 0}, {REVROUTE_CUT, 4, 0}, {REVROUTE_JOIN, 4, 0}};
    revroute_reader readers[MOST_THREADS] = {REVROUTE_NO_READER};
    pthread_t threads[MOST_THREADS];
    revroute_round round;
    revroute_refusal why;
    long cores = sysconf(_SC_NPROCESSORS_ONLN), count = cores < MOST_THREADS ? cores : MOST_THREADS;
    if (revroute_open(&session, 5, 0, links, 5, &round, &why) != REVROUTE_ANSWERED) return 1;
    for (long at = 0; at < count; at++) {
        if (revroute_reader_open(&session, &readers[at]) != REVROUTE_ANSWERED) return 1;
        if (pthread_create(&threads[at], NULL, forward, &readers[at])) return 1;
    }
    for (int step = 0; step < STEPS; step++)
        if (revroute_change(&session, &feed[step % 4], 1, &round, &why) != REVROUTE_ANSWERED) return 1;
    is_over = 1;
    for (long at = 0; at < count; at++) {
        void *length;
        pthread_join(threads[at], &length);
        revroute_reader_close(&readers[at]);
        if ((size_t)length != 3) return 1;
    }
    revroute_close(&session);
    puts("each thread ends with the route 2 1 0");
}
