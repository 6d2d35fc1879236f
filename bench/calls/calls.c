/* Times the typed calls of revroute.h, and each change as a call and as a line. As in timing.rs it prints nanoseconds
 * for each call, in the best of several runs. */
#include <pthread.h>
#include <revroute.h>
#include <stdatomic.h>
#include <stdbool.h>
#include <stdio.h>
#include <stdlib.h>
#include <string.h>
#include <time.h>

enum { RUNS = 9, THREADS = 4, ROUNDS = 500, TABLES = 200, NODES = 4096, LINKS = 32768, CHANGES = 4096, TEXT = 40 };

static uint32_t nodes, dest, order[NODES], table[NODES], pushed[NODES];
static revroute_link links[LINKS];
static revroute_edit changes[CHANGES];
static char lines[CHANGES][TEXT];
static size_t link_count, change_count;
static pthread_barrier_t together;
static volatile uint32_t kept;
static atomic_bool is_over;

static void stop(const char *why) {
    fprintf(stderr, "%s\n", why);
    exit(1);
}

static void read_input(void) {
    char word[8];
    uint32_t u, v;
    while (scanf("%7s %u %u", word, &u, &v) == 3) {
        if (!strcmp(word, "net")) nodes = u, dest = v;
        else if (!strcmp(word, "link")) links[link_count++] = (revroute_link){u, v};
        else {
            changes[change_count] = (revroute_edit){*word == 'c' ? REVROUTE_CUT : REVROUTE_ADD, u, v};
            sprintf(lines[change_count++], "[\"%s\",%u,%u]", word, u, v);
        }
    }
}

static void shuffle(void) {
    uint64_t drawn = 1;
    for (uint32_t x = 0; x < nodes; x++) order[x] = x;
    for (uint32_t at = nodes - 1; at; at--) {
        drawn = drawn * 6364136223846793005u + 1442695040888963407u;
        uint32_t other = (uint32_t)(drawn >> 33) % (at + 1), node = order[at];
        order[at] = order[other];
        order[other] = node;
    }
}

static double now(void) {
    struct timespec time;
    clock_gettime(CLOCK_MONOTONIC, &time);
    return (double)time.tv_sec * 1e9 + (double)time.tv_nsec;
}

/* The network of the first `count` nodes, and the links between them. */
static revroute opened_first(uint32_t count) {
    static revroute_link some[LINKS];
    revroute session = REVROUTE_NEW;
    revroute_round round;
    revroute_refusal refusal;
    size_t found = 0;
    for (size_t at = 0; at < link_count; at++)
        if (links[at].tail < count && links[at].head < count) some[found++] = links[at];
    uint32_t status = revroute_open(&session, count, dest, some, found, &round, &refusal);
    if (status != REVROUTE_ANSWERED) stop("there is no network");
    return session;
}

static revroute opened(void) {
    return opened_first(nodes);
}

static void ask(revroute *session) {
    uint32_t sum = 0;
    for (int round = 0; round < ROUNDS; round++)
        for (uint32_t at = 0; at < nodes; at++) sum += revroute_next_hop(session, order[at]);
    kept = sum;
}

static void read_hops(revroute_reader *reader) {
    uint32_t sum = 0;
    for (int round = 0; round < ROUNDS; round++)
        for (uint32_t at = 0; at < nodes; at++) sum += revroute_reader_next_hop(reader, order[at]);
    kept = sum;
}

/* A thread that asks its own network, or its reader if it has one. */
typedef struct {
    revroute session;
    revroute_reader reader;
    double begin, end;
} asked;

static void *ask_as_one(void *of) {
    asked *one = of;
    pthread_barrier_wait(&together);
    one->begin = now();
    if (one->reader.at) read_hops(&one->reader);
    else ask(&one->session);
    one->end = now();
    return NULL;
}

/* The time of several threads in parallel, from the first start to the last end. */
static double ask_together(asked *all, unsigned count) {
    pthread_t threads[THREADS];
    double begin = 1e18, end = 0;
    pthread_barrier_init(&together, NULL, count);
    for (unsigned at = 0; at < count; at++)
        if (pthread_create(&threads[at], NULL, ask_as_one, &all[at])) stop("no thread");
    for (unsigned at = 0; at < count; at++) {
        pthread_join(threads[at], NULL);
        if (all[at].begin < begin) begin = all[at].begin;
        if (all[at].end > end) end = all[at].end;
    }
    pthread_barrier_destroy(&together);
    return end - begin;
}

/* The best time of a hop, over all threads. */
static double best_together(asked *all, unsigned count) {
    double least = 1e18;
    for (int run = 0; run < RUNS; run++) {
        double spent = ask_together(all, count);
        if (spent < least) least = spent;
    }
    return least / ROUNDS / nodes / count;
}

static void tell_tables(revroute *session) {
    size_t length;
    for (int at = 0; at < TABLES; at++)
        if (revroute_hops(session, table, NODES, &length) != REVROUTE_ANSWERED) stop("there are no hops");
    kept = table[nodes - 1];
}

/* Asks for the ways of each node. */
static void ask_ways(revroute *session) {
    size_t length, sum = 0;
    for (int round = 0; round < ROUNDS; round++)
        for (uint32_t at = 0; at < nodes; at++) {
            revroute_ways(session, order[at], pushed, NODES, &length);
            sum += length;
        }
    kept = (uint32_t)sum;
}

static void tell_all_ways(revroute *session) {
    static size_t starts[NODES + 1];
    static uint32_t ways[LINKS];
    size_t length;
    for (int at = 0; at < TABLES; at++)
        if (revroute_all_ways(session, starts, NODES + 1, ways, LINKS, &length) != REVROUTE_ANSWERED) stop("there are no ways");
    kept = ways[length - 1];
}

/* Asks what to push in both phases to routers that hold all ways, or none. */
static void tell_phases(revroute *session, bool hold_all) {
    static size_t starts[NODES + 1];
    static uint32_t ways[LINKS], pushes[2 * NODES + LINKS];
    size_t count = 0, length;
    memset(starts, 0, sizeof starts);
    if (hold_all && revroute_all_ways(session, starts, NODES + 1, ways, LINKS, &count) != REVROUTE_ANSWERED) stop("there are no ways");
    for (int at = 0; at < TABLES; at++) {
        if (revroute_shrink(session, starts, nodes + 1, ways, count, pushes, 2 * NODES + LINKS, &length) != REVROUTE_ANSWERED) stop("nothing shrinks");
        if (revroute_grow(session, starts, nodes + 1, ways, count, pushes, 2 * NODES + LINKS, &length) != REVROUTE_ANSWERED) stop("nothing grows");
    }
    kept = (uint32_t)length;
}

static void tell_no_phases(revroute *session) {
    tell_phases(session, true);
}

static void tell_all_phases(revroute *session) {
    tell_phases(session, false);
}

/* Fills the table with the settled hops, or with hops that all differ from them. */
static void fill_table(revroute *session, uint32_t count, bool differs) {
    size_t length;
    if (revroute_hops(session, table, NODES, &length) != REVROUTE_ANSWERED) stop("there are no hops");
    for (uint32_t x = 0; differs && x < count; x++)
        table[x] = table[x] == REVROUTE_CUT_OFF ? REVROUTE_HERE : REVROUTE_CUT_OFF;
}

/* The best time of the pushes of a table of `count` nodes, in which nothing or everything differs. */
static double best_pushes(uint32_t count, bool differs) {
    revroute session = opened_first(count);
    double least = 1e18;
    size_t length = 0;
    fill_table(&session, count, differs);
    for (int run = 0; run < RUNS; run++) {
        double begin = now();
        for (int at = 0; at < TABLES; at++) {
            uint32_t status = revroute_pushes(&session, table, count, pushed, NODES, &length);
            if (status != REVROUTE_ANSWERED) stop("there are no pushes");
        }
        double spent = now() - begin;
        if (spent < least) least = spent;
    }
    if (length != (differs ? count : 0)) stop("another number of hops is pushed than differs");
    revroute_close(&session);
    return least / TABLES;
}

/* Makes the changes, and asks for a hop after each. */
static void change(revroute *session) {
    revroute_round round;
    revroute_refusal refusal;
    for (size_t at = 0; at < change_count; at++) {
        if (revroute_change(session, &changes[at], 1, &round, &refusal) != REVROUTE_ANSWERED) stop("a change is refused");
        kept = revroute_next_hop(session, dest);
    }
}

static void change_by_lines(revroute *session) {
    uint8_t answer[REVROUTE_LEAST_ROOM];
    size_t length;
    for (size_t at = 0; at < change_count; at++) {
        if (revroute_answer(session, (const uint8_t *)lines[at], strlen(lines[at]), answer, sizeof answer, &length) || *answer != 't') stop("a line is refused");
        kept = revroute_next_hop(session, dest);
    }
}

/* The reader of ways, of the network that was made last. */
static revroute_way_reader way_reader;

/* Opens a reader of ways before the time counts. */
static void read_ways_by_one(revroute *session, revroute_reader *reader) {
    (void)reader;
    if (revroute_way_reader_open(session, &way_reader) != REVROUTE_ANSWERED) stop("there is no reader of ways");
}

/* Reads a way of each node, with another choice each time. */
static void read_ways(revroute *session) {
    uint32_t sum = 0, choice = 0;
    (void)session;
    for (int round = 0; round < ROUNDS; round++)
        for (uint32_t at = 0; at < nodes; at++) sum += revroute_way_reader_way(&way_reader, order[at], choice += 0x9e3779b9u);
    kept = sum;
}

/* Opens a reader of the session before the time counts. */
static void read_by_one(revroute *session, revroute_reader *reader) {
    if (revroute_reader_open(session, reader) != REVROUTE_ANSWERED) stop("there is no reader");
}

/* Asks for a distance before the time counts, so that changes keep distances. */
static void ask_distance(revroute *session, revroute_reader *reader) {
    (void)reader;
    kept = revroute_distance(session, dest);
}

/* The best time of doing something with a new network, after a preparation if there is one. */
static double best_after(void (*prepare)(revroute *, revroute_reader *), void (*what)(revroute *)) {
    double least = 1e18;
    for (int run = 0; run < RUNS; run++) {
        revroute session = opened();
        revroute_reader reader = REVROUTE_NO_READER;
        if (prepare) prepare(&session, &reader);
        double begin = now();
        what(&session);
        double spent = now() - begin;
        if (spent < least) least = spent;
        revroute_close(&session);
        revroute_reader_close(&reader);
    }
    return least;
}

static double best(void (*what)(revroute *)) {
    return best_after(NULL, what);
}

/* Makes all changes again and again, each time on the original network. */
static void *change_on(void *session) {
    revroute_round round;
    revroute_refusal refusal;
    while (!is_over) {
        change(session);
        if (revroute_open(session, nodes, dest, links, link_count, &round, &refusal) != REVROUTE_ANSWERED) stop("there is no network");
    }
    return NULL;
}

/* The time of a hop by readers on a thread each, while nothing changes, or while all changes are made repeatedly. */
static double best_read(unsigned count, bool is_busy) {
    asked all[THREADS] = {{.session = REVROUTE_NEW}};
    revroute session = opened();
    pthread_t writer;
    for (unsigned at = 0; at < count; at++)
        if (revroute_reader_open(&session, &all[at].reader) != REVROUTE_ANSWERED) stop("there is no reader");
    is_over = false;
    if (is_busy && pthread_create(&writer, NULL, change_on, &session)) stop("no thread");
    double least = best_together(all, count);
    is_over = true;
    if (is_busy) pthread_join(writer, NULL);
    for (unsigned at = 0; at < count; at++) revroute_reader_close(&all[at].reader);
    revroute_close(&session);
    return least;
}

/* The same by networks instead of readers, with a thread for each. */
static double best_asked(unsigned count) {
    asked all[THREADS] = {{.session = REVROUTE_NEW}};
    for (unsigned at = 0; at < count; at++) all[at].session = opened();
    double least = best_together(all, count);
    for (unsigned at = 0; at < count; at++) revroute_close(&all[at].session);
    return least;
}

/* The sum over the next hops after all changes. */
static uint32_t summed(void) {
    revroute session = opened();
    uint32_t sum = 0;
    change(&session);
    for (uint32_t x = 0; x < nodes; x++) {
        uint32_t hop = revroute_next_hop(&session, x);
        sum += (hop < nodes ? hop : UINT32_MAX) * x;
    }
    revroute_close(&session);
    return sum;
}

int main(void) {
    read_input();
    shuffle();
    double count = (double)nodes * ROUNDS;
    printf("hop %.3f\n", best(ask) / count);
    printf("hop4 %.3f\n", best_asked(THREADS));
    printf("reader %.3f\n", best_read(1, false));
    printf("reader4 %.3f\n", best_read(THREADS, false));
    printf("reader-busy %.3f\n", best_read(1, true));
    printf("reader3-busy %.3f\n", best_read(THREADS - 1, true));
    printf("way-reader %.3f\n", best_after(read_ways_by_one, read_ways) / count);
    printf("hops %.0f\n", best(tell_tables) / TABLES);
    printf("ways %.3f\n", best(ask_ways) / count);
    printf("all-ways %.0f\n", best(tell_all_ways) / TABLES);
    printf("phases-none %.0f\n", best(tell_no_phases) / TABLES);
    printf("phases %.0f\n", best(tell_all_phases) / TABLES);
    printf("pushes-none %.0f\n", best_pushes(nodes, false));
    printf("pushes %.0f\n", best_pushes(nodes, true));
    printf("pushes-half %.0f\n", best_pushes(nodes / 2, true));
    printf("pushes-quarter %.0f\n", best_pushes(nodes / 4, true));
    printf("change %.0f\n", best(change) / (double)change_count);
    printf("change-read %.0f\n", best_after(read_by_one, change) / (double)change_count);
    printf("change-way-read %.0f\n", best_after(read_ways_by_one, change) / (double)change_count);
    revroute_way_reader_close(&way_reader);
    printf("change-ways %.0f\n", best_after(ask_distance, change) / (double)change_count);
    printf("line %.0f\n", best(change_by_lines) / (double)change_count);
    printf("table %u\n", summed());
}
