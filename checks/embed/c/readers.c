/* Threads read while a session changes without pause. What they read is compared with a log of the pushes.
 *
 * usage: readers [CHANGES]
 *
 * 1, 2, 4 and 8 threads read next hops and walk, each with its own reader. Meanwhile the main thread makes random
 * changes to a random mesh. Links fail and come back, one or several at a time, by calls and by lines. The
 * destination moves. A larger or smaller network replaces the old one. Some changes are refused. After each change
 * the main thread asks its own reader for the changed hops, and logs all pushes in push order. Now and then it opens a
 * reader after a change, from which the threads learn.
 *
 * Each thread keeps what it has read. For each read it keeps how many changes were complete before it, and how many
 * had begun after it. At the end the program checks:
 *
 * - For the reads of a thread there are moments, in the order of the reads, at which the table had the hop that was
 *   read. Each moment is after the pushes of the complete changes, and before those of changes that had not begun.
 * - A walk ends at the destination or at a node that is cut off. If one change was made meanwhile, it visits no node
 *   more than twice, and if none was made, no node more than once.
 * - After the last change each thread reads the hops of the session.
 *
 * It prints how many hops were compared, and how many of them were read while a change was made.
 */
#define _DEFAULT_SOURCE
#include "lines.h"

#include <pthread.h>
#include <revroute.h>
#include <stdatomic.h>
#include <stdbool.h>

#ifdef PLANT
#include "planted_readers.h"
#endif

enum { SIDE = 8, NODES = SIDE * SIDE, LINKS = 2 * SIDE * (SIDE - 1), MOST_THREADS = 8, MOST_EDITS = 6 };
/* A longer walk visits some node three times. A thread keeps this many numbers; the first three of a read are not
 * nodes. */
enum { ROOM = 2 * NODES, KEPT = 1 << 20, HEAD = 3 };

static uint32_t draw_of(uint64_t *drawn, uint32_t below) {
    *drawn = *drawn * 6364136223846793005u + 1442695040888963407u;
    return (uint32_t)(*drawn >> 33) % below;
}

static uint64_t drawn = 20261127;
static uint32_t draw(uint32_t below) { return draw_of(&drawn, below); }

/* The log: the hops that a node had, each with the push that made it, and the number of pushes after each change. */
typedef struct {
    uint32_t push, hop;
} entry;

static struct {
    entry *entries;
    size_t count, room;
} hops_of[NODES];

static uint32_t changes, pushes, *pushes_by;
static atomic_uint begun, done;
static atomic_bool is_over;

static void write_down(uint32_t push, uint32_t node, uint32_t hop) {
    if (hops_of[node].count == hops_of[node].room) {
        hops_of[node].room = 2 * hops_of[node].room + 64;
        hops_of[node].entries = grown(hops_of[node].entries, hops_of[node].room * sizeof(entry));
    }
    hops_of[node].entries[hops_of[node].count++] = (entry){push, hop};
}

/* A reading thread. */
typedef struct {
    pthread_t thread;
    revroute_reader reader;
    uint64_t drawn;
    uint32_t *kept, settled[NODES];
    size_t length;
} one;

/* Keeps nodes that were read, each followed by its hop. There is room for the reads of the whole run. */
static void keep(one *it, uint32_t before, uint32_t after, const uint32_t *nodes, uint32_t count) {
    if (KEPT - it->length < HEAD + (size_t)count || (uint64_t)it->length * changes > (uint64_t)KEPT * after) return;
    uint32_t *place = it->kept + it->length;
    place[0] = before, place[1] = after, place[2] = count;
    memcpy(place + HEAD, nodes, count * sizeof *nodes);
    it->length += HEAD + count;
}

static void read_hop(one *it) {
    uint32_t read[2] = {draw_of(&it->drawn, NODES), 0}, before = done;
    read[1] = revroute_reader_next_hop(&it->reader, read[0]);
    keep(it, before, begun, read, 2);
}

static void walk(one *it) {
    static const uint32_t untouched = REVROUTE_NO_HOP;
    uint32_t nodes[ROOM + 1], count = 0, before = done;
    size_t length;
    for (uint32_t at = 0; at <= ROOM; at++) nodes[at] = untouched;
    uint32_t status = revroute_reader_walk(&it->reader, draw_of(&it->drawn, NODES), nodes, ROOM, &length);
    uint32_t after = begun;
    while (nodes[count] != untouched) count++;
    if (count == 0 || length != (status == REVROUTE_NO_ROUTE ? 0 : status == REVROUTE_TOO_SHORT ? ROOM + 1 : count))
        stop("a walk has another length than nodes");
    if (status == REVROUTE_ANSWERED) nodes[count++] = REVROUTE_HERE;
    else if (status == REVROUTE_NO_ROUTE) nodes[count++] = REVROUTE_CUT_OFF;
    else if (status != REVROUTE_TOO_SHORT) stop("a walk has an end that it cannot have");
    if (status == REVROUTE_TOO_SHORT && after - before <= 1) stop("a walk beside one change does not end");
    keep(it, before, after, nodes, count);
}

/* Continues with a copy of the reader, which knows what the reader knew. */
static void change_over(one *it) {
    revroute_reader copy = REVROUTE_NO_READER;
    if (revroute_reader_copy(&it->reader, &copy) != REVROUTE_ANSWERED) stop("no copy of a reader");
    revroute_reader_close(&it->reader);
    it->reader = copy;
}

/* The reader that the main thread has handed over, and how many changes were complete when it was opened. */
static struct {
    pthread_mutex_t lock;
    revroute_reader latest;
    uint32_t after;
} handed = {.lock = PTHREAD_MUTEX_INITIALIZER};

static void hand_over(revroute *session, uint32_t after) {
    pthread_mutex_lock(&handed.lock);
    if (revroute_reader_open(session, &handed.latest) != REVROUTE_ANSWERED) stop("no reader to hand over");
    handed.after = after;
    pthread_mutex_unlock(&handed.lock);
}

/* Learns from the reader that was handed over. Its changes are complete. */
static void learn(one *it) {
    pthread_mutex_lock(&handed.lock);
    uint32_t status = revroute_reader_learn(&it->reader, &handed.latest), after = handed.after;
    pthread_mutex_unlock(&handed.lock);
    if (status != REVROUTE_ANSWERED || done < after) stop("a reader does not learn");
}

static void *read_along(void *of) {
    one *it = of;
    while (!is_over) {
        for (int at = 0; at < 8; at++) walk(it), read_hop(it);
        if (draw_of(&it->drawn, 16) == 0) change_over(it);
        if (draw_of(&it->drawn, 16) == 0) learn(it);
    }
    for (uint32_t x = 0; x < NODES; x++) it->settled[x] = revroute_reader_next_hop(&it->reader, x);
    return NULL;
}

/* The network: links[0..up] are up, links[up..count] are down. */
typedef struct {
    revroute session;
    revroute_reader reader;
    uint32_t nodes, count, up;
    revroute_link links[LINKS];
} mesh;

static uint32_t open_mesh(mesh *it) {
    revroute_round round;
    revroute_refusal refusal;
    it->nodes = SIDE * (SIDE / 2 + draw(SIDE / 2 + 1));
    it->count = 0;
    for (uint32_t x = 0; x < it->nodes; x++) {
        if (x % SIDE) it->links[it->count++] = (revroute_link){x, x - 1};
        if (x >= SIDE) it->links[it->count++] = (revroute_link){x, x - SIDE};
    }
    it->up = it->count;
    return revroute_open(&it->session, it->nodes, draw(it->nodes), it->links, it->count, &round, &refusal);
}

/* Makes a link fail or come back. Most links are up. */
static revroute_edit draw_edit(mesh *it) {
    uint32_t down = it->count - it->up;
    bool fails = down == 0 || (down < it->count / 4 && draw(2));
    uint32_t at = fails ? draw(it->up) : it->up + draw(down), border = fails ? --it->up : it->up++;
    revroute_link link = it->links[at];
    it->links[at] = it->links[border];
    it->links[border] = link;
    return (revroute_edit){fails ? REVROUTE_CUT : REVROUTE_JOIN, link.tail, link.head};
}

static uint32_t change_by_line(mesh *it) {
    char text[64];
    uint8_t answer[REVROUTE_LEAST_ROOM];
    revroute_edit edit = draw_edit(it);
    const char *kind = edit.kind == REVROUTE_CUT ? "cut" : "join";
    int size = snprintf(text, sizeof text, "[\"%s\",%d,%d]", kind, (int)edit.u, (int)edit.v);
    size_t length;
    return revroute_answer(&it->session, (const uint8_t *)text, (size_t)size, answer, sizeof answer, &length);
}

static uint32_t make_change(mesh *it) {
    revroute_edit edits[MOST_EDITS];
    revroute_round round;
    revroute_refusal refusal;
    uint32_t kind = draw(512);
    if (kind == 0) return open_mesh(it);
    if (kind < 8) return revroute_move_dest(&it->session, draw(it->nodes), &round, &refusal);
    if (kind < 24) return revroute_move_dest(&it->session, it->nodes + draw(9), &round, &refusal);
    if (kind < 64) return change_by_line(it);
    size_t count = kind < 128 ? 2 + draw(MOST_EDITS - 1) : 1;
    for (size_t at = 0; at < count; at++) edits[at] = draw_edit(it);
    return revroute_change(&it->session, edits, count, &round, &refusal);
}

/* Logs the pushes of a change, and compares the changed hops with those of the main thread's reader. */
static void log_change(mesh *it) {
    uint32_t nodes[NODES];
    size_t count;
    if (revroute_changed(&it->session, nodes, NODES, &count) != REVROUTE_ANSWERED) stop("there are too many of them");
    for (size_t at = 0; at < count; at++) {
        uint32_t hop = revroute_next_hop(&it->session, nodes[at]);
        if (hop == REVROUTE_NO_SUCH_NODE) hop = REVROUTE_CUT_OFF;
        if (revroute_reader_next_hop(&it->reader, nodes[at]) != hop) stop("after a change a reader has another hop");
        write_down(++pushes, nodes[at], hop);
    }
}

static void change_all(mesh *it) {
    for (uint32_t at = 1; at <= changes; at++) {
        begun = at;
        uint32_t status = at == 1 ? open_mesh(it) : make_change(it);
        done = at;
        if (status == REVROUTE_ANSWERED) log_change(it);
        else if (status != REVROUTE_REFUSED) stop("a change is not made");
        pushes_by[at] = pushes;
        if (at % 16 == 0) hand_over(&it->session, at);
    }
}

/* The first push between `least` and `most` after which the node has the hop. */
static uint32_t moment_of(uint32_t node, uint32_t hop, uint32_t least, uint32_t most) {
    const entry *all = hops_of[node].entries;
    size_t low = 0, high = hops_of[node].count;
    while (high - low > 1) {
        size_t middle = low + (high - low) / 2;
        if (all[middle].push <= least) low = middle;
        else high = middle;
    }
    for (size_t at = low; at < hops_of[node].count && all[at].push <= most; at++)
        if (all[at].hop == hop) return all[at].push > least ? all[at].push : least;
    stop("a hop was read that the node had at no such moment");
}

static size_t compared, beside;

/* How often a walk visits the node that it visits most. */
static uint32_t most_visits(const uint32_t *nodes, uint32_t count) {
    uint32_t visits[NODES] = {0}, most = 0;
    for (uint32_t at = 0; at < count; at++)
        if (nodes[at] < NODES && ++visits[nodes[at]] > most) most = visits[nodes[at]];
    return most;
}

static void compare(const one *it) {
    uint32_t moment = 0;
    for (size_t at = 0; at < it->length; at += HEAD + it->kept[at + 2]) {
        uint32_t before = it->kept[at], after = it->kept[at + 1], count = it->kept[at + 2];
        const uint32_t *nodes = it->kept + at + HEAD;
        if (pushes_by[before] > moment) moment = pushes_by[before];
        for (uint32_t next = 1; next < count; next++)
            moment = moment_of(nodes[next - 1], nodes[next], moment, pushes_by[after]);
        uint32_t made = after - before;
        if (made <= 1 && most_visits(nodes, count) > 1 + made) stop("a walk visits a node too often");
        compared += count - 1;
        beside += after == before ? 0 : count - 1;
    }
}

static void begin(mesh *it, one *all, size_t threads) {
    pushes = 0;
    begun = done = 0;
    is_over = false;
    for (uint32_t x = 0; x < NODES; x++) {
        hops_of[x].count = 0;
        write_down(0, x, REVROUTE_CUT_OFF);
    }
    if (revroute_reader_open(&it->session, &it->reader) != REVROUTE_ANSWERED) stop("there is no reader");
    hand_over(&it->session, 0);
    for (size_t at = 0; at < threads; at++) {
        all[at] = (one){.reader = REVROUTE_NO_READER, .drawn = at, .kept = grown(NULL, KEPT * sizeof(uint32_t))};
        uint32_t status = at % 2 ? revroute_reader_copy(&it->reader, &all[at].reader)
                                 : revroute_reader_open(&it->session, &all[at].reader);
        if (status != REVROUTE_ANSWERED) stop("there is no reader for a thread");
        if (pthread_create(&all[at].thread, NULL, read_along, &all[at])) stop("a thread could not be started");
    }
}

static void run(size_t threads) {
    mesh it = {.session = REVROUTE_NEW, .reader = REVROUTE_NO_READER};
    one all[MOST_THREADS];
    begin(&it, all, threads);
    change_all(&it);
    is_over = true;
    for (size_t at = 0; at < threads; at++) {
        pthread_join(all[at].thread, NULL);
        for (uint32_t x = 0; x < NODES; x++) {
            uint32_t hop = x < it.nodes ? revroute_next_hop(&it.session, x) : REVROUTE_CUT_OFF;
            if (all[at].settled[x] != hop) stop("a thread ends with another hop than the session");
        }
        compare(&all[at]);
        free(all[at].kept);
    }
    revroute_close(&it.session);
    for (size_t at = 0; at < threads; at++) revroute_reader_close(&all[at].reader);
    revroute_reader_close(&it.reader);
    revroute_reader_close(&handed.latest);
}

int main(int count, char **words) {
    changes = count > 1 ? (uint32_t)strtoul(words[1], NULL, 10) : 100000;
    pushes_by = grown(NULL, (changes + 1) * sizeof *pushes_by);
    pushes_by[0] = 0;
    for (size_t threads = 1; threads <= MOST_THREADS; threads *= 2) run(threads);
    for (uint32_t x = 0; x < NODES; x++) free(hops_of[x].entries);
    free(pushes_by);
    printf("%zu %zu\n", compared, beside);
}
