/* Readers of ways: what they read, without memory, without room, from threads, and whether all memory is freed.
 *
 * First a small network is asked whose ways are known, with each room, with the numbers of no nodes, and with a null
 * reader. Then a reader is opened and copied with the Nth allocation refused, for N = 1, 2, .. until no allocation is
 * refused. A call that reports that it has no memory must not write a handle. The session and its readers are closed in
 * each order, and no block may be left.
 *
 * Then 1, 2 and 4 threads read ways, each with its own reader, while the main thread makes random changes to a mesh by
 * calls and by lines. After each change the readers of the main thread must have the first ways that revroute_ways
 * writes. Each way that a thread reads must be a neighbour, and not be there twice. At the end each thread learns of the
 * last change. It then follows ways that it chooses at random, and must arrive from each node that has a way.
 *
 * It prints how many allocations were refused, how many lists were compared, and how many ways threads read during a
 * change.
 */
#define _DEFAULT_SOURCE
#include "fence.h"
#include "refusing_heap.h"

#include <pthread.h>
#include <revroute.h>
#include <stdatomic.h>
#include <stdbool.h>

enum { NODES = 10, MOST_WAYS = 5, MOST = 4096, FENCED = 1 << 16, UNTOUCHED = 77 };

static uint32_t *place_end;
static long refusals;

/* Node 7 has a link to each of the nodes 1 to 6, and these have one to the destination. Node 9 has no link. */
static const revroute_link links[] = {{1, 0}, {2, 0}, {3, 0}, {4, 0}, {5, 0}, {6, 0}, {7, 1}, {7, 2},
                                      {7, 3}, {7, 4}, {7, 5}, {7, 6}, {8, 7}, {8, 0}};

/* The ways of a node are these. Each room from 0 on is tried, and nothing after it may be written. */
static void expect(revroute_way_reader *reader, uint32_t node, size_t count, const uint32_t *ways) {
    for (size_t room = 0; room <= MOST_WAYS + 1; room++) {
        uint32_t *place = place_end - room;
        for (size_t at = 0; at < room; at++) place[at] = UNTOUCHED;
        size_t length = 99, written = room < count ? 0 : count;
        revroute_status status = revroute_way_reader_ways(reader, node, place, room, &length);
        if (status != (room < count ? REVROUTE_TOO_SHORT : REVROUTE_ANSWERED)) stop("ways have another status");
        if (length != count) stop("there is another number of ways");
        for (size_t at = 0; at < room; at++)
            if (place[at] != (at < written ? ways[at] : UNTOUCHED)) stop("there are other ways");
    }
    for (uint32_t choice = 0; choice < 20; choice++)
        if (revroute_way_reader_way(reader, node, choice) != (count ? ways[choice % count] : REVROUTE_CUT_OFF))
            stop("another way is chosen");
    if (count && revroute_way_reader_way(reader, node, UINT32_MAX) != ways[UINT32_MAX % count])
        stop("the greatest number chooses another way");
}

/* A list of ways and its length. */
#define WAYS(...) sizeof((uint32_t[]){__VA_ARGS__}) / sizeof(uint32_t), (uint32_t[]){__VA_ARGS__}

static void expect_first(revroute_way_reader *reader) {
    expect(reader, 0, 0, NULL);
    for (uint32_t node = 1; node <= 6; node++) expect(reader, node, WAYS(0));
    expect(reader, 7, WAYS(1, 2, 3, 4, 5));
    expect(reader, 8, WAYS(0, 7));
    for (uint32_t node = 9; node < MOST; node += 17) expect(reader, node, 0, NULL);
    expect(reader, MOST - 1, 0, NULL);
}

/* What has no ways, and what is no node. */
static void ask_outside(revroute_way_reader *reader, uint32_t hop, revroute_status wanted) {
    static const uint32_t outside[] = {MOST, MOST + 1, REVROUTE_NO_HOP, UINT32_MAX};
    for (size_t at = 0; at < sizeof outside / sizeof *outside; at++)
        for (size_t room = 0; room < 7; room++) {
            size_t length = 99;
            uint32_t *place = place_end - room;
            for (size_t index = 0; index < room; index++) place[index] = UNTOUCHED;
            if (revroute_way_reader_ways(reader, outside[at], place, room, &length) != wanted || length)
                stop("what is no node has ways");
            for (size_t index = 0; index < room; index++)
                if (place[index] != UNTOUCHED) stop("ways are written where there are none");
            if (revroute_way_reader_way(reader, outside[at], 1) != hop) stop("what is no node has a way");
        }
}

/* The null reader. */
static void ask_null(void) {
    revroute_way_reader none = REVROUTE_NO_WAY_READER, other = REVROUTE_NO_WAY_READER;
    ask_outside(&none, REVROUTE_NO_HOP, REVROUTE_NO_NETWORK);
    if (revroute_way_reader_way(&none, 1, 0) != REVROUTE_NO_HOP) stop("no reader has a way");
    if (revroute_way_reader_copy(&none, &other) != REVROUTE_NO_NETWORK || other.at) stop("no reader has a copy");
    if (revroute_way_reader_learn(&none, &other) != REVROUTE_NO_NETWORK || none.at) stop("no reader learns");
    revroute_way_reader_close(&none);
    if (none.at || refusing_held) stop("no reader holds memory");
}

/* Opens a reader in `reader`, or copies `reader` to `other`, with each allocation refused in turn until none is. */
static void make_poor(revroute *session, revroute_way_reader *reader, revroute_way_reader *other) {
    for (long number = 1;; number++) {
        revroute_way_reader was = *reader, other_was = other ? *other : was;
        long held = refusing_held;
        refusing_left = number;
        uint32_t status = other ? revroute_way_reader_copy(reader, other) : revroute_way_reader_open(session, reader);
        int was_refused = refusing_left == 0;
        refusing_left = 0;
        refusals += was_refused;
        if (status == REVROUTE_ANSWERED && !was_refused) return;
        if (status != REVROUTE_NO_MEMORY || !was_refused) stop("a call ends as it cannot end");
        if (reader->at != was.at || (other && other->at != other_was.at)) stop("a call without memory wrote a handle");
        if (other && refusing_held != held) stop("a copy without memory holds another block");
    }
}

static void change(revroute *session, uint32_t kind, uint32_t u, uint32_t v) {
    revroute_round round;
    revroute_refusal refusal;
    revroute_edit edit = {kind, u, v};
    if (revroute_change(session, &edit, 1, &round, &refusal) != REVROUTE_ANSWERED) stop("a change is not made");
}

/* After node 1 has lost its link to the destination, its only link leads to it, so node 1 turns. */
static void change_and_expect(revroute *session, revroute_way_reader *reader, revroute_way_reader *other) {
    change(session, REVROUTE_CUT, 1, 0);
    for (int at = 0; at < 2; at++) {
        expect(at ? other : reader, 1, WAYS(7));
        expect(at ? other : reader, 7, WAYS(2, 3, 4, 5, 6));
    }
    change(session, REVROUTE_JOIN, 1, 0);
    expect(reader, 1, WAYS(0, 7));
    expect(other, 7, WAYS(2, 3, 4, 5, 6));
}

/* Readers that learn from each other, and from null ones. This needs no memory. */
static void learn_all(revroute_way_reader *reader, revroute_way_reader *other) {
    revroute_way_reader none = REVROUTE_NO_WAY_READER;
    void *was = reader->at, *other_was = other->at;
    long held = refusing_held;
    refusing_left = 1;
    if (revroute_way_reader_learn(reader, other) != REVROUTE_ANSWERED) stop("a reader does not learn");
    if (revroute_way_reader_learn(other, reader) != REVROUTE_ANSWERED) stop("a copy does not learn");
    if (revroute_way_reader_learn(reader, &none) != REVROUTE_NO_NETWORK) stop("a reader learns from no reader");
    if (revroute_way_reader_learn(&none, reader) != REVROUTE_NO_NETWORK) stop("no reader learns from a reader");
    if (refusing_left != 1 || refusing_held != held) stop("a reader takes memory to learn");
    refusing_left = 0;
    if (none.at || reader->at != was || other->at != other_was) stop("a handle is written where readers learn");
}

/* A session that is opened before or after its first reader. It is closed with its readers, the one of this number
 * first. */
static void live(int is_open, int first) {
    revroute session = REVROUTE_NEW;
    revroute_way_reader reader = REVROUTE_NO_WAY_READER, other = REVROUTE_NO_WAY_READER;
    revroute_round round;
    revroute_refusal refusal;
    size_t count = sizeof links / sizeof *links;
    if (!is_open) {
        make_poor(&session, &reader, NULL);
        expect(&reader, 7, 0, NULL);
    }
    if (revroute_open(&session, NODES, 0, links, count, &round, &refusal) != REVROUTE_ANSWERED) stop("no network");
    if (is_open) make_poor(&session, &reader, NULL);
    expect_first(&reader);
    ask_outside(&reader, REVROUTE_NO_SUCH_NODE, REVROUTE_NO_ROUTE);
    make_poor(&session, &reader, &other);
    long held = refusing_held;
    make_poor(&session, &reader, NULL);
    make_poor(&session, &reader, &other);
    if (refusing_held != held) stop("a reader that is replaced is not closed");
    expect_first(&other);
    learn_all(&reader, &other);
    change_and_expect(&session, &reader, &other);
    for (int at = first; at < first + 3; at++) {
        if (at % 3 == 0) revroute_close(&session);
        if (at % 3 == 1) revroute_way_reader_close(&reader);
        if (at % 3 == 2) revroute_way_reader_close(&other);
        if (reader.at) expect(&reader, 1, WAYS(0, 7));
        if (other.at) expect(&other, 1, WAYS(0, 7));
    }
    if (session.at || reader.at || other.at) stop("what is closed is not null");
    if (refusing_held) stop("what is closed holds memory");
}

/* The network of the threads. Some of its nodes have more than five ways. */
enum { SIDE = 8, MESH = SIDE * SIDE, MESH_LINKS = 8 * MESH, THREADS = 4, CHANGES = 3000 };

static revroute_link mesh[MESH_LINKS];
static size_t mesh_count, up;
static uint8_t is_neighbour[MESH][MESH];
static uint64_t drawn = 20261128;
static atomic_uint begun, done;
static atomic_bool is_over;
static size_t compared;

static uint32_t draw_of(uint64_t *from, uint32_t below) {
    *from = *from * 6364136223846793005u + 1442695040888963407u;
    return (uint32_t)(*from >> 33) % below;
}

static uint32_t draw(uint32_t below) { return draw_of(&drawn, below); }

static void join_mesh(uint32_t x, uint32_t y) {
    if (is_neighbour[x][y]) return;
    is_neighbour[x][y] = is_neighbour[y][x] = 1;
    mesh[mesh_count++] = (revroute_link){x, y};
}

/* Each node has links to its neighbours before it in a mesh, and up to five more to nodes before it that are drawn. */
static void make_mesh(void) {
    for (uint32_t x = 1; x < MESH; x++) {
        if (x % SIDE) join_mesh(x, x - 1);
        if (x >= SIDE) join_mesh(x, x - SIDE);
        for (int more = 0; more < 5; more++) join_mesh(x, draw(x));
    }
    up = mesh_count;
}

typedef struct {
    pthread_t thread;
    revroute_way_reader reader;
    uint64_t drawn;
    size_t beside;
} one;

/* Reads the ways of a node. Each is a neighbour, and no two are the same. */
static void read_ways(one *it) {
    uint32_t node = draw_of(&it->drawn, MESH), ways[MOST_WAYS], before = done;
    size_t length = 99;
    if (revroute_way_reader_ways(&it->reader, node, ways, MOST_WAYS, &length) != REVROUTE_ANSWERED)
        stop("a reader does not read");
    it->beside += before != begun ? length : 0;
    for (size_t at = 0; at < length; at++) {
        if (ways[at] >= MESH || !is_neighbour[node][ways[at]]) stop("a way is no neighbour");
        for (size_t other = 0; other < at; other++)
            if (ways[other] == ways[at]) stop("a way is there twice");
    }
    uint32_t way = revroute_way_reader_way(&it->reader, node, draw_of(&it->drawn, UINT32_MAX));
    if (way != REVROUTE_CUT_OFF && (way >= MESH || !is_neighbour[node][way])) stop("a chosen way is no neighbour");
}

/* Follows ways that are chosen at random, from each node, where nothing changes. */
static void follow_all(one *it) {
    for (uint32_t x = 0; x < MESH; x++) {
        uint32_t node = x, steps = 0, way;
        while ((way = revroute_way_reader_way(&it->reader, node, draw_of(&it->drawn, UINT32_MAX))) != REVROUTE_CUT_OFF) {
            node = way;
            if (++steps >= MESH) stop("a walk along ways does not end");
        }
        if (steps && node) stop("a walk along ways ends elsewhere");
    }
}

static void *read_along(void *of) {
    one *it = of;
    while (!is_over)
        for (int at = 0; at < 16; at++) read_ways(it);
    return NULL;
}

static void *follow(void *of) {
    follow_all(of);
    return NULL;
}

/* Makes a link fail or come back. Most links are up. */
static void make_change(revroute *session) {
    char text[64];
    uint8_t answer[REVROUTE_LEAST_ROOM];
    revroute_round round;
    revroute_refusal refusal;
    size_t length, down = mesh_count - up;
    int fails = down == 0 || (down < mesh_count / 2 && draw(2));
    size_t at = fails ? draw((uint32_t)up) : up + draw((uint32_t)down), border = fails ? --up : up++;
    revroute_link link = mesh[at];
    mesh[at] = mesh[border];
    mesh[border] = link;
    if (draw(4)) {
        revroute_edit edit = {fails ? REVROUTE_CUT : REVROUTE_JOIN, link.tail, link.head};
        if (revroute_change(session, &edit, 1, &round, &refusal) != REVROUTE_ANSWERED) stop("a change is not made");
        return;
    }
    int size = snprintf(text, sizeof text, "[\"%s\",%d,%d]", fails ? "cut" : "join", (int)link.tail, (int)link.head);
    if (revroute_answer(session, (const uint8_t *)text, (size_t)size, answer, sizeof answer, &length) != REVROUTE_ANSWERED)
        stop("a line is not answered");
}

/* A reader has the first ways of the session. */
static void compare(revroute *session, revroute_way_reader *reader) {
    for (uint32_t x = 0; x < MESH; x++, compared++) {
        uint32_t wanted[MESH], found[MOST_WAYS];
        size_t count = 0, length = 0;
        if (revroute_ways(session, x, wanted, MESH, &count) == REVROUTE_NO_ROUTE) count = 0;
        if (count > MOST_WAYS) count = MOST_WAYS;
        if (revroute_way_reader_ways(reader, x, found, MOST_WAYS, &length) != REVROUTE_ANSWERED || length != count ||
            memcmp(found, wanted, count * sizeof *found))
            stop("a reader has other ways than its session");
    }
}

static size_t run(size_t threads) {
    revroute session = REVROUTE_NEW;
    revroute_way_reader reader = REVROUTE_NO_WAY_READER, latest = REVROUTE_NO_WAY_READER;
    revroute_round round;
    revroute_refusal refusal;
    one all[THREADS];
    size_t beside = 0;
    if (revroute_open(&session, MESH, 0, mesh, up, &round, &refusal) != REVROUTE_ANSWERED) stop("there is no mesh");
    if (revroute_way_reader_open(&session, &reader) != REVROUTE_ANSWERED) stop("there is no reader");
    begun = done = 0;
    is_over = false;
    for (size_t at = 0; at < threads; at++) {
        all[at] = (one){.reader = REVROUTE_NO_WAY_READER, .drawn = at};
        if (revroute_way_reader_copy(&reader, &all[at].reader) != REVROUTE_ANSWERED) stop("there is no copy");
        if (pthread_create(&all[at].thread, NULL, read_along, &all[at])) stop("a thread could not be started");
    }
    for (int at = 0; at < CHANGES; at++) {
        begun++;
        make_change(&session);
        done++;
        compare(&session, &reader);
    }
    if (revroute_way_reader_open(&session, &latest) != REVROUTE_ANSWERED) stop("there is no latest reader");
    is_over = true;
    for (size_t at = 0; at < threads; at++) {
        pthread_join(all[at].thread, NULL);
        if (revroute_way_reader_learn(&all[at].reader, &latest) != REVROUTE_ANSWERED) stop("a reader does not learn");
        compare(&session, &all[at].reader);
        if (pthread_create(&all[at].thread, NULL, follow, &all[at])) stop("a thread could not be started again");
        beside += all[at].beside;
    }
    revroute_close(&session);
    for (size_t at = 0; at < threads; at++) {
        pthread_join(all[at].thread, NULL);
        revroute_way_reader_close(&all[at].reader);
    }
    revroute_way_reader_close(&reader);
    revroute_way_reader_close(&latest);
    if (refusing_held) stop("threads leave memory");
    return beside;
}

int main(void) {
    size_t beside = 0;
    place_end = (uint32_t *)(void *)fence(FENCED);
    ask_null();
    for (int is_open = 0; is_open < 2; is_open++)
        for (int first = 0; first < 3; first++) live(is_open, first);
    make_mesh();
    for (size_t threads = 1; threads <= THREADS; threads *= 2) beside += run(threads);
    printf("%ld %zu %zu\n", refusals, compared, beside);
}
