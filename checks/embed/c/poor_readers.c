/* Readers without memory, without room, and without a network; and whether all memory is freed.
 *
 * There is a session without a network, one with a network, and one that has readers already. For each it opens and
 * copies a reader with the Nth allocation refused, for N = 1, 2, .. until no allocation is refused. A call that
 * reports that it has no memory must not write a handle. Then it changes the session in the same way. After a change
 * without memory the readers must have the hops from before. At the end it closes the session and the readers in each
 * order, and no block may be left.
 *
 * It prints how many allocations were refused, and how many calls reported this.
 */
#define _DEFAULT_SOURCE
#include "fence.h"
#include "refusing_heap.h"

#include <revroute.h>

enum { NODES = 4, MOST = 4096, FENCED = 1 << 16, UNTOUCHED = 77 };

static const revroute_link links[] = {{1, 0}, {2, 1}, {2, 3}, {3, 0}};
/* Changes that are made again and again, and the hop of node 2 after each. */
static const revroute_edit feed[] = {
    {REVROUTE_CUT, 1, 0}, {REVROUTE_JOIN, 1, 0}, {REVROUTE_CUT, 3, 0}, {REVROUTE_JOIN, 3, 0}};
static const uint32_t hops[] = {3, 3, 1, 1};
static size_t steps;
static long refusals, told;
static uint32_t *place_end;

/* What is done with a session, a reader of it, and a copy of the reader. */
typedef uint32_t call(revroute *session, revroute_reader *reader, revroute_reader *other);

static uint32_t open_reader(revroute *session, revroute_reader *reader, revroute_reader *other) {
    (void)other;
    return revroute_reader_open(session, reader);
}

static uint32_t copy_reader(revroute *session, revroute_reader *reader, revroute_reader *other) {
    (void)session;
    return revroute_reader_copy(reader, other);
}

static uint32_t open_network(revroute *session, revroute_reader *reader, revroute_reader *other) {
    revroute_round round;
    revroute_refusal refusal;
    uint32_t before = reader->at ? revroute_reader_next_hop(reader, 1) : 0;
    uint32_t status = revroute_open(session, NODES, 0, links, 4, &round, &refusal);
    (void)other;
    if (status && reader->at && revroute_reader_next_hop(reader, 1) != before) stop("without memory a hop is pushed");
    return status;
}

static uint32_t change(revroute *session, revroute_reader *reader, revroute_reader *other) {
    revroute_round round;
    revroute_refusal refusal;
    uint32_t status = revroute_change(session, &feed[steps % 4], 1, &round, &refusal);
    steps += status == REVROUTE_ANSWERED;
    uint32_t hop = hops[(steps + 3) % 4];
    if (revroute_reader_next_hop(reader, 2) != hop) stop("a reader has another hop");
    if (revroute_reader_next_hop(other, 2) != hop) stop("a copy has another hop");
    return status;
}

/* Makes a call again and again, with each allocation refused in turn, until none is refused. The session may keep room
 * for its next change, and the table for its next reader. */
static void make_poor(call *make, revroute *session, revroute_reader *reader, revroute_reader *other) {
    for (long number = 1;; number++) {
        revroute before = *session;
        revroute_reader was = *reader, other_was = *other;
        long held = refusing_held;
        refusing_left = number;
        uint32_t status = make(session, reader, other);
        int was_refused = refusing_left == 0;
        refusing_left = 0;
        refusals += was_refused;
        if (status == REVROUTE_ANSWERED && !was_refused) return;
        if (status == REVROUTE_ANSWERED) continue;
        if (status != REVROUTE_NO_MEMORY || !was_refused) stop("a call ends as it cannot end");
        told++;
        if (session->at != before.at || reader->at != was.at || other->at != other_was.at)
            stop("a call without memory wrote a handle");
        if (make == copy_reader && refusing_held != held) stop("a copy without memory holds another block");
    }
}

/* Walks with each room from 0 on. Nothing after the room may be written. */
static void walk_all(revroute_reader *reader) {
    static const uint32_t route[] = {2, 1, 0};
    for (size_t room = 0; room < 5; room++) {
        uint32_t *place = place_end - room;
        for (size_t at = 0; at < room; at++) place[at] = UNTOUCHED;
        size_t length = 99, walked = room < 3 ? room : 3;
        uint32_t status = revroute_reader_walk(reader, 2, place, room, &length);
        if (status != (room < 3 ? REVROUTE_TOO_SHORT : REVROUTE_ANSWERED)) stop("a walk has another end");
        if (length != (room < 3 ? room + 1 : 3)) stop("a walk has another length");
        for (size_t at = 0; at < room; at++)
            if (place[at] != (at < walked ? route[at] : UNTOUCHED)) stop("a walk writes other nodes");
    }
}

/* Numbers that are not nodes, and nodes without a route. */
static void ask_outside(revroute_reader *reader) {
    static const uint32_t cut_off[] = {NODES, NODES + 1, MOST - 1};
    static const uint32_t outside[] = {MOST, MOST + 1, 1 << 16, UINT32_MAX};
    uint32_t *place = place_end - 2;
    size_t length;
    for (int at = 0; at < 3; at++) {
        length = 99;
        if (revroute_reader_next_hop(reader, cut_off[at]) != REVROUTE_CUT_OFF) stop("what is no node has a hop");
        uint32_t status = revroute_reader_walk(reader, cut_off[at], place, 2, &length);
        if (status != REVROUTE_NO_ROUTE || length) stop("what is no node has a route");
        if (place[0] != cut_off[at]) stop("a walk that is cut off does not leave its nodes");
    }
    for (int at = 0; at < 4; at++) {
        length = 99;
        if (revroute_reader_next_hop(reader, outside[at]) != REVROUTE_NO_SUCH_NODE) stop("no node has a hop");
        uint32_t status = revroute_reader_walk(reader, outside[at], place, 2, &length);
        if (status != REVROUTE_NO_ROUTE || length) stop("no node has a route");
    }
}

/* Lets each of two readers learn from the other one. This needs no memory. */
static void learn_both(revroute_reader *reader, revroute_reader *other) {
    long held = refusing_held;
    refusing_left = 1;
    if (revroute_reader_learn(reader, other) != REVROUTE_ANSWERED) stop("a reader does not learn");
    if (revroute_reader_learn(other, reader) != REVROUTE_ANSWERED) stop("a copy does not learn");
    if (refusing_left != 1 || refusing_held != held) stop("a reader takes memory to learn");
    refusing_left = 0;
    uint32_t hop = revroute_reader_next_hop(reader, 2);
    if (hop == REVROUTE_NO_HOP || revroute_reader_next_hop(other, 2) != hop) stop("readers that learn have other hops");
}

/* A reader and a null one: neither learns from the other. */
static void learn_nothing(revroute_reader *reader) {
    revroute_reader none = REVROUTE_NO_READER;
    void *was = reader->at;
    if (revroute_reader_learn(reader, &none) != REVROUTE_NO_NETWORK) stop("a reader learns from no reader");
    if (revroute_reader_learn(&none, reader) != REVROUTE_NO_NETWORK) stop("no reader learns from a reader");
    if (none.at || reader->at != was) stop("where nothing is learned a handle is written");
}

/* The null reader. */
static void ask_null(void) {
    revroute_reader none = REVROUTE_NO_READER, other = REVROUTE_NO_READER;
    size_t length = 99;
    uint32_t *place = place_end - 2;
    if (revroute_reader_next_hop(&none, 0) != REVROUTE_NO_HOP) stop("no reader has a hop");
    uint32_t status = revroute_reader_walk(&none, 0, place, 2, &length);
    if (status != REVROUTE_NO_NETWORK || length) stop("no reader has a route");
    if (revroute_reader_copy(&none, &other) != REVROUTE_NO_NETWORK || other.at) stop("no reader has a copy");
    if (revroute_reader_learn(&none, &other) != REVROUTE_NO_NETWORK || none.at) stop("no reader learns");
    revroute_reader_close(&none);
    if (none.at || refusing_held) stop("no reader holds memory");
}

/* A session with or without a network, which has `readers` readers. All calls are made with memory refused. At the
 * end it closes the session, the reader and its copy, beginning with the one of this number. */
static void live(int is_open, int readers, int first) {
    revroute session = REVROUTE_NEW;
    revroute_reader reader = REVROUTE_NO_READER, other = REVROUTE_NO_READER;
    revroute_reader more[2] = {REVROUTE_NO_READER, REVROUTE_NO_READER};
    if (is_open) make_poor(open_network, &session, &reader, &other);
    for (int at = 0; at < readers; at++)
        if (revroute_reader_open(&session, &more[at]) != REVROUTE_ANSWERED) stop("there is no reader");
    make_poor(open_reader, &session, &reader, &other);
    if (!is_open && revroute_reader_next_hop(&reader, 1) != REVROUTE_CUT_OFF) stop("before a network a node has a hop");
    if (!is_open) make_poor(open_network, &session, &reader, &other);
    walk_all(&reader);
    ask_outside(&reader);
    long held = refusing_held;
    make_poor(open_reader, &session, &reader, &other);
    if (refusing_held != held) stop("a reader that is replaced is not closed");
    make_poor(copy_reader, &session, &reader, &other);
    held = refusing_held;
    make_poor(copy_reader, &session, &reader, &other);
    if (refusing_held != held) stop("a copy that is replaced is not closed");
    learn_both(&reader, &other);
    learn_nothing(&reader);
    steps = 0;
    make_poor(change, &session, &reader, &other);
    learn_both(&reader, &other);
    for (int at = first; at < first + 3; at++) {
        if (at % 3 == 0) revroute_close(&session);
        if (at % 3 == 1) revroute_reader_close(&reader);
        if (at % 3 == 2) revroute_reader_close(&other);
        if (other.at && revroute_reader_next_hop(&other, 2) != hops[(steps + 3) % 4])
            stop("a reader does not outlive what is closed");
    }
    for (int at = 0; at < readers; at++) revroute_reader_close(&more[at]);
    revroute_reader_close(&reader);
    if (session.at || reader.at || other.at) stop("what is closed is not null");
    if (refusing_held) stop("what is closed holds memory");
}

int main(void) {
    place_end = (uint32_t *)(void *)fence(FENCED);
    ask_null();
    for (int is_open = 0; is_open < 2; is_open++)
        for (int readers = 0; readers < 3; readers++)
            for (int first = 0; first < 3; first++) live(is_open, readers, first);
    printf("%ld %ld\n", refusals, told);
}
