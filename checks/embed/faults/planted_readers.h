/* Readers in plain C, instead of the library's, with a fault. readers.c is built with each PLANT, and must find it.
 * With no_fault, which has correct readers, it must succeed. Pushes are slow, so that threads read between them. */
#ifndef PLANTED_READERS_H
#define PLANTED_READERS_H

#include <revroute.h>
#include <stdatomic.h>
#include <stdlib.h>

enum { no_fault = 1, pushes_by_number, a_read_of_the_next_node, a_push_left_out, a_hop_that_goes_back, PUSH_TIME = 400 };

static _Atomic uint32_t planted_table[4096];

static int planted_compare(const void *one, const void *other) {
    uint32_t a = *(const uint32_t *)one, b = *(const uint32_t *)other;
    return (a > b) - (a < b);
}

/* The hop of a node in the session's network. A number that is not a node is cut off. */
static uint32_t planted_hop(revroute *session, uint32_t node) {
    uint32_t hop = revroute_next_hop(session, node);
    return hop == REVROUTE_NO_SUCH_NODE ? REVROUTE_CUT_OFF : hop;
}

static void planted_store(uint32_t node, uint32_t hop) {
    planted_table[node] = hop;
    for (volatile int spin = 0; spin < PUSH_TIME; spin++) continue;
}

/* Pushes what a call has changed, and returns the status of the call. */
static uint32_t planted_push(revroute *session, uint32_t status) {
    uint32_t nodes[4096];
    size_t count = 0;
    if (status == REVROUTE_ANSWERED) revroute_changed(session, nodes, 4096, &count);
    if (PLANT == pushes_by_number) qsort(nodes, count, sizeof *nodes, planted_compare);
    if (PLANT == a_push_left_out && count > 2) count--;
    for (size_t at = 0; at < count; at++) {
        uint32_t before = planted_table[nodes[at]], hop = planted_hop(session, nodes[at]);
        planted_store(nodes[at], hop);
        if (PLANT != a_hop_that_goes_back) continue;
        planted_store(nodes[at], before);
        planted_store(nodes[at], hop);
    }
    return status;
}

static uint32_t planted_reader_open(revroute *session, revroute_reader *reader) {
    if (!reader->at)
        for (uint32_t x = 0; x < 4096; x++) planted_table[x] = session->at ? planted_hop(session, x) : REVROUTE_CUT_OFF;
    reader->at = planted_table;
    return REVROUTE_ANSWERED;
}

static uint32_t planted_reader_copy(revroute_reader *reader, revroute_reader *other) {
    *other = *reader;
    return REVROUTE_ANSWERED;
}

static uint32_t planted_reader_learn(revroute_reader *reader, revroute_reader *other) {
    return reader->at == other->at ? REVROUTE_ANSWERED : REVROUTE_NO_NETWORK;
}

static uint32_t planted_reader_next_hop(revroute_reader *reader, uint32_t node) {
    const _Atomic uint32_t *table = reader->at;
    return table[PLANT == a_read_of_the_next_node ? node + 1 : node];
}

static uint32_t planted_reader_walk(revroute_reader *reader, uint32_t node, uint32_t *nodes, size_t room,
                                     size_t *length) {
    *length = 0;
    for (size_t at = 0; at < room; at++) {
        nodes[at] = node;
        node = planted_reader_next_hop(reader, node);
        if (node == REVROUTE_HERE) *length = at + 1;
        if (node == REVROUTE_HERE) return REVROUTE_ANSWERED;
        if (node == REVROUTE_CUT_OFF) return REVROUTE_NO_ROUTE;
    }
    *length = room + 1;
    return REVROUTE_TOO_SHORT;
}

static void planted_reader_close(revroute_reader *reader) { reader->at = NULL; }

#undef revroute_open
#undef revroute_change
#undef revroute_answer
#undef revroute_reader_walk
#define revroute_open(session, ...) planted_push(session, revroute_open(session, __VA_ARGS__))
#define revroute_change(session, ...) planted_push(session, revroute_change(session, __VA_ARGS__))
#define revroute_move_dest(session, ...) planted_push(session, revroute_move_dest(session, __VA_ARGS__))
#define revroute_answer(session, ...) planted_push(session, revroute_answer(session, __VA_ARGS__))
#define revroute_reader_open planted_reader_open
#define revroute_reader_copy planted_reader_copy
#define revroute_reader_learn planted_reader_learn
#define revroute_reader_next_hop planted_reader_next_hop
#define revroute_reader_walk planted_reader_walk
#define revroute_reader_close planted_reader_close

#endif
