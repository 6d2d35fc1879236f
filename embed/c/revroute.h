/* revroute: routing for one destination by full link reversal. This is the interface for C, and for languages that
 * can call C.
 *
 * A session holds a network. A program can create and change the network in two ways: by calls with numbers, such as
 * revroute_open and revroute_change, and by lines. revroute_answer takes a line, which is one request in JSON, and
 * writes its answer, which is one line of text. docs/LINES.md has the requests and their answers. docs/EMBED.md has
 * complete programs, and says what is proved of a call.
 *
 *     revroute session = REVROUTE_NEW;
 *     revroute_link links[] = {{0, 1}, {1, 2}, {2, 3}};
 *     revroute_edit cut = {REVROUTE_CUT, 0, 1};
 *     revroute_round round;
 *     revroute_refusal refusal;
 *     if (revroute_open(&session, 4, 0, links, 3, &round, &refusal) == REVROUTE_ANSWERED
 *         && revroute_change(&session, &cut, 1, &round, &refusal) == REVROUTE_REFUSED) ..
 *     uint32_t next = revroute_next_hop(&session, 3);
 *     ..
 *     revroute_close(&session);
 *
 * While one thread changes the session, other threads can read next hops. Each of them has a reader. No read waits:
 *
 *     revroute_reader reader = REVROUTE_NO_READER, copy = REVROUTE_NO_READER;
 *     if (revroute_reader_open(&session, &reader) == REVROUTE_ANSWERED
 *         && revroute_reader_copy(&reader, &copy) == REVROUTE_ANSWERED) ..
 *     next = revroute_reader_next_hop(&copy, 3);    (in another thread, once `copy` has been handed over)
 *     ..
 *     revroute_reader_close(&copy);
 *
 * A reader of ways, revroute_way_reader below, does the same for the first ways of nodes, up to five. A thread that
 * spreads packets over the ways of a node asks it for one of them.
 *
 * A router that needs no controller has a node instead of a session: see revroute_node below, and docs/NODES.md.
 *
 * The caller must ensure the following. No call tests it.
 *
 * - Pointers. A pointer to bytes or to an array covers as many elements as the length beside it says; no length means
 *   'unbounded'. If that length is 0, the pointer may be null. If a pointer to bytes or to an array is null although
 *   its length is not 0, for example after a malloc that failed, the call returns REVROUTE_NULL_ARRAY. No other
 *   pointer is null. (The `at` of a session, of a reader of either kind or of a node may be.) Lines and buffers can have
 *   any address. Everything else has the alignment of its type. This header tests the arrays, and the exported symbols
 *   do not: a program that calls the symbols without this header passes no null pointer, also if the length is 0.
 * - Arguments. The memory that the arguments point to does not overlap. Until the call returns, nobody else uses it.
 *   Others may read what is const.
 * - One call at a time on a session. Each call has the session for itself, also a question. (So questions do not take
 *   it as const.) A session may move from one thread to another if its calls do not overlap, and if each call sees
 *   what earlier calls wrote, as it does after a lock or a join. Different sessions share nothing, so each thread can
 *   have its own. If several threads ask one session, give each of them a reader.
 * - One call at a time on a reader. A reader may move to another thread in the same way. Different readers of one
 *   session, and the session itself, may be used by different threads at the same time. revroute_reader_open is a
 *   call on the session and on the reader. revroute_reader_copy and revroute_reader_learn are calls on both of their
 *   readers. All this holds for readers of ways too.
 * - One call at a time on a node, also a question. A node may move to another thread as a session may. Different nodes
 *   share nothing.
 * - Readers of one session. Both readers of revroute_reader_learn were opened from the same session, or are copies of
 *   such readers. The same holds for both readers of revroute_way_reader_learn.
 * - Copies. A session starts as REVROUTE_NEW, and from then on only these calls read or write it. Do not copy it:
 *   closing two copies would free the same memory twice. You may move it in memory, for example by realloc or an
 *   assignment, if you no longer use the old place. The same holds for a reader, which starts as REVROUTE_NO_READER or
 *   REVROUTE_NO_WAY_READER, and for a node, which starts as REVROUTE_NO_NODE. Memory that is all zeros is a new
 *   session, or a null reader or node.
 * - Allocator. The library calls malloc, realloc and free of the process. They must belong to the same allocator for
 *   as long as a session or a reader is open. So make no call from a signal handler, nor in the child after a process
 *   with threads has forked.
 * - Stack. The thread has 256 KiB of stack left. In tests a request took up to 52 KiB, and a line that nests as deep
 *   as JSON may here took 141 KiB.
 *
 * Results need no initial value, as the first example shows: a call never reads *round, *refusal, *length, *taken,
 * an answer's buffer or an array that it fills.
 *
 * No call waits for another thread, starts a thread, reads a file, or keeps a pointer that it was given. Only malloc,
 * realloc and free may wait, in a call that takes or frees memory. (In Python, calls on one session or on one node may
 * wait for one another, because the package has a lock for each.)
 *
 * The costs below use n for the number of nodes, and m for the number of links.
 */
#ifndef REVROUTE_H
#define REVROUTE_H

#include <stddef.h>
#include <stdint.h>

#ifdef __cplusplus
extern "C" {
#endif

/* A session. Whoever creates it owns it, and closes it when it is no longer needed. */
typedef struct revroute {
    void *at;
} revroute;

/* A session without a network. It holds no memory. Initialize or assign a session with it:
 * revroute session = REVROUTE_NEW; (A session at file scope needs no initializer.) */
#ifdef __cplusplus
#define REVROUTE_NEW (revroute{NULL})
#else
#define REVROUTE_NEW (__extension__(revroute){NULL})
#endif

/* The smallest useful buffer for an answer, in bytes. A smaller one is always too short, whatever the line. */
#define REVROUTE_LEAST_ROOM 64

/* The results of calls. */
typedef enum revroute_status {
    /* The call succeeded. What it writes is at the front of the buffer or the array, and *length is its length. The
     * answer to a line is ASCII, without a newline and without a NUL. */
    REVROUTE_ANSWERED = 0,
    /* The line is blank: it has only spaces, tabs and carriage returns. It gets no answer, and takes no memory.
     * *length is 0. */
    REVROUTE_BLANK = 1,
    /* The buffer or the array is too short. *length is the length that is needed: call again with that.
     * (revroute_reader_walk only reports that its walk has more nodes.) */
    REVROUTE_TOO_SHORT = 2,
    /* Memory ran out. You can make the same call again. *length is 0. */
    REVROUTE_NO_MEMORY = 3,
    /* The session has no network yet, or the reader or the node is null. *length is 0. */
    REVROUTE_NO_NETWORK = 4,
    /* The node has no route: it is cut off from the destination, or there is no such node. *length is 0.
     * (revroute_reader_walk says what this means for a walk, and revroute_node_distance for a node.) */
    REVROUTE_NO_ROUTE = 5,
    /* The network, the edits, the destination or the tables are refused, and *refusal says why. Or a policy, a height
     * or a neighbour of a node is refused. */
    REVROUTE_REFUSED = 6,
    /* The links or the edits are not refused for a cycle: they are accepted, or refused for another reason.
     * *length is 0. */
    REVROUTE_NO_WALK = 7,
    /* The piece has no newline. The session keeps its bytes until the line ends. *length is 0. */
    REVROUTE_BEGUN = 8,
    /* The line has more than 16,777,216 bytes. Nothing was taken. *length is 0. */
    REVROUTE_TOO_LONG = 9,
    /* The table does not have one hop for each node, or one of its hops names no node; or the starts of a table of ways
     * do not fit. *length is 0. */
    REVROUTE_NO_TABLE = 10,
    /* A pointer to bytes or to an array is null although its length is not 0. Each call tests this before everything
     * else, and writes nothing then: *length keeps its value. */
    REVROUTE_NULL_ARRAY = 11,
    /* The ways and gates of the node have to be written first (revroute_node_written). *length is 0. */
    REVROUTE_UNWRITTEN = 12,
    /* The bytes are not a message of a node. Nothing has changed. */
    REVROUTE_NO_MESSAGE = 13,
    /* The neighbour is not known to the node, or the link to it is down. *length is 0. */
    REVROUTE_LINK_DOWN = 14,
    /* An event came after the ways and gates were handed out. Nothing has changed. */
    REVROUTE_OUTDATED = 15,
    /* A neighbour knows a later start of this router. Nothing has changed. */
    REVROUTE_LATER_START = 16
} revroute_status;

/* Returns what a status means, as a constant text in English. */
static inline const char *revroute_status_text(revroute_status status_) {
    switch (status_) {
    case REVROUTE_ANSWERED: return "the call succeeded";
    case REVROUTE_BLANK: return "the line is blank";
    case REVROUTE_TOO_SHORT: return "the buffer or the array is too short";
    case REVROUTE_NO_MEMORY: return "no memory";
    case REVROUTE_NO_NETWORK: return "there is no network yet, or the reader or the node is null";
    case REVROUTE_NO_ROUTE: return "the node has no route";
    case REVROUTE_REFUSED:
        return "the network, the change, the tables, the policy, the height or the neighbour are refused";
    case REVROUTE_NO_WALK: return "there is no cycle";
    case REVROUTE_BEGUN: return "no line has ended yet";
    case REVROUTE_TOO_LONG: return "the line is too long";
    case REVROUTE_NO_TABLE: return "the table does not have one valid entry for each node";
    case REVROUTE_NULL_ARRAY: return "an array is null although its length is not 0";
    case REVROUTE_UNWRITTEN: return "the ways and gates are not written yet";
    case REVROUTE_NO_MESSAGE: return "the bytes are not a message";
    case REVROUTE_LINK_DOWN: return "the neighbour is not known, or the link to it is down";
    case REVROUTE_OUTDATED: return "an event came after the ways and gates were handed out";
    case REVROUTE_LATER_START: return "a neighbour knows a later start of this router";
    }
    return "an unknown status";
}

/* Values in place of a next hop. All are greater than any node, since a network has at most 4,096 nodes.
 *
 * - REVROUTE_HERE: the node is the destination.
 * - REVROUTE_CUT_OFF: no links connect the node with the destination, whichever way they point.
 * - REVROUTE_NO_SUCH_NODE: the network has no such node.
 * - REVROUTE_NO_HOP: the session has no network yet, or the reader is null. */
#define REVROUTE_HERE UINT32_C(0xffffffff)
#define REVROUTE_CUT_OFF UINT32_C(0xfffffffe)
#define REVROUTE_NO_SUCH_NODE UINT32_C(0xfffffffd)
#define REVROUTE_NO_HOP UINT32_C(0xfffffffc)

/* A link that points from `tail` to `head`. Nodes are numbered from 0. */
typedef struct revroute_link {
    uint32_t tail;
    uint32_t head;
} revroute_link;

/* The kinds of edits: what an edit does to the link between u and v. */
typedef enum revroute_kind {
    /* Removes the link, whichever way it points. */
    REVROUTE_CUT = 0,
    /* Adds a link from u to v. */
    REVROUTE_ADD = 1,
    /* Adds a link from u to v, or from v to u if the first would close a cycle. */
    REVROUTE_JOIN = 2
} revroute_kind;

/* An edit. `kind` is one of the three kinds; a call refuses any other number. */
typedef struct revroute_edit {
    uint32_t kind;
    uint32_t u;
    uint32_t v;
} revroute_edit;

/* What a round reports: the number of turns, and the number of nodes that are cut off from the destination. In a turn
 * a node reverses all its links. */
typedef struct revroute_round {
    uint64_t turned;
    uint64_t cut_off;
} revroute_round;

/* Why a call is refused. Lines use the same numbers: `refused 4` is REVROUTE_RANGE. */
typedef enum revroute_reason {
    /* An edit has an unknown kind. u and v are 0. */
    REVROUTE_UNKNOWN_EDIT = 2,
    /* There is no node u. v is the same number. A network of 0 nodes is refused for node 0. */
    REVROUTE_RANGE = 4,
    /* A link would connect node u with itself. v is the same number. */
    REVROUTE_SELF_LINK = 5,
    /* More than one link would connect u and v. */
    REVROUTE_TWICE = 6,
    /* The links would contain a cycle that follows the link from u to v. For an edit this is the link that it adds.
     * For a new network it is one of the cycle's links. */
    REVROUTE_CLOSED_WALK = 7,
    /* No link connects u and v. This is also the reason if an edit cuts a link at a number that is not a node. */
    REVROUTE_NO_LINK = 8,
    /* There would be more than 4,096 nodes or 32,768 links, or there are more than 1,024 edits. u and v are 0. */
    REVROUTE_TOO_MANY = 9
} revroute_reason;

/* Returns what the number of a refusal means, as a constant text in English. It also takes the number of a line's
 * answer, such as `refused 3`. */
static inline const char *revroute_refusal_text(uint32_t number_) {
    static const char *const texts_[] = {
        "an unknown reason",
        "the line is no JSON, or nests too deep",
        "the value is no request, or the edit has an unknown kind",
        "there is no network yet",
        "there is no such node",
        "a link would join a node with itself",
        "more than one link would join the two nodes",
        "the links would contain a cycle",
        "no link joins the two nodes, or one of them does not exist",
        "there would be more than 4,096 nodes, 32,768 links or 1,024 edits",
    };
    return texts_[number_ <= REVROUTE_TOO_MANY ? number_ : 0];
}

/* Why, and where. `number` is one of the reasons above, and `u` and `v` are the nodes that it names. `at` is the index
 * of the first refused edit, counted from 0. If there are too many, `at` is the limit, 1,024 edits. For a network or
 * a destination it is 0. */
typedef struct revroute_refusal {
    revroute_reason number;
    uint32_t u;
    uint32_t v;
    size_t at;
} revroute_refusal;

/* Calls that begin a round. A round turns nodes until every node that is connected with the destination has a route to
 * it.
 *
 * - REVROUTE_ANSWERED: the change is made. *round is the report, and revroute_changed lists the nodes that it
 *   rerouted.
 * - REVROUTE_REFUSED: *refusal says why.
 * - REVROUTE_NO_MEMORY: memory ran out.
 * - REVROUTE_NO_NETWORK: there is no network to change. revroute_open never returns this.
 *
 * After the last three the session is unchanged, with its own bytes, and so is *round. Only REVROUTE_REFUSED writes
 * *refusal. A line that has begun (see revroute_take) is kept in every case.
 *
 * Whatever can be tested without memory is tested first: the numbers of nodes, links and edits, the ends of the links
 * of revroute_open, the kinds of edits, and the destination of revroute_move_dest. So REVROUTE_NO_MEMORY means that
 * none of these is a reason to refuse the call. Another reason may still apply. */

/* Replaces the network, if there is one, by a new one. Its nodes are 0 to `nodes` - 1, `dest` is the destination, and
 * `links` are its `count` links. The call is refused if the links do not make a network: if they contain a cycle, if
 * two of them connect the same nodes, or for another of the reasons above. If the links are right, it is refused if
 * `dest` is not a node.
 *
 * After REVROUTE_NO_MEMORY there are not too many nodes or links, each link connects two nodes, and no link connects a
 * node with itself. The links may still connect two nodes twice or contain a cycle, and `dest` may not be a node,
 * because these tests need memory. O(n + m). */
revroute_status revroute_open(revroute *session, uint32_t nodes, uint32_t dest, const revroute_link *links,
                              size_t count, revroute_round *round, revroute_refusal *refusal);

/* Makes `count` edits in order, and then one round. If one edit is refused, none is made. Unknown kinds are tested
 * before everything else.
 *
 * An edit costs O(d), for d links at its nodes. A link that is added against the order of the nodes' heights, which the
 * engine keeps, costs a search among the nodes between the two heights. It costs O(n + m) if heights have to be computed
 * again, or if the links at a node need a larger place. A round in which nodes turn costs O(d log d) for each of them
 * and for each node that had one of these as its next hop. It costs O(n) more in the first call, after a call that
 * ran out of memory, and as long as nodes that have links are cut off. The nodes of such a part turn n times in each
 * round, and these turns are made at once. */
revroute_status revroute_change(revroute *session, const revroute_edit *edits, size_t count, revroute_round *round,
                                revroute_refusal *refusal);

/* Does the same, and keeps what has to be pushed to routers that hold all their ways: revroute_change_shrink and
 * revroute_change_grow below write it. No table of ways is needed, and only the nodes are looked at whose ways may have
 * changed. So for routers with all their ways, this is the cheap way to make a change. Its results are those of
 * revroute_change. The first call measures the distances of all nodes and takes memory for the notes, in O(n + m). From
 * then on a call costs what revroute_change costs, and O(d log d) for each node whose ways may have changed and that has
 * d links. */
revroute_status revroute_change_with_ways(revroute *session, const revroute_edit *edits, size_t count,
                                          revroute_round *round, revroute_refusal *refusal);

/* Makes `dest` the destination. O(n + m). */
revroute_status revroute_move_dest(revroute *session, uint32_t dest, revroute_round *round, revroute_refusal *refusal);

/* Finds the cycle for which revroute_change refuses these edits. Writes its nodes to the front of an array of `room`
 * places, with the first node again at the end, and their number to *length. REVROUTE_ANSWERED, REVROUTE_NO_WALK,
 * REVROUTE_TOO_SHORT, REVROUTE_NO_MEMORY or REVROUTE_NO_NETWORK. The session does not change, and the array is written
 * as for the questions below. O(n + m). */
revroute_status revroute_closed_walk(revroute *session, const revroute_edit *edits, size_t count, uint32_t *nodes,
                                     size_t room, size_t *length);

/* Finds the cycle for which revroute_open refuses these links in a network of `nodes` nodes, in the same way. It needs
 * no session. For links that revroute_open refuses without memory it needs none either. O(n + m). */
revroute_status revroute_closed_walk_of(uint32_t nodes, const revroute_link *links, size_t count, uint32_t *walk,
                                        size_t room, size_t *length);

/* Answers a line of `line_length` bytes, which is given without its newline. Writes the answer to the front of the
 * buffer `answer`, which has `room` bytes, and leaves the rest of the buffer unchanged. A refused request has an
 * answer too: `refused` and a number.
 *
 * REVROUTE_ANSWERED, REVROUTE_BLANK, REVROUTE_TOO_SHORT or REVROUTE_NO_MEMORY. After any but the first the session is
 * unchanged, with its own bytes, and so is the whole buffer. So a session that has answered nothing holds no memory.
 * The answer to a request that changes the session always fits into REVROUTE_LEAST_ROOM bytes. O(b) for b bytes of
 * line and answer, and the cost of the same call with numbers. */
revroute_status revroute_answer(revroute *session, const uint8_t *line, size_t line_length, uint8_t *answer,
                                size_t room, size_t *length);

/* For input that arrives in pieces, cut anywhere, as from a socket. Takes the bytes of a piece up to and including its
 * first newline (byte 10). Answers the line that ends there, with the bytes kept before it, as revroute_answer does.
 * If the piece has no newline, it takes and keeps all of the piece, and returns REVROUTE_BEGUN.
 *
 * *taken is the number of bytes taken. Call again with the rest until nothing is left. After REVROUTE_TOO_SHORT,
 * REVROUTE_NO_MEMORY and REVROUTE_TOO_LONG it is 0, and everything is unchanged. revroute_answer neither reads nor
 * changes the bytes that are kept. O(b) for b bytes taken, and at a newline the cost of revroute_answer. */
revroute_status revroute_take(revroute *session, const uint8_t *piece, size_t piece_length, uint8_t *answer,
                              size_t room, size_t *length, size_t *taken);

/* Call this at the end of the input. It answers the line that has begun, as revroute_answer does and at the same cost.
 * If none has begun, or only a blank one, it returns REVROUTE_BLANK. */
revroute_status revroute_finish(revroute *session, uint8_t *answer, size_t room, size_t *length);

/* Frees all memory of a session. The session is then as REVROUTE_NEW made it: it can be used again, or closed again.
 * O(1). */
void revroute_close(revroute *session);

/* Questions. They change nothing. revroute_walk, revroute_ways, revroute_nearest, revroute_all_ways, revroute_shrink,
 * revroute_grow, revroute_change_shrink, revroute_change_grow, revroute_links and revroute_pushes need memory; the others
 * do not. Like every call, a question has the session for itself while it runs.
 *
 * Some questions fill an array of `room` places. They write to its front, leave the rest unchanged, and write the
 * number of elements to *length. With REVROUTE_TOO_SHORT *length is that number too. After any result but
 * REVROUTE_ANSWERED the array is unchanged. Before the first network they return REVROUTE_NO_NETWORK, except
 * revroute_push_order, which needs no session, and revroute_change_shrink and revroute_change_grow, which then have
 * nothing to push.
 *
 * The first call of revroute_ways, revroute_distance, revroute_nearest or revroute_change_with_ways in a network also
 * measures the distances of all its nodes, in O(n + m). So does the first line that asks for the ways or the nearest
 * route of one node. From then on each change keeps them up to date. A session that has had a reader of ways always
 * keeps them. If none of this applies, changes do not pay for distances. revroute_all_ways, revroute_shrink and
 * revroute_grow measure the distances for themselves if they are not kept. */

/* Returns the next hop of a node: a node, or one of the values above. O(1). */
uint32_t revroute_next_hop(revroute *session, uint32_t node);

/* Writes the next hop of each node, in the order of the nodes, with the same values. O(n). */
revroute_status revroute_hops(revroute *session, uint32_t *hops, size_t room, size_t *length);

/* Writes the nodes whose next hop the last accepted round changed, in push order: each node after those of them on its
 * new route, and nodes without a route last. Refused calls and questions do not change this list. O(r) for r of these
 * nodes.
 *
 * A number that is not a node of the network before or after the round counts as cut off there, and before the first
 * network all numbers do. So if the new network is smaller, the nodes that are gone and had a hop are on the list.
 * revroute_next_hop returns REVROUTE_NO_SUCH_NODE for them: treat this as no hop. */
revroute_status revroute_changed(revroute *session, uint32_t *nodes, size_t room, size_t *length);

/* Writes the nodes whose hop in the caller's table is not their next hop, in push order: each node after those of them
 * on its route, and nodes without a route last. The table has `count` hops, one for each node in the order of the nodes, as revroute_hops writes
 * them: a node, REVROUTE_HERE or REVROUTE_CUT_OFF. It may contain loops.
 *
 * Give the table the next hops of these nodes, one after the other. At the end all its hops are next hops, and at no
 * moment does it contain a loop that it did not contain before. A node that reaches the destination by the table before
 * and after does so at every moment.
 *
 * REVROUTE_NO_TABLE if it does not have one hop for each node, or one of its hops names no node. REVROUTE_NO_MEMORY if
 * memory ran out. O(n). */
revroute_status revroute_pushes(revroute *session, const uint32_t *table, size_t count, uint32_t *nodes, size_t room,
                                size_t *length);

/* Writes the nodes whose hop differs in two tables of your own, in push order: each node after those of them on its
 * walk in the new table, and nodes without a route last. Any method may have made the tables: this call needs no session and no network. A table has
 * hops as revroute_hops writes them. If one table is shorter, the nodes past its end are cut off in it.
 *
 * Give the old table the new hops of these nodes, one after the other. At the end it is the new table, and at no moment
 * does it contain a loop that it did not contain before. So the old table may contain loops, and the new one may not. A
 * node that has a route in both tables has one at every moment.
 *
 * - REVROUTE_ANSWERED: the order is at the front of `nodes`, and *length is its length.
 * - REVROUTE_REFUSED: *refusal says why, and its `at` is 0. The first reason that holds is named:
 *   - REVROUTE_TOO_MANY: a table has more than 4,096 hops.
 *   - REVROUTE_RANGE: u is a number in a table that is no hop: neither a node, nor REVROUTE_HERE or REVROUTE_CUT_OFF.
 *     It is the first one in the old table, or else in the new one. The nodes are those of the longer table.
 *   - REVROUTE_CLOSED_WALK: the new table has a loop, and u sends on to v on it. u is the lowest node that is on a loop.
 *     The nodes of its loop, from u on, are at the front of `nodes`, with u again at the end, and *length is their number.
 * - REVROUTE_TOO_SHORT: there is too little room for the order or for the loop.
 * - REVROUTE_NO_MEMORY: memory ran out.
 *
 * In all other cases the array is unchanged, and *length is 0 if the call is refused. Only REVROUTE_REFUSED writes
 * *refusal. O(n) for n nodes. */
revroute_status revroute_push_order(const uint32_t *old_hops, size_t old_count, const uint32_t *new_hops,
                                    size_t new_count, uint32_t *nodes, size_t room, size_t *length,
                                    revroute_refusal *refusal);

/* Writes how often each node turned in the last round, in the order of the nodes. O(n). */
revroute_status revroute_counts(revroute *session, uint64_t *counts, size_t room, size_t *length);

/* Writes the nodes on the route from a node to the destination, both included. REVROUTE_NO_ROUTE if there is no route,
 * which needs no memory. REVROUTE_NO_MEMORY if memory ran out. O(r) for r nodes on the route. */
revroute_status revroute_walk(revroute *session, uint32_t node, uint32_t *nodes, size_t room, size_t *length);

/* Writes the ways of a node: the nodes to which its links point, nearest first. They are ordered by their distance, the
 * fewest links that lead from a node down to the destination, and then by number. The destination has no ways.
 *
 * A router may hold all its ways, and send each packet to any of them. Whichever ways routers take, and whatever links
 * fail, no packet visits a node twice. The next hop of the node is the way with the lowest number.
 *
 * REVROUTE_NO_ROUTE if the node is cut off, and so has no ways, or if there is no such node. REVROUTE_NO_MEMORY if
 * memory ran out: the session keeps room for the longest list so far, so only a longer one needs memory. O(d log d) for
 * d links at the node. */
revroute_status revroute_ways(revroute *session, uint32_t node, uint32_t *ways, size_t room, size_t *length);

/* Returns the distance of a node: the fewest links that lead from it down to the destination. Otherwise returns
 * REVROUTE_CUT_OFF, REVROUTE_NO_SUCH_NODE or REVROUTE_NO_HOP, which are greater than all distances. O(1), and the first
 * time O(n + m). */
uint32_t revroute_distance(revroute *session, uint32_t node);

/* Writes the nodes on the nearest route from a node to the destination, both included: each is the first way of the one
 * before. No route along the links is shorter, so *length - 1 is the distance of the node. REVROUTE_NO_ROUTE if there is no route. REVROUTE_NO_MEMORY if memory ran out. O(r d) for r
 * nodes on the route with at most d links each. */
revroute_status revroute_nearest(revroute *session, uint32_t node, uint32_t *nodes, size_t room, size_t *length);

/* Writes the ways of all nodes to two arrays. `ways` gets the lists of revroute_ways, one after the other in the order
 * of the nodes, and *length is their length in all. `starts` gets the index in `ways` at which the list of each node
 * begins, and at its end *length: one number more than there are nodes. So the ways of node x are those from starts[x]
 * up to, but without, starts[x + 1]. The destination, and a node that is cut off, have none.
 *
 * There are at most as many ways as links, so a room of the number of links is enough for `ways`. REVROUTE_TOO_SHORT if
 * one of the arrays is too short; *length is then the length of `ways` that is needed. REVROUTE_NO_MEMORY if memory ran
 * out. After any result but REVROUTE_ANSWERED both arrays are unchanged. O(n + m). */
revroute_status revroute_all_ways(revroute *session, size_t *starts, size_t starts_room, uint32_t *ways,
                                  size_t ways_room, size_t *length);

/* Pushes of ways, for routers that hold all their ways. You keep a table of the ways that each router may hold: those that
 * it has confirmed last, and those of each later push that it has not confirmed. The table is in two arrays as
 * revroute_all_ways writes them: `starts`, with one number more than there are nodes, and `ways`, with `count` numbers.
 * These two calls say what to push, so that in the end each router has the ways of revroute_ways:
 *
 * 1. revroute_shrink: each node that loses a way gets the ways that it keeps. First come the nodes that keep one, by
 *    number, and then those that keep none.
 * 2. revroute_grow: once all routers have confirmed that, each node whose list still differs gets its new list, nearest
 *    first. These nodes come by number.
 *
 * Each push is written as the node, the number of its ways, and these ways, one push after the other. *length is the
 * length of all pushes. The pushes of one call may be made in any order, and at the same time. If the ways in the table
 * have no cycle, then no packet can go round one at any moment, whatever links fail meanwhile. The table may have
 * cycles, and may name any numbers.
 *
 * If links change before all is confirmed, ask both calls again with the ways that routers may hold by then.
 *
 * A room of twice the number of nodes and the number of links is always enough. REVROUTE_NO_TABLE if `starts` does not
 * have one number more than there are nodes, or does not begin with 0, or falls, or does not end with `count`.
 * REVROUTE_NO_MEMORY if memory ran out. O(n + m + count). */
revroute_status revroute_shrink(revroute *session, const size_t *starts, size_t starts_count, const uint32_t *ways,
                                size_t count, uint32_t *pushes, size_t room, size_t *length);
revroute_status revroute_grow(revroute *session, const size_t *starts, size_t starts_count, const uint32_t *ways,
                              size_t count, uint32_t *pushes, size_t room, size_t *length);

/* Pushes of ways for one change, without a table: what the last revroute_change_with_ways that was answered has to push,
 * in the two phases and in the form of revroute_shrink and revroute_grow. These are the pushes that those two calls would
 * write for a table with the ways before the change.
 *
 * Use them if your routers hold the ways that the session had before the change: if you have pushed all of each change
 * before, and all of it is confirmed. Otherwise, and after a call that makes a change in another way or opens a network,
 * use revroute_shrink and revroute_grow with the ways that routers may hold.
 *
 * Only revroute_change_with_ways and revroute_close change these pushes, so you can ask for them at any time before the
 * next change. A change that is refused leaves them as they are. Before the first such change there is nothing to push.
 * REVROUTE_NO_MEMORY if memory ran out; then ask again. O(p) for p numbers. */
revroute_status revroute_change_shrink(revroute *session, uint32_t *pushes, size_t room, size_t *length);
revroute_status revroute_change_grow(revroute *session, uint32_t *pushes, size_t room, size_t *length);

/* Writes the links, ordered by tail and then by head. REVROUTE_NO_MEMORY if memory ran out. O(n + m). */
revroute_status revroute_links(revroute *session, revroute_link *links, size_t room, size_t *length);

/* Reports the last round. REVROUTE_NO_NETWORK, with 0 for both numbers, if there is no network yet. O(1). */
revroute_status revroute_report(revroute *session, revroute_round *round);

/* Returns the destination, or REVROUTE_NO_HOP if there is no network yet. O(1). */
uint32_t revroute_dest(revroute *session);

/* Reports the number of nodes and the number of links. REVROUTE_NO_NETWORK, with 0 in both, if there is no network
 * yet. O(1). */
revroute_status revroute_size(revroute *session, uint32_t *nodes, size_t *links);

/* Readers. A reader returns next hops while other threads use the session and other readers. It waits for nobody and
 * takes no lock: a hop is one load.
 *
 * All readers of a session read one table, which has a hop for each number below 4,096. Once a session has a reader,
 * each accepted round pushes the changed hops to this table, in push order (as revroute_changed lists them), before
 * its call returns. So:
 *
 * - At every moment the table has no loop.
 * - If a reader is used after a call on the session, ordered by a lock or a join, it reads the hops that this call
 *   left, or later ones. This is proved for a reader that was opened after the call, or that has learned from such a
 *   reader by revroute_reader_learn. For other readers it is only tested. A reader never goes back to an earlier table.
 * - Two reads can be of different tables. So while hops are pushed, a walk can visit a node again. It can also end at
 *   a node that is cut off although its first node has a route before and after. A walk within the pushes of one round
 *   visits no node more than twice, if its reader knows all pushes before this round: if it was opened after them, or
 *   has learned from a reader that was.
 * - A thread that reads a hop also sees everything that the changing thread wrote before the call that stored the hop.
 *
 * Readers outlive their session. After its end they read its last hops. */

/* A reader. Whoever creates it owns it, and closes it when it is no longer needed. */
typedef struct revroute_reader {
    void *at;
} revroute_reader;

/* The null reader. It reads nothing and holds no memory. Initialize or assign a reader with it:
 * revroute_reader reader = REVROUTE_NO_READER; */
#ifdef __cplusplus
#define REVROUTE_NO_READER (revroute_reader{NULL})
#else
#define REVROUTE_NO_READER (__extension__(revroute_reader){NULL})
#endif

/* Opens a reader of the session's next hops in *reader. A reader that was there is closed. The session may be without
 * a network: then all nodes are cut off.
 *
 * REVROUTE_ANSWERED or REVROUTE_NO_MEMORY. After REVROUTE_NO_MEMORY *reader is unchanged and the session answers as
 * before, although it may have its table now.
 *
 * The first reader of a session takes 32 KiB of memory, and O(4,096 + n); each later one O(1). Once a session has had
 * a reader, each accepted round costs one more load, and one more store for each rerouted node, however many readers
 * there are. */
revroute_status revroute_reader_open(revroute *session, revroute_reader *reader);

/* Opens one more reader of the same table in *other, which must be another handle. A reader that was there is closed.
 *
 * REVROUTE_ANSWERED; REVROUTE_NO_NETWORK if `reader` is null; REVROUTE_NO_MEMORY if memory ran out. After the last two
 * *other is unchanged. O(1). */
revroute_status revroute_reader_copy(revroute_reader *reader, revroute_reader *other);

/* Lets `reader` learn what `other` knows. From then on it reads the last table that `other` knew, or a later one. A
 * reader that is opened knows the hops that the session has then. *other does not change.
 *
 * Use it to hand on a change. The thread that has made the change opens a reader, and hands it to another thread, whose
 * own reader learns from it:
 *
 *     revroute_reader_open(&session, &latest);     (after the change)
 *     revroute_reader_learn(&mine, &latest);       (in the other thread, once `latest` has been handed over)
 *
 * REVROUTE_ANSWERED, or REVROUTE_NO_NETWORK if one of the readers is null. Then both are unchanged. Both must be readers
 * of one session, which no call tests. It needs no memory. O(1). */
revroute_status revroute_reader_learn(revroute_reader *reader, revroute_reader *other);

/* Returns the next hop of a node, with the values of revroute_next_hop. For a number below 4,096 that is not a node of
 * the network this is REVROUTE_CUT_OFF, and for a number from 4,096 on REVROUTE_NO_SUCH_NODE. For a null reader it is
 * REVROUTE_NO_HOP. It needs no memory. O(1). */
uint32_t revroute_reader_next_hop(revroute_reader *reader, uint32_t node);

/* Walks hop by hop from a node. Writes this node and those after it to the front of an array of `room` places.
 *
 * - REVROUTE_ANSWERED: the walk has *length nodes, and the last one is the destination.
 * - REVROUTE_TOO_SHORT: the array was full before the walk ended. *length is one more than `room`.
 * - REVROUTE_NO_ROUTE: the last node is cut off, or `node` is 4,096 or more. *length is 0. While hops are pushed, walk
 *   again to be sure.
 * - REVROUTE_NO_NETWORK: the reader is null. *length is 0.
 *
 * In every case the array keeps the nodes that were walked. If it has room for all nodes of the network, the walk is
 * too long only while hops are pushed. It needs no memory. O(r) for a walk of r nodes. */
revroute_status revroute_reader_walk(revroute_reader *reader, uint32_t node, uint32_t *nodes, size_t room,
                                     size_t *length);

/* Closes a reader, which is then as REVROUTE_NO_READER made it. The table is freed once its session and all its
 * readers are closed. O(1), or O(4,096) if the table is freed. */
void revroute_reader_close(revroute_reader *reader);

/* Readers of ways. They are to the ways of nodes what readers are to next hops: a reader of ways returns ways while
 * other threads use the session and other readers. It waits for nobody and takes no lock: the ways of a node are one
 * load.
 *
 * All readers of ways of a session read one table. It has the first five ways of each node, as revroute_ways orders
 * them, or all if there are fewer. A number below 4,096 has none if it is the destination, if it is cut off, or if it
 * is not a node of the network. Once a session has a reader of ways, each accepted line or round pushes the ways that
 * it has changed to this table before its call returns. Nodes that lose ways come first, and then those whose ways
 * still differ, as for revroute_shrink and revroute_grow. So:
 *
 * - At every moment the table has no cycle, whichever of its ways each node uses.
 * - If a reader is used after a call on the session, ordered by a lock or a join, it reads the ways that this call
 *   left, or later ones. As for next hops, this is proved for a reader that was opened after the call, or that has
 *   learned from such a reader, and for others it is only tested. A reader never goes back to an earlier table.
 * - One read is of one moment, and two reads can be of different tables. So while ways are pushed, a packet that goes on
 *   by one read at each node can visit a node again, or meet a node without a way although its first node has a route
 *   before and after.
 *
 * Readers of ways outlive their session. After its end they read its last ways. */

/* A reader of ways. Whoever creates it owns it, and closes it when it is no longer needed. */
typedef struct revroute_way_reader {
    void *at;
} revroute_way_reader;

/* The null reader of ways. It reads nothing and holds no memory. Initialize or assign a reader with it:
 * revroute_way_reader reader = REVROUTE_NO_WAY_READER; */
#ifdef __cplusplus
#define REVROUTE_NO_WAY_READER (revroute_way_reader{NULL})
#else
#define REVROUTE_NO_WAY_READER (__extension__(revroute_way_reader){NULL})
#endif

/* Opens a reader of the session's ways in *reader. A reader that was there is closed. The session may be without a
 * network: then no node has a way.
 *
 * REVROUTE_ANSWERED or REVROUTE_NO_MEMORY. After REVROUTE_NO_MEMORY *reader is unchanged and the session answers as
 * before, although it may have its table now.
 *
 * The first reader of ways of a session takes 112 KiB of memory, and O(4,096 + m log d) if no node has more than d
 * links; each later one O(1). However many readers of ways a session has had, revroute_change and revroute_move_dest
 * then cost what revroute_change_with_ways costs. To push the ways of k nodes that a change has altered costs
 * O(k (log k + d log d)) more. revroute_open and a line that begins a round cost O(4,096 + m log d) more, and no other
 * line does. */
revroute_status revroute_way_reader_open(revroute *session, revroute_way_reader *reader);

/* Opens one more reader of the same table in *other, which must be another handle. A reader that was there is closed.
 *
 * REVROUTE_ANSWERED; REVROUTE_NO_NETWORK if `reader` is null; REVROUTE_NO_MEMORY if memory ran out. After the last two
 * *other is unchanged. O(1). */
revroute_status revroute_way_reader_copy(revroute_way_reader *reader, revroute_way_reader *other);

/* Lets `reader` learn what `other` knows. From then on it reads the last table that `other` knew, or a later one. A
 * reader that is opened knows the ways that the session has then. *other does not change. Use it to hand on a change,
 * as revroute_reader_learn says.
 *
 * REVROUTE_ANSWERED, or REVROUTE_NO_NETWORK if one of the readers is null. Then both are unchanged. Both must be readers
 * of one session, which no call tests. It needs no memory. O(1). */
revroute_status revroute_way_reader_learn(revroute_way_reader *reader, revroute_way_reader *other);

/* Writes the first ways of a node, nearest first, to the front of an array of `room` places. They are at most five, and
 * all of one moment.
 *
 * - REVROUTE_ANSWERED: the node has *length ways. A node without a way has 0.
 * - REVROUTE_TOO_SHORT: there are more than `room`, and *length is how many. Room for five is always enough.
 * - REVROUTE_NO_ROUTE: `node` is 4,096 or more. *length is 0. (A node that is cut off has 0 ways instead, as the
 *   destination has: the table does not tell the two apart.)
 * - REVROUTE_NO_NETWORK: the reader is null. *length is 0.
 *
 * After any result but REVROUTE_ANSWERED the array is unchanged. It needs no memory. O(1). */
revroute_status revroute_way_reader_ways(revroute_way_reader *reader, uint32_t node, uint32_t *ways, size_t room,
                                         size_t *length);

/* Returns one of the first ways of a node: the one at the index `choice` modulo their number. `choice` can be a hash of
 * what the packets of a flow have in common, so that a flow keeps its way as long as the ways of the node are the same.
 *
 * If the node has no way, returns REVROUTE_CUT_OFF, also for the destination and for a number below 4,096 that is not a
 * node of the network. For a number from 4,096 on returns REVROUTE_NO_SUCH_NODE, and for a null reader REVROUTE_NO_HOP.
 * It needs no memory. O(1). */
uint32_t revroute_way_reader_way(revroute_way_reader *reader, uint32_t node, uint32_t choice);

/* Closes a reader of ways, which is then as REVROUTE_NO_WAY_READER made it. The table is freed once its session and all
 * its readers are closed. O(1), or O(4,096) if the table is freed. */
void revroute_way_reader_close(revroute_way_reader *reader);

/* Nodes. A node is the state machine of one router, for one destination, in a network without a controller. Each router
 * runs its own, and they exchange messages. docs/NODES.md says what they promise, and docs/ROUTERS.md has a whole daemon.
 *
 * At no moment do the links that routers use contain a loop, whatever happens to messages, and whichever routers
 * restart. A link is used if the router at one end sends packets over it, and the router at the other end lets them in.
 * This needs the following of the program. docs/NODES.md says more about each.
 *
 * 1. Write, then say that it is written, then send. After an event, the program writes the ways and gates to the
 *    forwarding table, and only then calls revroute_node_written. Until then revroute_node_say returns
 *    REVROUTE_UNWRITTEN. More events may come before. Events are revroute_node_link_up, revroute_node_link_down,
 *    revroute_node_set_cost, revroute_node_tick if a link is lost, revroute_node_act if it changes something, and
 *    revroute_node_hear if the message is taken.
 * 2. Write in this order: close the gates that are not listed any more, change the ways, then open gates.
 * 3. Drop what comes through a closed gate: packets from each neighbour that revroute_node_gates does not list.
 * 4. The boot number grows at each start of a router.
 * 5. Start with an empty table, without the ways and gates that an earlier process has left.
 * 6. Each router has a number of its own.
 * 7. A router without a way drops packets, also beside a default route: below all ways its table has a route that
 *    drops.
 *
 *     revroute_node node = REVROUTE_NO_NODE;
 *     revroute_policy policy = {REVROUTE_FULL, 0, 1, 1};
 *     if (revroute_node_open(&node, 7, boot, 0, &policy) == REVROUTE_ANSWERED
 *         && revroute_node_know(&node, 8, 1) == REVROUTE_ANSWERED) ..
 *     revroute_node_link_up(&node, 8);
 *     if (revroute_node_ways(&node, ways, room, &count, &state) == REVROUTE_ANSWERED
 *         && revroute_node_gates(&node, gates, room, &gate_count, &state) == REVROUTE_ANSWERED) ..     (write them)
 *     revroute_node_written(&node, state);
 *     uint8_t message[REVROUTE_MESSAGE_LENGTH];
 *     if (revroute_node_say(&node, 8, message, sizeof message, &length) == REVROUTE_ANSWERED) ..     (send it)
 *
 * Each event gives the state of the node the next number. revroute_node_ways and revroute_node_gates write this number, and
 * revroute_node_written takes it. So a table that an event has overtaken cannot be confirmed. If other threads may make
 * calls between the two, compare their numbers: if they differ, an event came between them, so ask both again.
 *
 * All calls on a null node return REVROUTE_NO_NETWORK, except those that return a flag. After any status but
 * REVROUTE_ANSWERED the node is unchanged, and so is what the call could write, except *length and *state. Only the two
 * calls that open a node and revroute_node_know take memory. The costs use d for the number of known neighbours. */

/* A node. Whoever creates it owns it, and closes it when it is no longer needed. */
typedef struct revroute_node {
    void *at;
} revroute_node;

/* The null node. It holds no memory. Initialize or assign a node with it: revroute_node node = REVROUTE_NO_NODE; */
#ifdef __cplusplus
#define REVROUTE_NO_NODE (revroute_node{NULL})
#else
#define REVROUTE_NO_NODE (__extension__(revroute_node){NULL})
#endif

/* The length of a message in bytes. */
#define REVROUTE_MESSAGE_LENGTH 64

/* When a node raises its height. */
typedef enum revroute_rise {
    /* If it has no way: above all neighbours. This is full link reversal. Routers that are cut off from all gateways
     * raise their heights for ever. */
    REVROUTE_FULL = 0,
    /* If no neighbour offers its height or less: at once to UINT32_MAX, the height of a router without a route. A
     * neighbour offers its own height and the cost of the link together, if that is below `ceiling`. The node comes down
     * to its best offer once each neighbour at a link that is up is let in. So once all is quiet, routes have the least
     * costs, if these are below the ceiling, and routers that are cut off from all gateways are silent. Start such nodes
     * at UINT32_MAX. */
    REVROUTE_TOP = 1
} revroute_rise;

/* When a node changes its height. No policy can make a loop. `rise` is one of the two kinds, and a call refuses
 * any other number. `ceiling` is the ceiling of REVROUTE_TOP. If `lower` is not 0, a node with REVROUTE_FULL
 * lowers its height to its distance if a way with a smaller distance stays a way. If `wait` is not 0, a node keeps
 * its old height and ways until the neighbours that it lets in have acknowledged a greater height. */
typedef struct revroute_policy {
    uint32_t rise;
    uint32_t ceiling;
    uint32_t lower;
    uint32_t wait;
} revroute_policy;

/* Starts a router with this number and this height, and puts it into *node. A node that was there is closed. No other
 * router has the number. `boot` is greater than at all earlier starts of this router. Its state has the number 0.
 *
 * REVROUTE_ANSWERED; REVROUTE_REFUSED if the policy has an unknown kind of rise, or if the height is 2^63 or more, since
 * neighbours have to be able to rise above it; REVROUTE_NO_MEMORY. What is refused is tested first. O(1). */
revroute_status revroute_node_open(revroute_node *node, uint32_t me, uint64_t boot, uint64_t height,
                                   const revroute_policy *policy);

/* Starts a gateway in the same way: a router that takes packets out of the network, and sends them to no neighbour. One
 * destination may have several gateways. REVROUTE_ANSWERED or REVROUTE_NO_MEMORY. O(1). */
revroute_status revroute_node_open_gateway(revroute_node *node, uint32_t me, uint64_t boot);

/* Makes a neighbour known. `cost` is what it costs this router to send a packet to it: 1 or more, and 1 if you have no other
 * number. The neighbour may know another cost for the other direction. The link to it is down until
 * revroute_node_link_up. A neighbour that is known already stays as it is, with its cost. REVROUTE_ANSWERED;
 * REVROUTE_REFUSED if it is the router itself or the cost is 0, which is tested first; REVROUTE_NO_MEMORY. O(d). */
revroute_status revroute_node_know(revroute_node *node, uint32_t neighbour, uint32_t cost);

/* Events. The link to a neighbour comes up, or goes down. If the neighbour is not known, no link changes. A link that
 * comes up counts as up until revroute_node_tick ends that. A link that goes down keeps what was heard on it. The
 * policy may change the height. O(d). */
revroute_status revroute_node_link_up(revroute_node *node, uint32_t neighbour);
revroute_status revroute_node_link_down(revroute_node *node, uint32_t neighbour);

/* An event. It costs this router something else to send a packet to a neighbour: `cost` is 1 or more. What was heard on
 * the link stays. If the neighbour is not known, no link changes. REVROUTE_ANSWERED; REVROUTE_REFUSED if the cost is 0.
 * O(d). */
revroute_status revroute_node_set_cost(revroute_node *node, uint32_t neighbour, uint32_t cost);

/* Notices links that do not work both ways. Call this at a steady interval, such as that at which you say messages
 * again. A link counts as up no longer once its neighbour has said nothing to this start of the router for `patience`
 * calls: because it does not hear the router, or is not heard. Then the neighbour is no way, its gate closes, and the
 * router does not wait for it. The node goes on saying messages over such a link, and the link counts as up again once
 * the neighbour says something to this start. Calls are counted anew when the link comes up, and when the neighbour
 * starts again. A neighbour that was not heard for as many calls is told so by the messages for it, so the link does
 * not count at its end either.
 *
 * Returns 1 if a link was lost so, which is an event as revroute_node_link_down is. Returns 0 if none was, which is no
 * event, and for a null node. O(d). */
uint32_t revroute_node_tick(revroute_node *node, uint32_t patience);

/* Lets the policy change the height once more. Each event takes one step of the policy, so call this after an event
 * until it returns 0. Returns 1 if something has changed, which is an event. Returns 0 if nothing has changed, which is
 * none, as for a null node. O(d). */
uint32_t revroute_node_act(revroute_node *node);

/* An event: a message of `count` bytes is heard. The policy may change the height. O(d).
 *
 * The message is taken if it is for this router, from a known neighbour, and newer than all that were taken from this
 * neighbour: of a greater boot number, or of the same one with a greater stamp. Any other message is ignored: it is no
 * event, and the node is unchanged. So a repeated message has no effect, nor has one that a later one has overtaken.
 *
 * These are no events, and the node is unchanged. The first that holds is returned:
 *
 * - REVROUTE_NO_MESSAGE: the bytes are not a message, because of their number or their header.
 * - REVROUTE_LATER_START: the message is for this router and from a known neighbour, which knows a start of this router
 *   with a greater boot number. Either `boot` was not greater than at all earlier starts, or another router has the number
 *   of this one. The promise does not hold then: close the node, and start it with a greater `boot` or another number. */
revroute_status revroute_node_hear(revroute_node *node, const uint8_t *bytes, size_t count);

/* Call this once the ways and gates are written that revroute_node_ways and revroute_node_gates handed out with the
 * number `state`. REVROUTE_OUTDATED if this is not the number of the node's state now, because an event came after them:
 * ask for the ways and gates again, and write these. O(1). */
revroute_status revroute_node_written(revroute_node *node, uint64_t state);

/* Writes the message for a neighbour to the front of a buffer of `room` bytes, and its length to *length, which is
 * always REVROUTE_MESSAGE_LENGTH. A message may be said as often as you like. Each has a stamp of its own, so
 * the neighbour takes it after those that were said before. Messages may be lost, so say one to each neighbour again after
 * some time; bytes that are only sent again are ignored once they were heard.
 *
 * The first of these that holds: REVROUTE_UNWRITTEN; REVROUTE_TOO_SHORT; REVROUTE_LINK_DOWN if the neighbour is not
 * known, or if the program has not said that the link to it is up; REVROUTE_ANSWERED, also for a link that
 * revroute_node_tick has lost. O(d). */
revroute_status revroute_node_say(revroute_node *node, uint32_t neighbour, uint8_t *message, size_t room,
                                  size_t *length);

/* Writes to *news 1 if revroute_node_say has a message for the neighbour which differs from the last one by more than
 * its stamp, and 0 otherwise. REVROUTE_UNWRITTEN, and *news is unchanged, if the ways and gates are not written.
 * O(d). */
revroute_status revroute_node_has_news(revroute_node *node, uint32_t neighbour, uint32_t *news);

/* Writes the neighbours to which packets may be sent, the nearest first, and equally near ones by number, to the front of
 * an array of `room` places, as the questions on a session do. A router may send packets to any of them. A gateway has
 * none. Writes the number of the node's state to *state, also with REVROUTE_TOO_SHORT. It needs no memory.
 * O(d log d). */
revroute_status revroute_node_ways(revroute_node *node, uint32_t *ways, size_t room, size_t *length, uint64_t *state);

/* Writes the neighbours from which packets are let in, in the order in which they were made known. All other packets have
 * to be dropped. All else is as for revroute_node_ways. O(d). */
revroute_status revroute_node_gates(revroute_node *node, uint32_t *gates, size_t room, size_t *length, uint64_t *state);

/* Writes to *distance the cost of the nearest route from this router to a gateway, by what it has heard: 0 at a
 * gateway. REVROUTE_NO_ROUTE, and *distance is unchanged, if there is no way, or if no way has a distance. O(d). */
revroute_status revroute_node_distance(revroute_node *node, uint32_t *distance);

/* Writes the height in use to *height. O(1). */
revroute_status revroute_node_height(revroute_node *node, uint64_t *height);

/* Returns 1 if packets from this neighbour are let in, and 0 if they have to be dropped, as for a null node. O(d). */
uint32_t revroute_node_lets_in(revroute_node *node, uint32_t neighbour);

/* Returns 1 if packets may be sent to this neighbour, and 0 otherwise, as for a null node. O(d). */
uint32_t revroute_node_sends_to(revroute_node *node, uint32_t neighbour);

/* Closes a node, which is then as REVROUTE_NO_NODE made it. O(1). */
void revroute_node_close(revroute_node *node);

/* The version of this header. A program can compare it with the version of the library that it runs with. */
#define REVROUTE_VERSION_MAJOR 0
#define REVROUTE_VERSION_MINOR 3
#define REVROUTE_VERSION_PATCH 0
#define REVROUTE_VERSION "0.3.0"

/* Writes the version of the library, in the form of REVROUTE_VERSION, to the front of the buffer `text`, which has
 * `room` bytes. REVROUTE_ANSWERED or REVROUTE_TOO_SHORT. In both cases *length is the length of the version. O(1). */
revroute_status revroute_version(uint8_t *text, size_t room, size_t *length);

/* The rest of this file is not for reading: it has no new call.
 *
 * The library takes no null pointer, not even to an array without elements. So here each call that takes an array
 * refuses a null pointer if the length is not 0. If the length is 0, it passes another address, where nothing is read
 * or written. A file that defines REVROUTE_SYMBOLS before it includes this header gets the library's own calls. */
#ifndef REVROUTE_SYMBOLS
#define REVROUTE_IS_MISSING(at, length) (!(at) && (length))
#define REVROUTE_SOME(type, at, other) ((at) ? (at) : (type *)(void *)(other))

static inline revroute_status revroute_open_(revroute *session_, uint32_t nodes_, uint32_t dest_,
                                             const revroute_link *links_, size_t count_, revroute_round *round_,
                                             revroute_refusal *refusal_) {
    if (REVROUTE_IS_MISSING(links_, count_)) return REVROUTE_NULL_ARRAY;
    return revroute_open(session_, nodes_, dest_, REVROUTE_SOME(const revroute_link, links_, session_), count_, round_,
                         refusal_);
}
#define revroute_open revroute_open_

static inline revroute_status revroute_change_(revroute *session_, const revroute_edit *edits_, size_t count_,
                                               revroute_round *round_, revroute_refusal *refusal_) {
    if (REVROUTE_IS_MISSING(edits_, count_)) return REVROUTE_NULL_ARRAY;
    return revroute_change(session_, REVROUTE_SOME(const revroute_edit, edits_, session_), count_, round_, refusal_);
}
#define revroute_change revroute_change_

static inline revroute_status revroute_change_with_ways_(revroute *session_, const revroute_edit *edits_,
                                                         size_t count_, revroute_round *round_,
                                                         revroute_refusal *refusal_) {
    if (REVROUTE_IS_MISSING(edits_, count_)) return REVROUTE_NULL_ARRAY;
    return revroute_change_with_ways(session_, REVROUTE_SOME(const revroute_edit, edits_, session_), count_, round_,
                                     refusal_);
}
#define revroute_change_with_ways revroute_change_with_ways_

static inline revroute_status revroute_closed_walk_(revroute *session_, const revroute_edit *edits_, size_t count_,
                                                    uint32_t *nodes_, size_t room_, size_t *length_) {
    if (REVROUTE_IS_MISSING(edits_, count_) || REVROUTE_IS_MISSING(nodes_, room_)) return REVROUTE_NULL_ARRAY;
    return revroute_closed_walk(session_, REVROUTE_SOME(const revroute_edit, edits_, session_), count_,
                                REVROUTE_SOME(uint32_t, nodes_, length_), room_, length_);
}
#define revroute_closed_walk revroute_closed_walk_

static inline revroute_status revroute_closed_walk_of_(uint32_t nodes_, const revroute_link *links_, size_t count_,
                                                       uint32_t *walk_, size_t room_, size_t *length_) {
    if (REVROUTE_IS_MISSING(links_, count_) || REVROUTE_IS_MISSING(walk_, room_)) return REVROUTE_NULL_ARRAY;
    const revroute_link none_ = {0, 0};
    return revroute_closed_walk_of(nodes_, links_ ? links_ : &none_, count_, REVROUTE_SOME(uint32_t, walk_, length_),
                                   room_, length_);
}
#define revroute_closed_walk_of revroute_closed_walk_of_

static inline revroute_status revroute_answer_(revroute *session_, const uint8_t *line_, size_t line_length_,
                                               uint8_t *answer_, size_t room_, size_t *length_) {
    if (REVROUTE_IS_MISSING(line_, line_length_) || REVROUTE_IS_MISSING(answer_, room_)) return REVROUTE_NULL_ARRAY;
    return revroute_answer(session_, REVROUTE_SOME(const uint8_t, line_, session_), line_length_,
                           REVROUTE_SOME(uint8_t, answer_, length_), room_, length_);
}
#define revroute_answer revroute_answer_

static inline revroute_status revroute_take_(revroute *session_, const uint8_t *piece_, size_t piece_length_,
                                             uint8_t *answer_, size_t room_, size_t *length_, size_t *taken_) {
    if (REVROUTE_IS_MISSING(piece_, piece_length_) || REVROUTE_IS_MISSING(answer_, room_)) return REVROUTE_NULL_ARRAY;
    return revroute_take(session_, REVROUTE_SOME(const uint8_t, piece_, session_), piece_length_,
                         REVROUTE_SOME(uint8_t, answer_, length_), room_, length_, taken_);
}
#define revroute_take revroute_take_

static inline revroute_status revroute_finish_(revroute *session_, uint8_t *answer_, size_t room_, size_t *length_) {
    if (REVROUTE_IS_MISSING(answer_, room_)) return REVROUTE_NULL_ARRAY;
    return revroute_finish(session_, REVROUTE_SOME(uint8_t, answer_, length_), room_, length_);
}
#define revroute_finish revroute_finish_

static inline revroute_status revroute_hops_(revroute *session_, uint32_t *hops_, size_t room_, size_t *length_) {
    if (REVROUTE_IS_MISSING(hops_, room_)) return REVROUTE_NULL_ARRAY;
    return revroute_hops(session_, REVROUTE_SOME(uint32_t, hops_, length_), room_, length_);
}
#define revroute_hops revroute_hops_

static inline revroute_status revroute_changed_(revroute *session_, uint32_t *nodes_, size_t room_, size_t *length_) {
    if (REVROUTE_IS_MISSING(nodes_, room_)) return REVROUTE_NULL_ARRAY;
    return revroute_changed(session_, REVROUTE_SOME(uint32_t, nodes_, length_), room_, length_);
}
#define revroute_changed revroute_changed_

static inline revroute_status revroute_pushes_(revroute *session_, const uint32_t *table_, size_t count_,
                                               uint32_t *nodes_, size_t room_, size_t *length_) {
    if (REVROUTE_IS_MISSING(table_, count_) || REVROUTE_IS_MISSING(nodes_, room_)) return REVROUTE_NULL_ARRAY;
    return revroute_pushes(session_, REVROUTE_SOME(const uint32_t, table_, session_), count_,
                           REVROUTE_SOME(uint32_t, nodes_, length_), room_, length_);
}
#define revroute_pushes revroute_pushes_

static inline revroute_status revroute_push_order_(const uint32_t *old_, size_t old_count_, const uint32_t *new_,
                                                   size_t new_count_, uint32_t *nodes_, size_t room_,
                                                   size_t *length_, revroute_refusal *refusal_) {
    if (REVROUTE_IS_MISSING(old_, old_count_) || REVROUTE_IS_MISSING(new_, new_count_) ||
        REVROUTE_IS_MISSING(nodes_, room_))
        return REVROUTE_NULL_ARRAY;
    return revroute_push_order(REVROUTE_SOME(const uint32_t, old_, length_), old_count_,
                               REVROUTE_SOME(const uint32_t, new_, length_), new_count_,
                               REVROUTE_SOME(uint32_t, nodes_, length_), room_, length_, refusal_);
}
#define revroute_push_order revroute_push_order_

static inline revroute_status revroute_counts_(revroute *session_, uint64_t *counts_, size_t room_, size_t *length_) {
    if (REVROUTE_IS_MISSING(counts_, room_)) return REVROUTE_NULL_ARRAY;
    return revroute_counts(session_, REVROUTE_SOME(uint64_t, counts_, length_), room_, length_);
}
#define revroute_counts revroute_counts_

static inline revroute_status revroute_walk_(revroute *session_, uint32_t node_, uint32_t *nodes_, size_t room_,
                                             size_t *length_) {
    if (REVROUTE_IS_MISSING(nodes_, room_)) return REVROUTE_NULL_ARRAY;
    return revroute_walk(session_, node_, REVROUTE_SOME(uint32_t, nodes_, length_), room_, length_);
}
#define revroute_walk revroute_walk_

static inline revroute_status revroute_ways_(revroute *session_, uint32_t node_, uint32_t *ways_, size_t room_,
                                             size_t *length_) {
    if (REVROUTE_IS_MISSING(ways_, room_)) return REVROUTE_NULL_ARRAY;
    return revroute_ways(session_, node_, REVROUTE_SOME(uint32_t, ways_, length_), room_, length_);
}
#define revroute_ways revroute_ways_

static inline revroute_status revroute_nearest_(revroute *session_, uint32_t node_, uint32_t *nodes_, size_t room_,
                                                size_t *length_) {
    if (REVROUTE_IS_MISSING(nodes_, room_)) return REVROUTE_NULL_ARRAY;
    return revroute_nearest(session_, node_, REVROUTE_SOME(uint32_t, nodes_, length_), room_, length_);
}
#define revroute_nearest revroute_nearest_

static inline revroute_status revroute_all_ways_(revroute *session_, size_t *starts_, size_t starts_room_,
                                                 uint32_t *ways_, size_t ways_room_, size_t *length_) {
    if (REVROUTE_IS_MISSING(starts_, starts_room_) || REVROUTE_IS_MISSING(ways_, ways_room_)) return REVROUTE_NULL_ARRAY;
    return revroute_all_ways(session_, REVROUTE_SOME(size_t, starts_, length_), starts_room_,
                             REVROUTE_SOME(uint32_t, ways_, length_), ways_room_, length_);
}
#define revroute_all_ways revroute_all_ways_

static inline revroute_status revroute_shrink_(revroute *session_, const size_t *starts_, size_t starts_count_,
                                               const uint32_t *ways_, size_t count_, uint32_t *pushes_, size_t room_,
                                               size_t *length_) {
    if (REVROUTE_IS_MISSING(starts_, starts_count_) || REVROUTE_IS_MISSING(ways_, count_) ||
        REVROUTE_IS_MISSING(pushes_, room_))
        return REVROUTE_NULL_ARRAY;
    return revroute_shrink(session_, REVROUTE_SOME(const size_t, starts_, session_), starts_count_,
                           REVROUTE_SOME(const uint32_t, ways_, session_), count_,
                           REVROUTE_SOME(uint32_t, pushes_, length_), room_, length_);
}
#define revroute_shrink revroute_shrink_

static inline revroute_status revroute_grow_(revroute *session_, const size_t *starts_, size_t starts_count_,
                                             const uint32_t *ways_, size_t count_, uint32_t *pushes_, size_t room_,
                                             size_t *length_) {
    if (REVROUTE_IS_MISSING(starts_, starts_count_) || REVROUTE_IS_MISSING(ways_, count_) ||
        REVROUTE_IS_MISSING(pushes_, room_))
        return REVROUTE_NULL_ARRAY;
    return revroute_grow(session_, REVROUTE_SOME(const size_t, starts_, session_), starts_count_,
                         REVROUTE_SOME(const uint32_t, ways_, session_), count_,
                         REVROUTE_SOME(uint32_t, pushes_, length_), room_, length_);
}
#define revroute_grow revroute_grow_

static inline revroute_status revroute_change_shrink_(revroute *session_, uint32_t *pushes_, size_t room_,
                                                      size_t *length_) {
    if (REVROUTE_IS_MISSING(pushes_, room_)) return REVROUTE_NULL_ARRAY;
    return revroute_change_shrink(session_, REVROUTE_SOME(uint32_t, pushes_, length_), room_, length_);
}
#define revroute_change_shrink revroute_change_shrink_

static inline revroute_status revroute_change_grow_(revroute *session_, uint32_t *pushes_, size_t room_,
                                                    size_t *length_) {
    if (REVROUTE_IS_MISSING(pushes_, room_)) return REVROUTE_NULL_ARRAY;
    return revroute_change_grow(session_, REVROUTE_SOME(uint32_t, pushes_, length_), room_, length_);
}
#define revroute_change_grow revroute_change_grow_

static inline revroute_status revroute_links_(revroute *session_, revroute_link *links_, size_t room_,
                                              size_t *length_) {
    if (REVROUTE_IS_MISSING(links_, room_)) return REVROUTE_NULL_ARRAY;
    return revroute_links(session_, REVROUTE_SOME(revroute_link, links_, length_), room_, length_);
}
#define revroute_links revroute_links_

static inline revroute_status revroute_reader_walk_(revroute_reader *reader_, uint32_t node_, uint32_t *nodes_,
                                                    size_t room_, size_t *length_) {
    if (REVROUTE_IS_MISSING(nodes_, room_)) return REVROUTE_NULL_ARRAY;
    return revroute_reader_walk(reader_, node_, REVROUTE_SOME(uint32_t, nodes_, length_), room_, length_);
}
#define revroute_reader_walk revroute_reader_walk_

static inline revroute_status revroute_way_reader_ways_(revroute_way_reader *reader_, uint32_t node_, uint32_t *ways_,
                                                        size_t room_, size_t *length_) {
    if (REVROUTE_IS_MISSING(ways_, room_)) return REVROUTE_NULL_ARRAY;
    return revroute_way_reader_ways(reader_, node_, REVROUTE_SOME(uint32_t, ways_, length_), room_, length_);
}
#define revroute_way_reader_ways revroute_way_reader_ways_

static inline revroute_status revroute_node_hear_(revroute_node *node_, const uint8_t *bytes_, size_t count_) {
    if (REVROUTE_IS_MISSING(bytes_, count_)) return REVROUTE_NULL_ARRAY;
    const uint8_t none_ = 0;
    return revroute_node_hear(node_, bytes_ ? bytes_ : &none_, count_);
}
#define revroute_node_hear revroute_node_hear_

static inline revroute_status revroute_node_say_(revroute_node *node_, uint32_t neighbour_, uint8_t *message_,
                                                 size_t room_, size_t *length_) {
    if (REVROUTE_IS_MISSING(message_, room_)) return REVROUTE_NULL_ARRAY;
    return revroute_node_say(node_, neighbour_, REVROUTE_SOME(uint8_t, message_, length_), room_, length_);
}
#define revroute_node_say revroute_node_say_

static inline revroute_status revroute_node_ways_(revroute_node *node_, uint32_t *ways_, size_t room_,
                                                  size_t *length_, uint64_t *state_) {
    if (REVROUTE_IS_MISSING(ways_, room_)) return REVROUTE_NULL_ARRAY;
    return revroute_node_ways(node_, REVROUTE_SOME(uint32_t, ways_, length_), room_, length_, state_);
}
#define revroute_node_ways revroute_node_ways_

static inline revroute_status revroute_node_gates_(revroute_node *node_, uint32_t *gates_, size_t room_,
                                                   size_t *length_, uint64_t *state_) {
    if (REVROUTE_IS_MISSING(gates_, room_)) return REVROUTE_NULL_ARRAY;
    return revroute_node_gates(node_, REVROUTE_SOME(uint32_t, gates_, length_), room_, length_, state_);
}
#define revroute_node_gates revroute_node_gates_

static inline revroute_status revroute_version_(uint8_t *text_, size_t room_, size_t *length_) {
    if (REVROUTE_IS_MISSING(text_, room_)) return REVROUTE_NULL_ARRAY;
    return revroute_version(REVROUTE_SOME(uint8_t, text_, length_), room_, length_);
}
#define revroute_version revroute_version_

#undef REVROUTE_SOME
#undef REVROUTE_IS_MISSING
#endif

/* The names of version 0.1, for one version more. */
#ifdef __GNUC__
#define REVROUTE_OLD(instead) __attribute__((__deprecated__("use " instead))) static inline
#else
#define REVROUTE_OLD(instead) static inline
#endif

REVROUTE_OLD("revroute_move_dest") revroute_status
revroute_move(revroute *session_, uint32_t dest_, revroute_round *round_, revroute_refusal *refusal_) {
    return revroute_move_dest(session_, dest_, round_, refusal_);
}

REVROUTE_OLD("revroute_hops") revroute_status
revroute_next_hops(revroute *session_, uint32_t *hops_, size_t room_, size_t *length_) {
    return revroute_hops(session_, hops_, room_, length_);
}

REVROUTE_OLD("revroute_changed") revroute_status
revroute_rerouted(revroute *session_, uint32_t *nodes_, size_t room_, size_t *length_) {
    return revroute_changed(session_, nodes_, room_, length_);
}

REVROUTE_OLD("revroute_walk") revroute_status
revroute_route(revroute *session_, uint32_t node_, uint32_t *nodes_, size_t room_, size_t *length_) {
    return revroute_walk(session_, node_, nodes_, room_, length_);
}

REVROUTE_OLD("revroute_reader_walk") revroute_status
revroute_reader_route(revroute_reader *reader_, uint32_t node_, uint32_t *nodes_, size_t room_, size_t *length_) {
    return revroute_reader_walk(reader_, node_, nodes_, room_, length_);
}

/* What revroute_links was: each link takes two places, tail first, and *length is twice the number of links. */
REVROUTE_OLD("revroute_links") revroute_status
revroute_links_numbers(revroute *session_, uint32_t *ends_, size_t room_, size_t *length_) {
    revroute_status status_ = revroute_links(session_, (revroute_link *)(void *)ends_, room_ / 2, length_);
    if (status_ != REVROUTE_NULL_ARRAY) *length_ *= 2;
    return status_;
}

/* What revroute_report was: the two numbers apart. */
REVROUTE_OLD("revroute_report") revroute_status
revroute_report_numbers(revroute *session_, uint64_t *turned_, uint64_t *cut_off_) {
    revroute_round round_;
    revroute_status status_ = revroute_report(session_, &round_);
    *turned_ = round_.turned;
    *cut_off_ = round_.cut_off;
    return status_;
}

#undef REVROUTE_OLD

#ifdef __cplusplus
}
#endif

#endif
