/* Compares the calls with numbers with the lines that ask the same, and checks the evidence of refusals.
 *
 * Two sessions get the same random networks, edits and destinations, one by lines and the other by calls. After each
 * step all questions to the two must have the same answers. The program keeps its own table of the links, and checks
 * each refusal with it: which edit is the first that cannot be made, why, and whether each step of the cycle follows
 * a link. Arrays end where the next page cannot be accessed. In some steps the Nth allocation is refused, for N = 1,
 * 2, .. until the call succeeds. Until then nothing may have changed.
 *
 * After each step there is a random table, often with loops. Its pushes must be those of the definition (order.h).
 * They are made one by one, and none may close a loop. Wrong tables must be refused.
 *
 * It prints how many steps were accepted, refused, and ended without memory; how many pushes were made; and how often
 * memory was refused to the call for pushes.
 */
#define _DEFAULT_SOURCE
#include "fence.h"
#include "order.h"
#include "refusing_heap.h"

#include <revroute.h>
#include <stdbool.h>

enum { MOST = 9, NETWORKS = 2600, STEPS = 80, MOST_EDITS = 1024, MOST_LINKS = 64, TEXT = 1 << 16, FENCED = 1 << 16, UNTOUCHED = 77 };

static uint64_t drawn = 20261125;
static size_t accepted, refused, wanting, pushed, unpushed;
static uint8_t *given_end, *place_end;

static uint32_t draw(uint32_t below) {
    drawn = drawn * 6364136223846793005u + 1442695040888963407u;
    return (uint32_t)(drawn >> 33) % below;
}

/* The links of a network, as this program keeps them: whether a link points from one node to the other. */
typedef struct {
    uint32_t nodes;
    bool points[MOST][MOST];
} table;

static bool joins(const table *net, uint32_t u, uint32_t v) {
    return net->points[u][v] || net->points[v][u];
}

/* Whether links lead from one node to the other, or the two are the same. */
static bool leads(const table *net, uint32_t from, uint32_t to) {
    bool seen[MOST] = {false};
    uint32_t waiting[MOST], count = 0;
    seen[waiting[count++] = from] = true;
    while (count) {
        uint32_t x = waiting[--count];
        for (uint32_t y = 0; y < net->nodes; y++)
            if (net->points[x][y] && !seen[y]) seen[waiting[count++] = y] = true;
    }
    return seen[to];
}

/* A step: a network, edits, or a destination. */
typedef struct {
    enum { OPEN, CHANGE, MOVE } what;
    uint32_t nodes, dest;
    size_t count;
    revroute_link links[MOST_LINKS];
    revroute_edit edits[MOST_EDITS + 2];
} step;

/* The status of a call, and what it wrote. */
typedef struct {
    uint32_t status;
    revroute_round round;
    revroute_refusal refusal;
} end;

/* All that can be asked about a session. */
typedef struct {
    uint32_t status, nodes, dest, hops[MOST], rerouted[MOST];
    revroute_link links[MOST * (MOST - 1) / 2];
    revroute_round round;
    uint64_t counts[MOST];
    size_t size, hops_length, counts_length, rerouted_length, links_length;
} state;

static state state_of(revroute *session) {
    state all;
    memset(&all, 0, sizeof all);
    all.status = revroute_size(session, &all.nodes, &all.size);
    all.dest = revroute_dest(session);
    if (revroute_report(session, &all.round) != all.status) stop("there is a report without a size");
    if (revroute_hops(session, all.hops, MOST, &all.hops_length) != all.status) stop("there are no hops");
    if (revroute_counts(session, all.counts, MOST, &all.counts_length) != all.status) stop("there are no counts");
    if (revroute_links(session, all.links, MOST * (MOST - 1) / 2, &all.links_length) != all.status) stop("there are no links");
    if (revroute_changed(session, all.rerouted, MOST, &all.rerouted_length) != all.status) stop("there are no rerouted nodes");
    return all;
}

static void expect_state(revroute *session, const state *wanted, const char *why) {
    state found = state_of(session);
    if (memcmp(&found, wanted, sizeof found)) stop(why);
}

static table table_of(const state *now) {
    table net = {now->nodes, {{false}}};
    for (size_t at = 0; at < now->links_length; at++) net.points[now->links[at].tail][now->links[at].head] = true;
    return net;
}

/* The step as a line. */
static void write_line(const step *it, char *text) {
    static const char *const kinds[] = {"cut", "add", "join", "turn"};
    if (it->what == MOVE) sprintf(text, "[\"dest\",%u]", (unsigned)it->dest);
    else if (it->what == OPEN) {
        text += sprintf(text, "[\"net\",%u,%u,[", (unsigned)it->nodes, (unsigned)it->dest);
        for (size_t at = 0; at < it->count; at++)
            text += sprintf(text, "%s[%u,%u]", at ? "," : "", (unsigned)it->links[at].tail, (unsigned)it->links[at].head);
        sprintf(text, "]]");
    } else {
        bool is_batch = it->count != 1;
        if (is_batch) text += sprintf(text, "[\"batch\",[");
        for (size_t at = 0; at < it->count; at++) {
            revroute_edit e = it->edits[at];
            text += sprintf(text, "%s[\"%s\",%u,%u]", at ? "," : "", kinds[e.kind < 3 ? e.kind : 3], (unsigned)e.u, (unsigned)e.v);
        }
        if (is_batch) sprintf(text, "]]");
    }
}

/* Bytes that end where the next page cannot be accessed. */
static void *fenced(const void *bytes, size_t size) {
    if (size > FENCED) stop("a step is too long for this test");
    return memcpy(given_end - size, bytes, size);
}

static end call(revroute *session, const step *it) {
    end all = {0, {UNTOUCHED, UNTOUCHED}, {(revroute_reason)UNTOUCHED, UNTOUCHED, UNTOUCHED, UNTOUCHED}};
    revroute before = *session;
    if (it->what == OPEN) {
        const revroute_link *links = fenced(it->links, it->count * sizeof *links);
        all.status = revroute_open(session, it->nodes, it->dest, links, it->count, &all.round, &all.refusal);
    } else if (it->what == CHANGE) {
        const revroute_edit *edits = fenced(it->edits, it->count * sizeof *edits);
        all.status = revroute_change(session, edits, it->count, &all.round, &all.refusal);
    } else all.status = revroute_move_dest(session, it->dest, &all.round, &all.refusal);
    bool is_answered = all.status == REVROUTE_ANSWERED, is_refused = all.status == REVROUTE_REFUSED;
    if (!is_answered && (session->at != before.at || all.round.turned != UNTOUCHED || all.round.cut_off != UNTOUCHED))
        stop("a call that is not answered wrote the handle or a round");
    if (!is_refused && ((uint32_t)all.refusal.number != UNTOUCHED || all.refusal.u != UNTOUCHED || all.refusal.v != UNTOUCHED || all.refusal.at != UNTOUCHED))
        stop("a call that is not refused wrote a refusal");
    return all;
}

/* Whether a call is refused for a reason that is found without memory. */
static bool needs_no_memory(const step *it, end ended) {
    if (ended.status != REVROUTE_REFUSED) return false;
    uint32_t number = ended.refusal.number;
    if (number == REVROUTE_UNKNOWN_EDIT || number == REVROUTE_TOO_MANY || it->what == MOVE) return true;
    if (it->what != OPEN) return false;
    bool is_outside = !it->nodes;
    for (size_t at = 0; at < it->count; at++) is_outside |= it->links[at].tail >= it->nodes || it->links[at].head >= it->nodes;
    return number == REVROUTE_SELF_LINK || (number == REVROUTE_RANGE && is_outside);
}

/* Makes a call, with one allocation after the other refused, until it succeeds. */
static end call_poor(revroute *session, const step *it) {
    state before = state_of(session);
    for (long number = 1;; number++) {
        long held = refusing_held;
        refusing_left = number;
        end all = call(session, it);
        bool is_met = refusing_left == 0;
        refusing_left = 0;
        if (number > 1 && needs_no_memory(it, all)) stop("want of memory hid a fault that is found without memory");
        if (all.status != REVROUTE_NO_MEMORY) return all;
        wanting++;
        if (!is_met) stop("want of memory was told where none was refused");
        if (before.status == REVROUTE_NO_NETWORK && refusing_held != held) stop("a handle of no network holds memory");
        expect_state(session, &before, "a call without memory changed the session");
    }
}

/* Makes an edit and returns 0, or returns the number for which it is refused. */
static uint32_t make(table *net, revroute_edit e) {
    bool are_nodes = e.u < net->nodes && e.v < net->nodes;
    if (e.kind == REVROUTE_CUT) {
        if (!are_nodes || !joins(net, e.u, e.v)) return REVROUTE_NO_LINK;
        net->points[e.u][e.v] = net->points[e.v][e.u] = false;
        return 0;
    }
    if (!are_nodes) return REVROUTE_RANGE;
    if (e.u == e.v) return REVROUTE_SELF_LINK;
    if (joins(net, e.u, e.v)) return REVROUTE_TWICE;
    bool would_close = leads(net, e.v, e.u);
    if (would_close && e.kind == REVROUTE_ADD) return REVROUTE_CLOSED_WALK;
    net->points[would_close ? e.v : e.u][would_close ? e.u : e.v] = true;
    return 0;
}

static void expect_nodes(revroute_refusal r, uint32_t u, uint32_t v) {
    bool are_these = (r.u == u && r.v == v) || (r.number == REVROUTE_TWICE && r.u == v && r.v == u);
    if (!are_these) stop("a refusal names other nodes");
}

/* Checks that each step of the walk follows a link, that the last one closes it, and that one goes from u to v. */
static void expect_walk(const table *net, const uint32_t *walk, size_t length, uint32_t u, uint32_t v) {
    bool is_met = false;
    if (length < 3 || walk[0] != walk[length - 1]) stop("a walk is not closed");
    for (size_t at = 0; at + 1 < length; at++) {
        if (walk[at] >= net->nodes || walk[at + 1] >= net->nodes || !net->points[walk[at]][walk[at + 1]]) stop("a walk leaves the links");
        is_met |= walk[at] == u && walk[at + 1] == v;
    }
    if (!is_met) stop("a walk goes round the refused link");
}

static uint32_t ask_walk(revroute *session, const step *it, size_t room, uint32_t *place, size_t *length) {
    if (it->what == CHANGE) return revroute_closed_walk(session, fenced(it->edits, it->count * sizeof *it->edits), it->count, place, room, length);
    return revroute_closed_walk_of(it->nodes, fenced(it->links, it->count * sizeof *it->links), it->count, place, room, length);
}

/* The number of nodes of the cycle for which a step will be refused, or 0 if there is none. */
static size_t walk_length(revroute *session, const step *it) {
    size_t length = UNTOUCHED;
    uint32_t *place = (uint32_t *)(void *)place_end - 1;
    revroute before = *session;
    *place = UNTOUCHED;
    uint32_t status = ask_walk(session, it, 1, place, &length);
    if (*place != UNTOUCHED || session->at != before.at) stop("a walk was written where it has no room");
    bool is_none = status == REVROUTE_NO_WALK || (it->what == CHANGE && !session->at && status == REVROUTE_NO_NETWORK);
    if ((status != REVROUTE_TOO_SHORT && !is_none) || (length == 0) != is_none) stop("a walk has a wrong length");
    return length;
}

/* The cycle of a step that is refused for one. */
static void look_at_walk(revroute *session, const step *it, const table *net, revroute_refusal r, size_t length) {
    size_t told;
    uint32_t *place = (uint32_t *)(void *)place_end - length;
    if ((r.number == REVROUTE_CLOSED_WALK) != (length != 0)) stop("there is a closed walk where none is refused, or none where one is");
    if (!length) return;
    if (ask_walk(session, it, length - 1, place + 1, &told) != REVROUTE_TOO_SHORT || told != length) stop("a walk fits where it does not");
    if (ask_walk(session, it, length, place, &told) != REVROUTE_ANSWERED || told != length) stop("a walk has no room where it has");
    expect_walk(net, place, length, r.u, r.v);
}

/* Checks which edit is the first that cannot be made, and why. */
static void look_at_change(revroute *session, const step *it, const state *before, end ended, size_t length) {
    revroute_refusal r = ended.refusal;
    bool is_refused = ended.status == REVROUTE_REFUSED;
    table net = table_of(before);
    size_t at = 0;
    uint32_t number = 0;
    while (at < it->count && it->edits[at].kind <= REVROUTE_JOIN) at++;
    if (at < it->count) {
        number = REVROUTE_UNKNOWN_EDIT;
    } else if (it->count > MOST_EDITS) {
        number = REVROUTE_TOO_MANY;
        at = MOST_EDITS;
    } else {
        for (at = 0; at < it->count && !(number = make(&net, it->edits[at]));) at++;
    }
    if (is_refused != (number != 0) || (is_refused && (r.number != number || r.at != at))) stop("another edit is refused, or for another reason");
    revroute_edit e = at < it->count ? it->edits[at] : (revroute_edit){0, 0, 0};
    if (number == REVROUTE_RANGE) {
        if (r.u != r.v || r.u < net.nodes || (r.u != e.u && r.u != e.v)) stop("a node that is none is told wrong");
    } else if (number == REVROUTE_UNKNOWN_EDIT || number == REVROUTE_TOO_MANY) expect_nodes(r, 0, 0);
    else if (number) expect_nodes(r, e.u, e.v);
    if (number == REVROUTE_CLOSED_WALK) net.points[e.u][e.v] = true;
    look_at_walk(session, it, &net, r, length);
}

/* Whether the first fault of the links is the reported one, and its nodes are those of one or two links. */
static void look_at_open(revroute *session, const step *it, end ended, size_t length) {
    revroute_refusal r = ended.refusal;
    table net = {it->nodes, {{false}}};
    bool is_outside = false, is_self = false, is_twice = false, is_walk = false, is_named = false;
    for (size_t at = 0; at < it->count; at++) is_outside |= it->links[at].tail >= it->nodes || it->links[at].head >= it->nodes;
    for (size_t at = 0; at < it->count; at++) {
        uint32_t u = it->links[at].tail, v = it->links[at].head;
        bool is_one = u == r.u || v == r.u, are_both = (u == r.u && v == r.v) || (u == r.v && v == r.u);
        is_named |= r.number == REVROUTE_RANGE ? is_one : are_both;
        is_self |= u == v;
        if (is_outside || u == v) continue;
        is_twice |= joins(&net, u, v);
        is_walk |= leads(&net, v, u);
        net.points[u][v] = true;
    }
    bool is_dest = it->dest >= it->nodes;
    uint32_t number = !it->nodes || is_outside ? REVROUTE_RANGE : is_self ? REVROUTE_SELF_LINK : is_twice ? REVROUTE_TWICE
                      : is_walk ? REVROUTE_CLOSED_WALK : is_dest ? REVROUTE_RANGE : 0;
    if ((ended.status == REVROUTE_REFUSED) != (number != 0) || (number && (r.number != number || r.at))) stop("a network is refused for another reason");
    bool is_pair = number == REVROUTE_TWICE || number == REVROUTE_CLOSED_WALK;
    if (number && is_pair == (r.u == r.v)) stop("a refused network names nodes that it does not");
    if (number == REVROUTE_RANGE && r.u < it->nodes) stop("a node is told that is one");
    if (number && !is_named && !(!it->nodes && !r.u) && !(number == REVROUTE_RANGE && !is_outside && r.u == it->dest)) stop("a refused network names no link of it");
    look_at_walk(session, it, &net, r, length);
}

/* A random edit, mostly one that can be made. */
static revroute_edit draw_edit(const table *net) {
    uint32_t u = draw(net->nodes + (draw(20) == 0)), v = draw(net->nodes + (draw(20) == 0));
    uint32_t fitting = u < net->nodes && v < net->nodes && joins(net, u, v) ? REVROUTE_CUT : REVROUTE_JOIN - (draw(3) == 0);
    return (revroute_edit){draw(6) ? fitting : draw(10) ? draw(3) : 3 + draw(9), u, v};
}

static void draw_edits(step *it, const table *net) {
    it->count = draw(8) ? 1 + draw(4) * draw(2) : draw(20);
    if (draw(400) == 0) it->count = MOST_EDITS + draw(2);
    for (size_t at = 0; at < it->count; at++) it->edits[at] = draw_edit(net);
    if (it->count >= MOST_EDITS && draw(2))
        for (size_t at = 0; at < it->count; at++) it->edits[at] = (revroute_edit){at % 2 ? REVROUTE_CUT : REVROUTE_JOIN, 0, 1};
}

static void add_link(step *it, uint32_t tail, uint32_t head) {
    it->links[it->count++] = (revroute_link){tail, head};
}

/* New links, each to a lower number; or most links of the last network, and new ones of the added nodes. */
static void draw_links(step *it, const state *now) {
    bool is_near = draw(2);
    for (uint32_t u = is_near ? now->nodes : 0; u < it->nodes; u++)
        for (uint32_t v = 0; v < u; v++)
            if (draw(3) == 0) add_link(it, u, v);
    for (size_t at = 0; is_near && at < now->links_length; at++) {
        uint32_t tail = now->links[at].tail, head = now->links[at].head;
        if (tail < it->nodes && head < it->nodes && draw(6)) add_link(it, tail, head);
    }
    if (it->nodes && draw(3) == 0)
        for (uint32_t more = draw(3); more; more--) add_link(it, draw(it->nodes + (draw(9) == 0)), draw(it->nodes));
}

static step draw_step(revroute *session) {
    static step it;
    state now = state_of(session);
    table net = table_of(&now);
    uint32_t nodes = now.nodes;
    it.what = !nodes || draw(40) == 0 ? OPEN : draw(8) ? CHANGE : MOVE;
    it.nodes = draw(50) ? 1 + draw(MOST) : 0;
    it.count = 0;
    it.dest = draw((it.what == OPEN ? it.nodes : nodes) + (draw(9) == 0) + 1);
    if (it.what == CHANGE) draw_edits(&it, &net);
    if (it.what == OPEN) draw_links(&it, &now);
    return it;
}

/* The hops of a state. Numbers that are not nodes are cut off. */
static void widen(const state *now, uint32_t *hops) {
    for (uint32_t x = 0; x < MOST; x++) hops[x] = x < now->nodes ? now->hops[x] : REVROUTE_CUT_OFF;
}

/* Checks that after a round the nodes whose hop has changed are reported, in push order. */
static void look_at_rerouted(const state *before, const state *after) {
    uint32_t old[MOST], new[MOST], order[MOST];
    widen(before, old);
    widen(after, new);
    size_t count = push_order(old, new, MOST, order);
    if (count != after->rerouted_length || memcmp(order, after->rerouted, count * sizeof *order))
        stop("the rerouted nodes are not those that differ, in push order");
}

static uint32_t *place_of(size_t room) {
    return (uint32_t *)(void *)place_end - room;
}

/* Asks for the pushes of a table, and checks that the call writes nothing but its answer. */
static uint32_t ask_pushes(revroute *session, const uint32_t *hops, size_t count, size_t room, size_t *length) {
    uint32_t *place = place_of(room), *given = fenced(hops, count * sizeof *hops);
    revroute before = *session;
    for (size_t at = 0; at < room; at++) place[at] = UNTOUCHED;
    uint32_t status = revroute_pushes(session, given, count, place, room, length);
    bool is_answered = status == REVROUTE_ANSWERED, has_length = is_answered || status == REVROUTE_TOO_SHORT;
    if (session->at != before.at) stop("a question for pushes wrote the handle");
    if (memcmp(given, hops, count * sizeof *hops)) stop("a question for pushes wrote the table");
    for (size_t at = is_answered ? *length : 0; at < room; at++)
        if (place[at] != UNTOUCHED) stop("more was written than the pushes");
    if (!has_length && *length) stop("there are no pushes, and they have a length");
    return status;
}

/* The same, but sometimes with one allocation after the other refused, until the call succeeds. */
static uint32_t ask_poor(revroute *session, const uint32_t *hops, size_t count, size_t room, size_t *length) {
    for (long number = draw(16) ? 0 : 1;; number++) {
        long held = refusing_held;
        refusing_left = number;
        uint32_t status = ask_pushes(session, hops, count, room, length);
        bool is_met = number && refusing_left == 0;
        refusing_left = 0;
        if (refusing_held != held) stop("the call for pushes keeps memory");
        if (status != REVROUTE_NO_MEMORY) return status;
        if (!is_met) stop("want of memory was told where none was refused");
        unpushed++;
    }
}

/* Some of the settled hops, and some random ones. */
static void draw_table(const state *now, uint32_t *hops) {
    uint32_t settled = draw(5);
    for (uint32_t x = 0; x < now->nodes; x++) {
        uint32_t others[] = {REVROUTE_CUT_OFF, REVROUTE_HERE, draw(now->nodes), draw(now->nodes)};
        hops[x] = draw(4) < settled ? now->hops[x] : others[draw(4)];
    }
}

static void expect_no_table(revroute *session, const uint32_t *hops, size_t count) {
    size_t length = UNTOUCHED;
    if (ask_poor(session, hops, count, draw(MOST + 1), &length) != REVROUTE_NO_TABLE) stop("a wrong table has pushes");
}

/* A table is refused if it has a hop too many, a hop too few or no hops, or a hop to a number that is not a node. */
static void refuse_tables(revroute *session, const uint32_t *hops, uint32_t count) {
    uint32_t wrong[MOST + 1], outside[] = {count, count + draw(9), REVROUTE_NO_HOP, REVROUTE_NO_SUCH_NODE};
    memcpy(wrong, hops, count * sizeof *hops);
    wrong[count] = draw(2) ? REVROUTE_CUT_OFF : 0;
    expect_no_table(session, wrong, count + 1);
    expect_no_table(session, wrong, count - 1);
    expect_no_table(session, wrong, 0);
    wrong[draw(count)] = outside[draw(4)];
    expect_no_table(session, wrong, count);
}

/* Whether a table leads from a node back to itself. */
static bool goes_round(const uint32_t *hops, size_t count, uint32_t node) {
    uint32_t next = hops[node];
    for (size_t steps = 0; steps < count && next < count && next != node; steps++) next = hops[next];
    return next == node;
}

/* Makes the pushes. A new loop would contain the node that was pushed. */
static void push_all(uint32_t *hops, const state *now, const uint32_t *nodes, size_t count) {
    for (size_t at = 0; at < count; at++) {
        hops[nodes[at]] = now->hops[nodes[at]];
        if (goes_round(hops, now->nodes, nodes[at])) stop("a push closes a loop");
    }
    if (memcmp(hops, now->hops, now->nodes * sizeof *hops)) stop("after all pushes the table is not the settled one");
    pushed += count;
}

/* The pushes of a random table, with exactly enough room, and with too little. */
static void look_at_pushes(revroute *session, const state *now) {
    uint32_t hops[MOST], order[MOST];
    uint32_t nodes = now->nodes;
    size_t length = UNTOUCHED;
    draw_table(now, hops);
    size_t count = push_order(hops, now->hops, nodes, order);
    if (ask_poor(session, hops, nodes, count, &length) != REVROUTE_ANSWERED || length != count)
        stop("another number of nodes is pushed than differs");
    if (memcmp(place_of(count), order, count * sizeof *order)) stop("the pushes are not in push order");
    size_t less = count ? draw((uint32_t)count) : 0;
    if (count && (ask_poor(session, hops, nodes, less, &length) != REVROUTE_TOO_SHORT || length != count))
        stop("pushes fit where they do not");
    refuse_tables(session, hops, nodes);
    push_all(hops, now, order, count);
    if (ask_poor(session, hops, nodes, draw(MOST), &length) != REVROUTE_ANSWERED || length)
        stop("the settled table has pushes");
}

/* Compares the result of a call with the answer to the line. */
static void compare(const char *answer, end ended) {
    char made[64] = "refused 3";
    if (ended.status == REVROUTE_ANSWERED) {
        accepted++;
        sprintf(made, "turned %llu cut %llu", (unsigned long long)ended.round.turned, (unsigned long long)ended.round.cut_off);
    } else if (ended.status == REVROUTE_REFUSED) {
        refused++;
        sprintf(made, "refused %u", (unsigned)ended.refusal.number);
    } else if (ended.status != REVROUTE_NO_NETWORK) stop("a call has an end that it has not");
    if (strcmp(answer, made)) stop("a call ends otherwise than the line");
}

static void take(revroute *by_line, revroute *by_call, const step *it) {
    static char text[TEXT];
    char answer[REVROUTE_LEAST_ROOM + 1];
    size_t length;
    state before = state_of(by_call);
    write_line(it, text);
    uint32_t status = revroute_answer(by_line, (const uint8_t *)text, strlen(text), (uint8_t *)answer, REVROUTE_LEAST_ROOM, &length);
    if (status != REVROUTE_ANSWERED) stop("a line has no answer");
    answer[length] = '\0';
    size_t walk = it->what == MOVE ? 0 : walk_length(by_call, it);
    end ended = draw(16) ? call(by_call, it) : call_poor(by_call, it);
    compare(answer, ended);
    state after = state_of(by_line);
    expect_state(by_call, &after, "after a call something is otherwise than after the line");
    if (it->what == CHANGE && before.status == REVROUTE_ANSWERED) look_at_change(by_call, it, &before, ended, walk);
    if (it->what == OPEN) look_at_open(by_call, it, ended, walk);
    if (ended.status == REVROUTE_ANSWERED) look_at_rerouted(&before, &after);
    if (after.status == REVROUTE_ANSWERED) look_at_pushes(by_call, &after);
    expect_state(by_call, &after, "a question changed something");
}

/* Before the first network, only a new network succeeds. An edit of an unknown kind is refused nevertheless. */
static void look_at_nothing(void) {
    revroute session = REVROUTE_NEW;
    static step it;
    it = (step){.what = CHANGE, .count = 1, .edits = {{REVROUTE_JOIN, 0, 1}}};
    size_t length = UNTOUCHED;
    if (call(&session, &it).status != REVROUTE_NO_NETWORK) stop("a change is made of nothing");
    if (ask_walk(&session, &it, 0, (uint32_t *)(void *)place_end, &length) != REVROUTE_NO_NETWORK || length) stop("there is a walk in nothing");
    static const uint32_t hops[] = {REVROUTE_HERE, 0, REVROUTE_NO_HOP};
    for (size_t count = 0; count < 4; count++)
        if (ask_poor(&session, hops, count, 0, &length) != REVROUTE_NO_NETWORK) stop("nothing has pushes");
    it.edits[0].kind = 3;
    end ended = call(&session, &it);
    if (ended.status != REVROUTE_REFUSED || ended.refusal.number != REVROUTE_UNKNOWN_EDIT || ended.refusal.at) stop("an edit of no kind is taken");
    it.what = MOVE;
    if (call(&session, &it).status != REVROUTE_NO_NETWORK || session.at || refusing_held) stop("a destination moves in nothing");
}

int main(void) {
    given_end = fence(FENCED);
    place_end = fence(FENCED);
    look_at_nothing();
    for (int network = 0; network < NETWORKS; network++) {
        revroute by_line = REVROUTE_NEW, by_call = REVROUTE_NEW;
        for (int at = 0; at < STEPS; at++) {
            step it = draw_step(&by_call);
            take(&by_line, &by_call, &it);
        }
        revroute_close(&by_line);
        revroute_close(&by_call);
        if (refusing_held) stop("a closed session holds memory");
    }
    const size_t numbers[] = {accepted, refused, wanting, pushed, unpushed};
    for (size_t at = 0; at < 5; at++) printf(at ? " %lu" : "%lu", (unsigned long)numbers[at]);
    puts("");
    return 0;
}
