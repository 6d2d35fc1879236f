/* A mesh whose links fail and come back. The program pushes the changed next hops to the forwarding tables of the
 * nodes, one by one, and after each push it checks that the tables have no loop. Sometimes the next link fails or
 * comes back before everything is pushed; then the pushes continue from the tables as they are. Once everything is
 * pushed, the program follows the tables from every node. */
#include <revroute.h>
#include <stdbool.h>
#include <stdio.h>
#include <stdlib.h>

enum { SIDE = 20, NODES = SIDE * SIDE, LINKS = 2 * SIDE * (SIDE - 1), CHANGES = 2000, HOME = 0 };

/* The next hop of each node, and between which nodes a link is up. */
static uint32_t table[NODES];
static bool is_up[NODES][NODES];

static _Noreturn void stop(const char *why) {
    fprintf(stderr, "%s\n", why);
    exit(1);
}

static size_t draw(size_t below) {
    static uint64_t drawn = 1;
    drawn = drawn * 6364136223846793005u + 1442695040888963407u;
    return (size_t)(drawn >> 33) % below;
}

static void set(revroute_link link, bool up) {
    is_up[link.tail][link.head] = is_up[link.head][link.tail] = up;
}

static void lay(revroute_link *links) {
    for (uint32_t x = 0; x < NODES; x++) {
        if (x % SIDE) *links++ = (revroute_link){x, x - 1};
        if (x >= SIDE) *links++ = (revroute_link){x, x - SIDE};
    }
}

/* Whether the tables lead from a node back to itself. */
static bool goes_round(uint32_t node) {
    uint32_t next = table[node];
    for (size_t steps = 0; steps < NODES && next < NODES && next != node; steps++) next = table[next];
    return next == node;
}

/* The nodes to push, in push order. These are the nodes that the last round changed. If pushes were left over, they
 * are all nodes whose hop in the tables is not their next hop. */
static size_t nodes_to_push(revroute *session, bool is_settled, uint32_t *nodes) {
    size_t count;
    uint32_t status = is_settled ? revroute_changed(session, nodes, NODES, &count)
                                 : revroute_pushes(session, table, NODES, nodes, NODES, &count);
    if (status != REVROUTE_ANSWERED) stop("the nodes to push are not told");
    return count;
}

/* Pushes next hops: all of them, or a random number. Returns whether it pushed all. A new loop would contain the node
 * that was pushed. */
static bool push(revroute *session, bool is_settled, bool is_interrupted) {
    uint32_t nodes[NODES];
    size_t count = nodes_to_push(session, is_settled, nodes), last = is_interrupted ? draw(count + 1) : count;
    for (size_t at = 0; at < last; at++) {
        table[nodes[at]] = revroute_next_hop(session, nodes[at]);
        if (goes_round(nodes[at])) stop("a loop is in the tables");
    }
    return last == count;
}

/* Removes the hops over a failed link from the tables. */
static void forget(revroute_link link) {
    if (table[link.tail] == link.head) table[link.tail] = REVROUTE_CUT_OFF;
    if (table[link.head] == link.tail) table[link.head] = REVROUTE_CUT_OFF;
}

/* Whether the tables lead from a node to the destination over links that are up. */
static bool leads(uint32_t node) {
    for (size_t steps = 0; steps < NODES && node != HOME; steps++) {
        uint32_t next = table[node];
        if (next >= NODES || !is_up[node][next]) return false;
        node = next;
    }
    return node == HOME;
}

static void follow_all(uint64_t cut_off) {
    for (uint32_t node = 0; node < NODES; node++) {
        if (table[node] == REVROUTE_CUT_OFF) cut_off--;
        else if (!leads(node)) stop("a table leads nowhere");
    }
    if (cut_off) stop("a table is of another node that is cut off");
}

/* Makes a link of the mesh fail or come back. The first *up links are up, and the rest are down. */
static void change(revroute *session, revroute_link *links, size_t *up, revroute_round *round) {
    revroute_refusal refusal;
    bool fails = *up == LINKS || (*up && draw(2));
    size_t at = fails ? draw(*up) : *up + draw(LINKS - *up), border = fails ? --*up : (*up)++;
    revroute_link link = links[at];
    revroute_edit edit = {fails ? REVROUTE_CUT : REVROUTE_JOIN, link.tail, link.head};
    links[at] = links[border];
    links[border] = link;
    set(link, !fails);
    if (fails) forget(link);
    if (revroute_change(session, &edit, 1, round, &refusal) != REVROUTE_ANSWERED) stop("a change is not made");
}

int main(void) {
    revroute session = REVROUTE_NEW;
    revroute_link links[LINKS];
    revroute_round round;
    revroute_refusal refusal;
    lay(links);
    for (size_t at = 0; at < LINKS; at++) set(links[at], true);
    for (size_t node = 0; node < NODES; node++) table[node] = REVROUTE_CUT_OFF;
    if (revroute_open(&session, NODES, HOME, links, LINKS, &round, &refusal) != REVROUTE_ANSWERED) stop("there is no network");
    bool is_settled = true;
    size_t up = LINKS;
    for (int changes = 0; changes <= CHANGES; changes++) {
        if (changes) change(&session, links, &up, &round);
        bool is_interrupted = changes < CHANGES && draw(4) == 0;
        is_settled = push(&session, is_settled, is_interrupted);
        if (is_settled) follow_all(round.cut_off);
    }
    revroute_close(&session);
    printf("%d changes, some before all was pushed: no loop after any push, every table leads home\n", CHANGES);
}
