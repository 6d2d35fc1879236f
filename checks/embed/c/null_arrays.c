/* Each call that takes an array gets null for it, with a length that is not 0, as after a malloc that failed and was not
 * tested. The call must say so, and change neither the session nor any byte that it could write. */
#include "lines.h"

#include <revroute.h>

/* What calls write, one beside the other. The bytes at the end show writes beyond it. */
typedef struct places {
    revroute_round round;
    revroute_refusal why;
    size_t length, taken, starts[8];
    uint64_t state;
    uint32_t nodes[8];
    uint8_t bytes[REVROUTE_LEAST_ROOM];
    uint8_t beyond[256];
} places;

static revroute session;
static revroute_reader reader;
static revroute_way_reader way_reader;
static revroute_node node;
static places *at;

/* Compares the places and the session with those before a call that was refused. */
static void look(const char *call, revroute_status status) {
    places before;
    size_t length = 0;
    uint32_t nodes[8];
    memset(&before, 0x5a, sizeof before);
    if (status == REVROUTE_NULL_ARRAY && !memcmp(at, &before, sizeof before) &&
        revroute_walk(&session, 2, nodes, 8, &length) == REVROUTE_ANSWERED && length == 3 && nodes[1] == 1)
        return;
    fprintf(stderr, "%s with null: status %d, %s\n", call, (int)status, revroute_status_text(status));
    exit(1);
}

#define LOOK(call) (memset(at, 0x5a, sizeof *at), look(#call, revroute_##call))

static void pass_null(void) {
    uint8_t asked[] = "[\"links\"]";
    revroute_link links[] = {{1, 0}};
    revroute_edit edits[] = {{REVROUTE_CUT, 1, 0}};
    uint32_t table[] = {REVROUTE_HERE, 0, 0};
    LOOK(open(&session, 3, 0, NULL, 2, &at->round, &at->why));
    LOOK(change(&session, NULL, 1, &at->round, &at->why));
    LOOK(change_with_ways(&session, NULL, 1, &at->round, &at->why));
    LOOK(closed_walk(&session, NULL, 1, at->nodes, 8, &at->length));
    LOOK(closed_walk(&session, edits, 1, NULL, 8, &at->length));
    LOOK(closed_walk_of(3, NULL, 2, at->nodes, 8, &at->length));
    LOOK(closed_walk_of(3, links, 1, NULL, 8, &at->length));
    LOOK(answer(&session, NULL, 9, at->bytes, sizeof at->bytes, &at->length));
    LOOK(answer(&session, asked, 9, NULL, 64, &at->length));
    LOOK(take(&session, NULL, 9, at->bytes, sizeof at->bytes, &at->length, &at->taken));
    LOOK(take(&session, asked, 9, NULL, 64, &at->length, &at->taken));
    LOOK(finish(&session, NULL, 64, &at->length));
    LOOK(hops(&session, NULL, 8, &at->length));
    LOOK(changed(&session, NULL, 8, &at->length));
    LOOK(pushes(&session, NULL, 3, at->nodes, 8, &at->length));
    LOOK(pushes(&session, table, 3, NULL, 8, &at->length));
    LOOK(push_order(NULL, 3, table, 3, at->nodes, 8, &at->length, &at->why));
    LOOK(push_order(table, 3, NULL, 3, at->nodes, 8, &at->length, &at->why));
    LOOK(push_order(table, 3, table, 3, NULL, 8, &at->length, &at->why));
    LOOK(counts(&session, NULL, 8, &at->length));
    LOOK(walk(&session, 2, NULL, 10, &at->length));
    LOOK(ways(&session, 2, NULL, 8, &at->length));
    LOOK(nearest(&session, 2, NULL, 8, &at->length));
    LOOK(all_ways(&session, NULL, 8, at->nodes, 8, &at->length));
    LOOK(all_ways(&session, at->starts, 8, NULL, 8, &at->length));
    LOOK(shrink(&session, NULL, 4, at->nodes, 2, at->nodes, 8, &at->length));
    LOOK(shrink(&session, at->starts, 4, NULL, 2, at->nodes, 8, &at->length));
    LOOK(shrink(&session, at->starts, 4, at->nodes, 2, NULL, 8, &at->length));
    LOOK(grow(&session, NULL, 4, at->nodes, 2, at->nodes, 8, &at->length));
    LOOK(grow(&session, at->starts, 4, NULL, 2, at->nodes, 8, &at->length));
    LOOK(grow(&session, at->starts, 4, at->nodes, 2, NULL, 8, &at->length));
    LOOK(change_shrink(&session, NULL, 8, &at->length));
    LOOK(change_grow(&session, NULL, 8, &at->length));
    LOOK(links(&session, NULL, 8, &at->length));
    LOOK(reader_walk(&reader, 2, NULL, 8, &at->length));
    LOOK(way_reader_ways(&way_reader, 2, NULL, 8, &at->length));
    LOOK(node_hear(&node, NULL, REVROUTE_MESSAGE_LENGTH));
    LOOK(node_say(&node, 1, NULL, REVROUTE_MESSAGE_LENGTH, &at->length));
    LOOK(node_ways(&node, NULL, 8, &at->length, &at->state));
    LOOK(node_gates(&node, NULL, 8, &at->length, &at->state));
    LOOK(version(NULL, 16, &at->length));
}

#ifdef __GNUC__
#pragma GCC diagnostic ignored "-Wdeprecated-declarations"
#endif

static void pass_null_by_old_names(void) {
    LOOK(next_hops(&session, NULL, 8, &at->length));
    LOOK(rerouted(&session, NULL, 8, &at->length));
    LOOK(route(&session, 2, NULL, 8, &at->length));
    LOOK(reader_route(&reader, 2, NULL, 8, &at->length));
    LOOK(links_numbers(&session, NULL, 8, &at->length));
}

int main(void) {
    revroute_link links[] = {{1, 0}, {2, 1}};
    revroute_round round;
    revroute_refusal why;
    if (revroute_open(&session, 3, 0, links, 2, &round, &why) != REVROUTE_ANSWERED) stop("there is no network");
    if (revroute_reader_open(&session, &reader) != REVROUTE_ANSWERED) stop("there is no reader");
    if (revroute_way_reader_open(&session, &way_reader) != REVROUTE_ANSWERED) stop("there is no reader of ways");
    if (revroute_node_open_gateway(&node, 0, 1) != REVROUTE_ANSWERED) stop("there is no node");
    at = grown(NULL, sizeof *at);
    pass_null();
    pass_null_by_old_names();
    free(at);
    revroute_node_close(&node);
    revroute_reader_close(&reader);
    revroute_way_reader_close(&way_reader);
    revroute_close(&session);
    puts("no call takes null for an array");
    return 0;
}
