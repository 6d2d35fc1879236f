/* What the header adds to the library's calls, as a program in C and in C++: REVROUTE_NEW, REVROUTE_NO_READER,
 * REVROUTE_NO_WAY_READER and REVROUTE_NO_NODE are assigned, arrays without elements are null, each status and each
 * refusal has a text, and the names of the last version do what the new ones do. */
#include <revroute.h>
#include <stdio.h>
#include <stdlib.h>
#include <string.h>

static void expect(int holds, const char *what) {
    if (holds) return;
    fprintf(stderr, "%s\n", what);
    exit(1);
}

static void look_at_texts(void) {
    for (uint32_t at = 0; at <= REVROUTE_LINK_DOWN; at++)
        for (uint32_t other = 0; other < at; other++)
            expect(strcmp(revroute_status_text((revroute_status)at), revroute_status_text((revroute_status)other)), "two statuses have one text");
    for (uint32_t at = 0; at <= REVROUTE_TOO_MANY; at++)
        for (uint32_t other = 0; other < at; other++)
            expect(strcmp(revroute_refusal_text(at), revroute_refusal_text(other)), "two refusals have one text");
    expect(!strcmp(revroute_refusal_text(10), revroute_refusal_text(0)), "a number of no refusal has a text");
    expect(!strcmp(revroute_refusal_text(UINT32_MAX), revroute_refusal_text(0)), "a number of no refusal has a text");
    expect(!strcmp(revroute_refusal_text(REVROUTE_RANGE), "there is no such node"), "a refusal has the text of another");
    expect(!strcmp(revroute_status_text(REVROUTE_NO_MEMORY), "no memory"), "a status has the text of another");
}

/* Each call that takes an array, with null for no elements, on a session without a network. */
static void pass_null(revroute *session, revroute_reader *reader) {
    revroute_round round;
    revroute_refusal why;
    size_t length, taken;
    uint8_t answer[REVROUTE_LEAST_ROOM];
    expect(revroute_answer(session, NULL, 0, answer, sizeof answer, &length) == REVROUTE_BLANK, "null is a line");
    expect(revroute_answer(session, NULL, 0, NULL, 0, &length) == REVROUTE_TOO_SHORT && length == REVROUTE_LEAST_ROOM, "null is a buffer");
    expect(revroute_take(session, NULL, 0, answer, sizeof answer, &length, &taken) == REVROUTE_BEGUN && !taken, "null is a piece");
    expect(revroute_take(session, NULL, 0, NULL, 0, &length, &taken) == REVROUTE_TOO_SHORT && !taken, "null is a buffer for a piece");
    expect(revroute_finish(session, NULL, 0, &length) == REVROUTE_TOO_SHORT, "null is a buffer for the end");
    expect(revroute_change(session, NULL, 0, &round, &why) == REVROUTE_NO_NETWORK, "a change is made of nothing");
    expect(revroute_change_with_ways(session, NULL, 0, &round, &why) == REVROUTE_NO_NETWORK, "a change with ways is made of nothing");
    expect(revroute_change_shrink(session, NULL, 0, &length) == REVROUTE_ANSWERED && !length, "something is kept to shrink before a network");
    expect(revroute_closed_walk_of(2, NULL, 0, NULL, 0, &length) == REVROUTE_NO_WALK, "there is a cycle of no links");
    expect(revroute_version(NULL, 0, &length) == REVROUTE_TOO_SHORT && length == strlen(REVROUTE_VERSION), "null is a text");
    expect(revroute_changed(session, NULL, 0, &length) == REVROUTE_NO_NETWORK && !length, "a node is rerouted before a network");
    expect(revroute_open(session, 2, 1, NULL, 0, &round, &why) == REVROUTE_ANSWERED, "there is no network without links");
    expect(revroute_change(session, NULL, 0, &round, &why) == REVROUTE_ANSWERED && round.cut_off == 1, "no edits are no batch");
    expect(revroute_closed_walk(session, NULL, 0, NULL, 0, &length) == REVROUTE_NO_WALK, "there is a cycle of no edits");
    expect(revroute_pushes(session, NULL, 0, NULL, 0, &length) == REVROUTE_NO_TABLE, "null is a table");
    expect(revroute_push_order(NULL, 0, NULL, 0, NULL, 0, &length, &why) == REVROUTE_ANSWERED && !length, "null tables have pushes");
    expect(revroute_hops(session, NULL, 0, &length) == REVROUTE_TOO_SHORT && length == 2, "hops fit into null");
    expect(revroute_counts(session, NULL, 0, &length) == REVROUTE_TOO_SHORT && length == 2, "counts fit into null");
    expect(revroute_walk(session, 1, NULL, 0, &length) == REVROUTE_TOO_SHORT && length == 1, "a route fits into null");
    expect(revroute_ways(session, 1, NULL, 0, &length) == REVROUTE_ANSWERED && !length, "the destination has a way");
    expect(revroute_nearest(session, 1, NULL, 0, &length) == REVROUTE_TOO_SHORT && length == 1, "a nearest route fits into null");
    expect(revroute_all_ways(session, NULL, 0, NULL, 0, &length) == REVROUTE_TOO_SHORT && !length, "starts fit into null");
    expect(revroute_shrink(session, NULL, 0, NULL, 0, NULL, 0, &length) == REVROUTE_NO_TABLE && !length, "null is a table of ways that shrinks");
    expect(revroute_grow(session, NULL, 0, NULL, 0, NULL, 0, &length) == REVROUTE_NO_TABLE && !length, "null is a table of ways that grows");
    expect(revroute_change_with_ways(session, NULL, 0, &round, &why) == REVROUTE_ANSWERED && round.cut_off == 1, "no edits are no batch with ways");
    expect(revroute_change_shrink(session, NULL, 0, &length) == REVROUTE_ANSWERED && !length, "no edits make something shrink");
    expect(revroute_change_grow(session, NULL, 0, &length) == REVROUTE_ANSWERED && !length, "no edits make something grow");
    expect(revroute_links(session, NULL, 0, &length) == REVROUTE_ANSWERED && !length, "there are links");
    expect(revroute_reader_open(session, reader) == REVROUTE_ANSWERED, "there is no reader");
    expect(revroute_reader_walk(reader, 1, NULL, 0, &length) == REVROUTE_TOO_SHORT && length == 1, "a walk fits into null");
    expect(revroute_dest(session) == 1, "the destination is another");
}

/* The call on a reader of ways that takes an array, with null for no elements. Node 0 has one way, and node 1 none. */
static void pass_null_to_way_reader(void) {
    revroute session = REVROUTE_NEW;
    revroute_way_reader reader = REVROUTE_NO_WAY_READER;
    revroute_link link = {0, 1};
    revroute_round round;
    revroute_refusal why;
    size_t length;
    expect(revroute_open(&session, 2, 1, &link, 1, &round, &why) == REVROUTE_ANSWERED, "there is no network");
    expect(revroute_way_reader_open(&session, &reader) == REVROUTE_ANSWERED, "there is no reader of ways");
    expect(revroute_way_reader_ways(&reader, 0, NULL, 0, &length) == REVROUTE_TOO_SHORT && length == 1, "a way fits into null");
    expect(revroute_way_reader_ways(&reader, 1, NULL, 0, &length) == REVROUTE_ANSWERED && !length, "the destination has a way to read");
    revroute_close(&session);
    revroute_way_reader_close(&reader);
    reader = REVROUTE_NO_WAY_READER;
    expect(!reader.at, "what is new is not null");
}

/* The calls on a node that take an array, with null for no elements. */
static void pass_null_to_node(void) {
    revroute_node node = REVROUTE_NO_NODE;
    size_t length;
    uint64_t state = 9;
    expect(revroute_node_open_gateway(&node, 0, 1) == REVROUTE_ANSWERED, "there is no gateway");
    expect(revroute_node_hear(&node, NULL, 0) == REVROUTE_NO_MESSAGE, "null is a message");
    expect(revroute_node_say(&node, 1, NULL, 0, &length) == REVROUTE_TOO_SHORT && length == REVROUTE_MESSAGE_LENGTH, "a message fits into null");
    expect(revroute_node_ways(&node, NULL, 0, &length, &state) == REVROUTE_ANSWERED && !length && !state, "a gateway has a way");
    expect(revroute_node_link_up(&node, 1) == REVROUTE_ANSWERED && revroute_node_know(&node, 1, 1) == REVROUTE_ANSWERED, "there is no neighbour");
    expect(revroute_node_gates(&node, NULL, 0, &length, &state) == REVROUTE_ANSWERED && !length && state == 1, "a neighbour is let in");
    revroute_node_close(&node);
    node = REVROUTE_NO_NODE;
    expect(!node.at, "what is new is not null");
}

#ifdef __GNUC__
#pragma GCC diagnostic ignored "-Wdeprecated-declarations"
#endif

/* The names of the last version, beside the new ones. */
static void compare_names(revroute *session, revroute_reader *reader) {
    revroute_link links[] = {{1, 0}, {2, 1}}, now[2];
    revroute_edit cut = {REVROUTE_CUT, 1, 0}, add = {REVROUTE_ADD, 1, 0};
    revroute_round round, other;
    revroute_refusal why;
    uint32_t one[4] = {7, 7, 7, 7}, two[4] = {7, 7, 7, 7};
    uint64_t turned, cut_off;
    size_t some, same;
    expect(revroute_open(session, 3, 0, links, 2, &round, &why) == REVROUTE_ANSWERED, "there is no network");
    expect(revroute_move(session, 2, &round, &why) == REVROUTE_ANSWERED && revroute_dest(session) == 2, "the destination stays");
    expect(revroute_move_dest(session, 0, &other, &why) == REVROUTE_ANSWERED && revroute_dest(session) == 0, "the destination stays");
    expect(revroute_rerouted(session, one, 4, &some) == REVROUTE_ANSWERED && revroute_changed(session, two, 4, &same) == REVROUTE_ANSWERED, "no nodes");
    expect(some == 3 && same == 3 && !memcmp(one, two, sizeof one), "other nodes are rerouted");
    expect(revroute_next_hops(session, one, 4, &some) == REVROUTE_ANSWERED && revroute_hops(session, two, 4, &same) == REVROUTE_ANSWERED, "no hops");
    expect(some == 3 && same == 3 && !memcmp(one, two, sizeof one), "the hops are others");
    expect(revroute_route(session, 2, one, 4, &some) == REVROUTE_ANSWERED && revroute_walk(session, 2, two, 4, &same) == REVROUTE_ANSWERED, "no route");
    expect(some == 3 && same == 3 && !memcmp(one, two, sizeof one), "the route is another");
    expect(revroute_reader_route(reader, 2, one, 4, &some) == REVROUTE_ANSWERED && revroute_reader_walk(reader, 2, two, 4, &same) == REVROUTE_ANSWERED, "no walk");
    expect(some == 3 && same == 3 && !memcmp(one, two, sizeof one), "the walk is another");
    expect(revroute_links_numbers(session, one, 3, &some) == REVROUTE_TOO_SHORT && some == 4, "links fit where they do not");
    expect(revroute_links_numbers(session, one, 4, &some) == REVROUTE_ANSWERED && some == 4, "there are no links");
    expect(revroute_links(session, now, 2, &same) == REVROUTE_ANSWERED && same == 2 && !memcmp(one, now, sizeof one), "the links are others");
    expect(revroute_change(session, &cut, 1, &other, &why) == REVROUTE_ANSWERED, "a link is not cut");
    expect(revroute_report_numbers(session, &turned, &cut_off) == REVROUTE_ANSWERED && revroute_report(session, &round) == REVROUTE_ANSWERED, "no report");
    expect(turned == round.turned && cut_off == 2 && round.cut_off == 2 && other.turned == turned, "the report is another");
    expect(revroute_change(session, &add, 1, &other, &why) == REVROUTE_ANSWERED, "a link is not added");
}

int main(void) {
    revroute session = REVROUTE_NEW, sessions[2] = {REVROUTE_NEW, REVROUTE_NEW};
    revroute_reader reader = REVROUTE_NO_READER;
    revroute_round round = {7, 7};
    look_at_texts();
    pass_null(&session, &reader);
    pass_null_to_way_reader();
    pass_null_to_node();
    compare_names(&session, &reader);
    revroute_close(&session);
    revroute_reader_close(&reader);
    session = REVROUTE_NEW;
    reader = REVROUTE_NO_READER;
    expect(!session.at && !reader.at && !sessions[1].at, "what is new is not null");
    expect(revroute_dest(&session) == REVROUTE_NO_HOP, "there is a destination before a network");
    expect(revroute_report(&session, &round) == REVROUTE_NO_NETWORK && !round.turned && !round.cut_off, "there is a report before a network");
    puts("the words hold");
    return 0;
}
