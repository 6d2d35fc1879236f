/* The library with a fault in it. checks/embed/can-fail builds it with each FAULT. The names of the real calls begin
 * with engine_ there. */
#define REVROUTE_SYMBOLS
#include <revroute.h>
#include <stdbool.h>
#include <stdlib.h>
#include <string.h>

revroute_status engine_all_ways(revroute *, size_t *, size_t, uint32_t *, size_t, size_t *);
revroute_status engine_answer(revroute *, const uint8_t *, size_t, uint8_t *, size_t, size_t *);
revroute_status engine_change(revroute *, const revroute_edit *, size_t, revroute_round *, revroute_refusal *);
void engine_close(revroute *);
revroute_status engine_closed_walk(revroute *, const revroute_edit *, size_t, uint32_t *, size_t, size_t *);
revroute_status engine_closed_walk_of(uint32_t, const revroute_link *, size_t, uint32_t *, size_t, size_t *);
uint32_t engine_dest(revroute *);
revroute_status engine_finish(revroute *, uint8_t *, size_t, size_t *);
revroute_status engine_links(revroute *, revroute_link *, size_t, size_t *);
revroute_status engine_move_dest(revroute *, uint32_t, revroute_round *, revroute_refusal *);
revroute_status engine_nearest(revroute *, uint32_t, uint32_t *, size_t, size_t *);
revroute_status engine_node_hear(revroute_node *, const uint8_t *, size_t);
revroute_status engine_node_know(revroute_node *, uint32_t, uint32_t);
uint32_t engine_node_lets_in(revroute_node *, uint32_t);
revroute_status engine_node_link_down(revroute_node *, uint32_t);
revroute_status engine_node_say(revroute_node *, uint32_t, uint8_t *, size_t, size_t *);
revroute_status engine_node_ways(revroute_node *, uint32_t *, size_t, size_t *, uint64_t *);
revroute_status engine_node_gates(revroute_node *, uint32_t *, size_t, size_t *, uint64_t *);
revroute_status engine_node_written(revroute_node *, uint64_t);
void engine_node_close(revroute_node *);
revroute_status engine_node_open(revroute_node *, uint32_t, uint64_t, uint64_t, const revroute_policy *);
revroute_status engine_open(revroute *, uint32_t, uint32_t, const revroute_link *, size_t, revroute_round *, revroute_refusal *);
revroute_status engine_push_order(const uint32_t *, size_t, const uint32_t *, size_t, uint32_t *, size_t, size_t *, revroute_refusal *);
revroute_status engine_pushes(revroute *, const uint32_t *, size_t, uint32_t *, size_t, size_t *);
void engine_reader_close(revroute_reader *);
revroute_status engine_reader_copy(revroute_reader *, revroute_reader *);
revroute_status engine_reader_learn(revroute_reader *, revroute_reader *);
uint32_t engine_reader_next_hop(revroute_reader *, uint32_t);
revroute_status engine_reader_open(revroute *, revroute_reader *);
revroute_status engine_reader_walk(revroute_reader *, uint32_t, uint32_t *, size_t, size_t *);
revroute_status engine_report(revroute *, revroute_round *);
revroute_status engine_changed(revroute *, uint32_t *, size_t, size_t *);
revroute_status engine_walk(revroute *, uint32_t, uint32_t *, size_t, size_t *);
void engine_way_reader_close(revroute_way_reader *);
revroute_status engine_way_reader_copy(revroute_way_reader *, revroute_way_reader *);
revroute_status engine_way_reader_learn(revroute_way_reader *, revroute_way_reader *);
revroute_status engine_way_reader_open(revroute *, revroute_way_reader *);
uint32_t engine_way_reader_way(revroute_way_reader *, uint32_t, uint32_t);
revroute_status engine_way_reader_ways(revroute_way_reader *, uint32_t, uint32_t *, size_t, size_t *);
revroute_status engine_ways(revroute *, uint32_t, uint32_t *, size_t, size_t *);
revroute_status engine_change_with_ways(revroute *, const revroute_edit *, size_t, revroute_round *, revroute_refusal *);
revroute_status engine_change_shrink(revroute *, uint32_t *, size_t, size_t *);
revroute_status engine_change_grow(revroute *, uint32_t *, size_t, size_t *);
revroute_status engine_shrink(revroute *, const size_t *, size_t, const uint32_t *, size_t, uint32_t *, size_t, size_t *);
revroute_status engine_size(revroute *, uint32_t *, size_t *);
revroute_status engine_take(revroute *, const uint8_t *, size_t, uint8_t *, size_t, size_t *, size_t *);
revroute_status engine_version(uint8_t *, size_t, size_t *);

enum {
    no_fault,
    a_byte_too_few,
    a_byte_behind_the_answer,
    the_line_read_too_far,
    a_length_with_no_answer,
    sessions_that_share,
    too_short_after_the_state_has_moved_on,
    too_short_that_wants_too_little,
    no_memory_told_as_blank,
    no_memory_that_loses_the_session,
    a_blank_line_without_memory,
    a_session_for_a_blank_line,
    an_empty_input_without_memory,
    a_blank_piece_without_memory,
    close_that_keeps_the_memory,
    another_version,
    a_byte_lost_between_two_pieces,
    one_byte_too_few_taken,
    a_piece_kept_that_was_too_short,
    no_memory_that_loses_what_has_begun,
    the_piece_read_too_far,
    the_longest_line_told_as_too_long,
    a_last_line_without_an_answer,
    an_answer_that_ends_what_has_begun,
    a_route_without_the_destination,
    a_route_of_a_node_that_is_none,
    farthest_way_first,
    ways_of_a_node_that_is_cut_off,
    a_way_too_few,
    the_route_for_the_nearest,
    starts_without_the_end,
    a_shrink_that_keeps_a_lost_way,
    a_grow_before_the_shrinks,
    a_change_that_keeps_the_pushes_before,
    kept_growths_for_kept_shrinks,
    no_session_told_as_no_memory_for_shrinks,
    no_session_told_as_no_memory_for_growths,
    a_report_of_another_round,
    a_destination_of_its_own,
    a_link_too_few,
    a_link_told_backwards,
    a_round_of_another_call,
    a_round_written_by_a_refusal,
    a_refusal_of_the_last_edit,
    a_refusal_of_the_link_turned_round,
    a_refused_change_made_in_part,
    a_change_without_its_last_edit,
    no_memory_that_loses_the_network,
    the_edits_read_too_far,
    a_network_that_tells_no_node,
    a_network_refused_for_its_last_fault,
    a_destination_that_stays,
    a_walk_without_its_end,
    a_walk_that_is_not_found,
    a_walk_that_makes_the_edits,
    rerouted_nodes_by_number,
    no_rerouted_node_that_is_gone,
    pushes_by_number,
    pushes_of_the_last_change_alone,
    a_push_left_out,
    pushes_where_they_have_no_room,
    no_memory_told_as_no_push,
    a_longer_table_taken,
    a_shorter_table_taken,
    a_hop_of_no_node_taken,
    an_order_backwards,
    an_order_where_it_has_no_room,
    a_loop_that_does_not_come_back,
    a_new_table_tested_first,
    no_memory_told_as_no_order,
    the_table_read_too_far,
    a_reader_replaced_and_not_closed,
    a_reader_closed_that_keeps_its_memory,
    a_reader_before_a_network_told_as_no_memory,
    a_second_reader_told_as_no_memory,
    a_copy_that_is_the_reader,
    a_copy_without_memory_that_closes_another,
    a_null_reader_learned_from,
    a_reader_learned_from_and_closed,
    no_reader_told_as_cut_off,
    a_number_of_no_node_told_as_cut_off,
    a_walk_without_its_destination,
    a_walk_of_no_route_with_a_length,
    a_walk_that_wants_too_little_room,
    a_walk_that_leaves_its_last_place,
    a_reader_of_ways_replaced_and_not_closed,
    a_reader_of_ways_closed_that_keeps_its_memory,
    a_copy_that_is_the_reader_of_ways,
    a_null_reader_of_ways_learned_from,
    ways_where_they_have_no_room_to_be_read,
    ways_that_want_too_little_room,
    ways_that_are_read_of_another_node,
    a_way_whatever_the_choice,
    no_reader_of_ways_told_as_cut_off,
    a_node_that_speaks_before_it_is_written,
    a_short_message_that_is_written,
    noise_told_as_heard,
    noise_that_is_to_be_written,
    the_message_read_too_far,
    a_repeat_that_is_an_event,
    a_message_that_is_not_heard,
    a_way_of_a_node_too_few,
    a_gate_that_is_open_too_early,
    a_gate_too_few,
    gates_by_number,
    gates_with_no_number,
    a_state_that_is_never_outdated,
    a_later_start_that_is_not_told,
    a_later_start_of_a_stranger,
    a_later_start_that_is_an_event,
    a_great_height_taken,
    a_null_node_that_lets_in,
    a_known_neighbour_told_as_no_memory,
    a_network_replaced_and_not_closed,
    a_node_replaced_and_not_closed,
    a_node_closed_that_keeps_its_memory
};

/* Asks once more with enough room, as if the state had changed although the buffer was too short. */
static uint32_t move_on(revroute *session, const uint8_t *line, size_t line_length, size_t *length) {
    uint8_t spare[REVROUTE_LEAST_ROOM];
    engine_answer(session, line, line_length, spare, sizeof spare, length);
    *length = REVROUTE_LEAST_ROOM;
    return REVROUTE_TOO_SHORT;
}

/* Whether the block of a new session is refused. It is allocated before the line is read. */
static int wants_memory(const revroute *session) {
    void *volatile block = session->at ? NULL : malloc(sizeof *session);
    int is_refused = !session->at && !block;
    free(block);
    return is_refused;
}

revroute_status revroute_answer(revroute *session, const uint8_t *line, size_t line_length, uint8_t *answer, size_t room,
                         size_t *length) {
    static revroute shared = REVROUTE_NEW;
    if (FAULT == an_answer_that_ends_what_has_begun && room >= REVROUTE_LEAST_ROOM) engine_finish(session, answer, room, length);
    if (FAULT == sessions_that_share) session = &shared;
    if (FAULT == too_short_after_the_state_has_moved_on && room < REVROUTE_LEAST_ROOM)
        return move_on(session, line, line_length, length);
    if (FAULT == a_blank_line_without_memory && room >= REVROUTE_LEAST_ROOM && wants_memory(session)) {
        *length = 0;
        return REVROUTE_NO_MEMORY;
    }
    if (FAULT == the_line_read_too_far && line[line_length] == 0xff) return REVROUTE_BLANK;
    uint32_t status = engine_answer(session, line, line_length, answer, room, length);
    if (FAULT == a_byte_too_few && status == REVROUTE_ANSWERED) --*length;
    if (FAULT == a_byte_behind_the_answer && status == REVROUTE_ANSWERED) answer[*length] = 0;
    if (FAULT == a_length_with_no_answer && status == REVROUTE_BLANK) *length = line_length + 1;
    if (FAULT == too_short_that_wants_too_little && status == REVROUTE_TOO_SHORT && room >= REVROUTE_LEAST_ROOM) --*length;
    if (FAULT == no_memory_that_loses_the_session && status == REVROUTE_NO_MEMORY) engine_close(session);
    if (FAULT == a_session_for_a_blank_line && status == REVROUTE_BLANK) {
        move_on(session, (const uint8_t *)"[]", 2, length);
        *length = 0;
    }
    return FAULT == no_memory_told_as_blank && status == REVROUTE_NO_MEMORY ? REVROUTE_BLANK : status;
}

/* Keeps a piece without its newline, although it was not taken. */
static void keep(revroute *session, const uint8_t *piece, size_t piece_length) {
    uint8_t spare[REVROUTE_LEAST_ROOM];
    size_t length, taken;
    const uint8_t *end = piece_length ? memchr(piece, '\n', piece_length) : NULL;
    engine_take(session, piece, end ? (size_t)(end - piece) : piece_length, spare, sizeof spare, &length, &taken);
}

revroute_status revroute_take(revroute *session, const uint8_t *piece, size_t piece_length, uint8_t *answer, size_t room,
                       size_t *length, size_t *taken) {
    int is_kept = !piece_length || !memchr(piece, '\n', piece_length);
    if (FAULT == the_piece_read_too_far && piece[piece_length] == 0xff) return REVROUTE_BEGUN;
    if (FAULT == the_longest_line_told_as_too_long && piece_length == 16777217) {
        *length = *taken = 0;
        return REVROUTE_TOO_LONG;
    }
    if (FAULT == a_blank_piece_without_memory && room >= REVROUTE_LEAST_ROOM && !session->at && piece_length == 1 && *piece == '\n') {
        *length = *taken = 0;
        return REVROUTE_NO_MEMORY;
    }
    size_t lost = FAULT == a_byte_lost_between_two_pieces && is_kept && piece_length > 1;
    uint32_t status = engine_take(session, piece, piece_length - lost, answer, room, length, taken);
    if (status == REVROUTE_BEGUN) *taken += lost;
    if (FAULT == one_byte_too_few_taken && *taken > 1) --*taken;
    if (FAULT == a_piece_kept_that_was_too_short && status == REVROUTE_TOO_SHORT && session->at) keep(session, piece, piece_length);
    if (FAULT == no_memory_that_loses_what_has_begun && status == REVROUTE_NO_MEMORY && session->at) {
        uint8_t spare[REVROUTE_LEAST_ROOM];
        size_t none;
        engine_take(session, (const uint8_t *)"\n", 1, spare, sizeof spare, &none, &none);
    }
    return status;
}

revroute_status revroute_finish(revroute *session, uint8_t *answer, size_t room, size_t *length) {
    if (FAULT == an_empty_input_without_memory && room > REVROUTE_LEAST_ROOM && !session->at) {
        *length = 0;
        return REVROUTE_NO_MEMORY;
    }
    uint32_t status = engine_finish(session, answer, room, length);
    if (FAULT != a_last_line_without_an_answer || status != REVROUTE_ANSWERED) return status;
    *length = 0;
    return REVROUTE_BLANK;
}

revroute_status revroute_walk(revroute *session, uint32_t node, uint32_t *nodes, size_t room, size_t *length) {
    uint32_t status = engine_walk(session, node, nodes, room, length);
    if (FAULT == a_route_without_the_destination && status == REVROUTE_ANSWERED && *length > 1) --*length;
    if (FAULT == a_route_of_a_node_that_is_none && status == REVROUTE_NO_ROUTE && room) {
        uint32_t nodes_before;
        size_t links;
        engine_size(session, &nodes_before, &links);
        return node < nodes_before ? status : engine_walk(session, nodes_before - 1, nodes, room, length);
    }
    return status;
}

revroute_status revroute_ways(revroute *session, uint32_t node, uint32_t *ways, size_t room, size_t *length) {
    uint32_t status = engine_ways(session, node, ways, room, length);
    if (FAULT == a_way_too_few && status == REVROUTE_ANSWERED && *length > 1) --*length;
    if (FAULT == ways_of_a_node_that_is_cut_off && status == REVROUTE_NO_ROUTE) return REVROUTE_ANSWERED;
    if (FAULT == farthest_way_first && status == REVROUTE_ANSWERED && *length > 1) {
        uint32_t last = ways[*length - 1];
        ways[*length - 1] = ways[0];
        ways[0] = last;
    }
    return status;
}

revroute_status revroute_nearest(revroute *session, uint32_t node, uint32_t *nodes, size_t room, size_t *length) {
    if (FAULT == the_route_for_the_nearest) return engine_walk(session, node, nodes, room, length);
    return engine_nearest(session, node, nodes, room, length);
}

revroute_status revroute_all_ways(revroute *session, size_t *starts, size_t starts_room, uint32_t *ways, size_t ways_room,
                                  size_t *length) {
    size_t last = starts_room ? starts[starts_room - 1] : 0;
    uint32_t status = engine_all_ways(session, starts, starts_room, ways, ways_room, length);
    if (FAULT == starts_without_the_end && status == REVROUTE_ANSWERED) starts[starts_room - 1] = last;
    return status;
}

/* Puts a way that a node loses in the place of one that it keeps. */
static void keep_lost(const size_t *starts, const uint32_t *ways, uint32_t *pushes, size_t length) {
    for (size_t from = 0; from < length; from += 2 + pushes[from + 1]) {
        uint32_t x = pushes[from], count = pushes[from + 1], *kept = pushes + from + 2;
        for (size_t at = starts[x]; count && at < starts[x + 1]; at++) {
            bool is_kept = false;
            for (uint32_t k = 0; k < count; k++) is_kept |= kept[k] == ways[at];
            if (is_kept) continue;
            kept[count - 1] = ways[at];
            return;
        }
    }
}

revroute_status revroute_shrink(revroute *session, const size_t *starts, size_t starts_count, const uint32_t *ways, size_t count,
                                uint32_t *pushes, size_t room, size_t *length) {
    if (FAULT == a_grow_before_the_shrinks)
        return revroute_grow(session, starts, starts_count, ways, count, pushes, room, length);
    uint32_t status = engine_shrink(session, starts, starts_count, ways, count, pushes, room, length);
    if (FAULT == a_shrink_that_keeps_a_lost_way && status == REVROUTE_ANSWERED) keep_lost(starts, ways, pushes, *length);
    return status;
}

revroute_status revroute_change_with_ways(revroute *session, const revroute_edit *edits, size_t count, revroute_round *round,
                                          revroute_refusal *refusal) {
    if (FAULT == a_change_that_keeps_the_pushes_before) return engine_change(session, edits, count, round, refusal);
    return engine_change_with_ways(session, edits, count, round, refusal);
}

revroute_status revroute_change_shrink(revroute *session, uint32_t *pushes, size_t room, size_t *length) {
    if (FAULT == kept_growths_for_kept_shrinks) return revroute_change_grow(session, pushes, room, length);
    if (FAULT == no_session_told_as_no_memory_for_shrinks && !session->at) {
        *length = 0;
        return REVROUTE_NO_MEMORY;
    }
    return engine_change_shrink(session, pushes, room, length);
}

revroute_status revroute_change_grow(revroute *session, uint32_t *pushes, size_t room, size_t *length) {
    if (FAULT == no_session_told_as_no_memory_for_growths && !session->at) {
        *length = 0;
        return REVROUTE_NO_MEMORY;
    }
    return engine_change_grow(session, pushes, room, length);
}

revroute_status revroute_links(revroute *session, revroute_link *links, size_t room, size_t *length) {
    revroute_status status = engine_links(session, links, room, length);
    if (FAULT == a_link_told_backwards && status == REVROUTE_ANSWERED && *length) {
        revroute_link last = links[*length - 1];
        links[*length - 1] = (revroute_link){last.head, last.tail};
    }
    return status;
}

revroute_status revroute_report(revroute *session, revroute_round *round) {
    static uint64_t last;
    revroute_status status = engine_report(session, round);
    uint64_t now = round->turned;
    if (FAULT == a_report_of_another_round) round->turned = last;
    last = now;
    return status;
}

uint32_t revroute_dest(revroute *session) {
    uint32_t dest = engine_dest(session);
    return FAULT == a_destination_of_its_own && dest != REVROUTE_NO_HOP ? 0 : dest;
}

revroute_status revroute_size(revroute *session, uint32_t *nodes, size_t *links) {
    uint32_t status = engine_size(session, nodes, links);
    if (FAULT == a_link_too_few && *links) --*links;
    return status;
}

revroute_status revroute_open(revroute *session, uint32_t nodes, uint32_t dest, const revroute_link *links, size_t count,
                       revroute_round *round, revroute_refusal *refusal) {
    if (FAULT == a_network_refused_for_its_last_fault && dest >= nodes) links += count, count = 0;
    revroute before = *session;
    if (FAULT == a_network_replaced_and_not_closed) session->at = NULL;
    uint32_t status = engine_open(session, nodes, dest, links, count, round, refusal);
    if (FAULT == a_network_replaced_and_not_closed && status != REVROUTE_ANSWERED) *session = before;
    revroute_round spare;
    revroute_edit none = {0, 0, 0};
    if (FAULT == a_network_that_tells_no_node && status == REVROUTE_ANSWERED) engine_change(session, &none, 0, &spare, refusal);
    return status;
}

revroute_status revroute_change(revroute *session, const revroute_edit *edits, size_t count, revroute_round *round,
                         revroute_refusal *refusal) {
    static revroute_round last;
    if (FAULT == the_edits_read_too_far && edits[count].kind == 0xff) return REVROUTE_NO_MEMORY;
    if (FAULT == a_change_without_its_last_edit && count > 1) count--;
    uint32_t status = engine_change(session, edits, count, round, refusal);
    if (FAULT == a_round_of_another_call && status == REVROUTE_ANSWERED) {
        revroute_round now = *round;
        *round = last;
        last = now;
    }
    if (FAULT == no_memory_that_loses_the_network && status == REVROUTE_NO_MEMORY) engine_close(session);
    if (status != REVROUTE_REFUSED) return status;
    if (FAULT == a_round_written_by_a_refusal) round->turned = 0;
    if (FAULT == a_refusal_of_the_last_edit && refusal->at < count) refusal->at = count - 1;
    if (FAULT == a_refusal_of_the_link_turned_round) {
        uint32_t u = refusal->u;
        refusal->u = refusal->v;
        refusal->v = u;
    }
    revroute_refusal spare;
    revroute_round part;
    if (FAULT == a_refused_change_made_in_part && refusal->at < count) engine_change(session, edits, refusal->at, &part, &spare);
    return status;
}

revroute_status revroute_move_dest(revroute *session, uint32_t dest, revroute_round *round, revroute_refusal *refusal) {
    if (FAULT != a_destination_that_stays) return engine_move_dest(session, dest, round, refusal);
    return engine_change(session, &(revroute_edit){0, 0, 0}, 0, round, refusal);
}

revroute_status revroute_closed_walk(revroute *session, const revroute_edit *edits, size_t count, uint32_t *nodes, size_t room,
                              size_t *length) {
    uint32_t status = engine_closed_walk(session, edits, count, nodes, room, length);
    revroute_round round;
    revroute_refusal refusal;
    if (FAULT == a_walk_that_makes_the_edits) engine_change(session, edits, count, &round, &refusal);
    if (FAULT == a_walk_without_its_end && status == REVROUTE_ANSWERED) --*length;
    return status;
}

revroute_status revroute_closed_walk_of(uint32_t nodes, const revroute_link *links, size_t count, uint32_t *walk, size_t room,
                                 size_t *length) {
    uint32_t status = engine_closed_walk_of(nodes, links, count, walk, room, length);
    if (FAULT != a_walk_that_is_not_found || status != REVROUTE_TOO_SHORT) return status;
    *length = 0;
    return REVROUTE_NO_WALK;
}

static int compare_numbers(const void *one, const void *other) {
    uint32_t a = *(const uint32_t *)one, b = *(const uint32_t *)other;
    return (a > b) - (a < b);
}

revroute_status revroute_changed(revroute *session, uint32_t *nodes, size_t room, size_t *length) {
    uint32_t status = engine_changed(session, nodes, room, length), count;
    size_t links;
    if (status != REVROUTE_ANSWERED) return status;
    if (FAULT == rerouted_nodes_by_number) qsort(nodes, *length, sizeof *nodes, compare_numbers);
    engine_size(session, &count, &links);
    for (size_t at = 0; FAULT == no_rerouted_node_that_is_gone && at < *length; at++)
        if (nodes[at] >= count) memmove(nodes + at, nodes + at + 1, (--*length - at--) * sizeof *nodes);
    return status;
}

/* Repairs a wrong table instead of refusing it. */
static const uint32_t *made_fit(revroute *session, const uint32_t *table, size_t *count) {
    static uint32_t fit[4096];
    uint32_t nodes;
    size_t links;
    engine_size(session, &nodes, &links);
    for (size_t x = 0; x < nodes; x++) {
        fit[x] = x < *count ? table[x] : REVROUTE_CUT_OFF;
        if (FAULT == a_hop_of_no_node_taken && fit[x] >= nodes && fit[x] < REVROUTE_CUT_OFF) fit[x] = REVROUTE_CUT_OFF;
    }
    if (FAULT == a_longer_table_taken && *count > nodes) *count = nodes;
    if (FAULT == a_shorter_table_taken && *count < nodes) *count = nodes;
    return fit;
}

revroute_status revroute_pushes(revroute *session, const uint32_t *table, size_t count, uint32_t *nodes, size_t room,
                         size_t *length) {
    if (FAULT == the_table_read_too_far && table[count] == 0xff) return REVROUTE_NO_MEMORY;
    if (FAULT == a_longer_table_taken || FAULT == a_shorter_table_taken || FAULT == a_hop_of_no_node_taken)
        table = made_fit(session, table, &count);
    uint32_t status = engine_pushes(session, table, count, nodes, room, length);
    if (FAULT == no_memory_told_as_no_push && status == REVROUTE_NO_MEMORY) return REVROUTE_ANSWERED;
    if (FAULT == pushes_where_they_have_no_room && status == REVROUTE_TOO_SHORT && room) nodes[room - 1] = 0;
    if (status != REVROUTE_ANSWERED) return status;
    if (FAULT == pushes_of_the_last_change_alone) return engine_changed(session, nodes, room, length);
    if (FAULT == pushes_by_number) qsort(nodes, *length, sizeof *nodes, compare_numbers);
    if (FAULT == a_push_left_out && *length) --*length;
    return status;
}

revroute_status revroute_push_order(const uint32_t *old, size_t old_count, const uint32_t *new, size_t new_count,
                                    uint32_t *nodes, size_t room, size_t *length, revroute_refusal *refusal) {
    bool is_swapped = FAULT == a_new_table_tested_first && old_count == new_count;
    uint32_t status = engine_push_order(old, old_count, new, new_count, nodes, room, length, refusal);
    if (is_swapped && status == REVROUTE_REFUSED && refusal->number == REVROUTE_RANGE)
        for (size_t at = 0; at < new_count; at++)
            if (new[at] >= new_count && new[at] < REVROUTE_CUT_OFF) refusal->u = refusal->v = new[at];
    if (FAULT == no_memory_told_as_no_order && status == REVROUTE_NO_MEMORY) return REVROUTE_ANSWERED;
    if (FAULT == an_order_where_it_has_no_room && status == REVROUTE_TOO_SHORT && room) nodes[room - 1] = 0;
    if (FAULT == an_order_backwards && status == REVROUTE_ANSWERED)
        for (size_t at = 0; at < *length / 2; at++) {
            uint32_t node = nodes[at];
            nodes[at] = nodes[*length - 1 - at];
            nodes[*length - 1 - at] = node;
        }
    if (FAULT == a_loop_that_does_not_come_back && status == REVROUTE_REFUSED && *length) --*length;
    return status;
}

revroute_status revroute_reader_open(revroute *session, revroute_reader *reader) {
    static void *opened;
    uint32_t nodes;
    size_t links;
    if (FAULT == a_reader_replaced_and_not_closed) reader->at = NULL;
    if (FAULT == a_reader_before_a_network_told_as_no_memory && engine_size(session, &nodes, &links) == REVROUTE_NO_NETWORK)
        return REVROUTE_NO_MEMORY;
    if (FAULT == a_second_reader_told_as_no_memory && session->at && session->at == opened) return REVROUTE_NO_MEMORY;
    revroute_status status = engine_reader_open(session, reader);
    if (status == REVROUTE_ANSWERED) opened = session->at;
    return status;
}

revroute_status revroute_reader_copy(revroute_reader *reader, revroute_reader *other) {
    if (FAULT == a_copy_that_is_the_reader && reader->at) {
        engine_reader_close(other);
        *other = *reader;
        return REVROUTE_ANSWERED;
    }
    uint32_t status = engine_reader_copy(reader, other);
    if (FAULT == a_copy_without_memory_that_closes_another && status == REVROUTE_NO_MEMORY) engine_reader_close(other);
    return status;
}

revroute_status revroute_reader_learn(revroute_reader *reader, revroute_reader *other) {
    if (FAULT == a_null_reader_learned_from && reader->at && !other->at) return REVROUTE_ANSWERED;
    uint32_t status = engine_reader_learn(reader, other);
    if (FAULT == a_reader_learned_from_and_closed) engine_reader_close(other);
    return status;
}

uint32_t revroute_reader_next_hop(revroute_reader *reader, uint32_t node) {
    uint32_t hop = engine_reader_next_hop(reader, node);
    if (FAULT == no_reader_told_as_cut_off && hop == REVROUTE_NO_HOP) return REVROUTE_CUT_OFF;
    return FAULT == a_number_of_no_node_told_as_cut_off && hop == REVROUTE_NO_SUCH_NODE ? REVROUTE_CUT_OFF : hop;
}

revroute_status revroute_reader_walk(revroute_reader *reader, uint32_t node, uint32_t *nodes, size_t room, size_t *length) {
    uint32_t status = engine_reader_walk(reader, node, nodes, room, length);
    if (FAULT == a_walk_without_its_destination && status == REVROUTE_ANSWERED && *length > 1) --*length;
    if (FAULT == a_walk_of_no_route_with_a_length && status == REVROUTE_NO_ROUTE) *length = 1;
    if (FAULT == a_walk_that_wants_too_little_room && status == REVROUTE_TOO_SHORT) *length = room;
    if (FAULT == a_walk_that_leaves_its_last_place && status == REVROUTE_TOO_SHORT && room) nodes[room - 1] = 0;
    return status;
}

void revroute_reader_close(revroute_reader *reader) {
    if (FAULT == a_reader_closed_that_keeps_its_memory) memset(reader, 0, sizeof *reader);
    else if (FAULT != a_copy_that_is_the_reader) engine_reader_close(reader);
}

revroute_status revroute_way_reader_open(revroute *session, revroute_way_reader *reader) {
    if (FAULT == a_reader_of_ways_replaced_and_not_closed) reader->at = NULL;
    return engine_way_reader_open(session, reader);
}

revroute_status revroute_way_reader_copy(revroute_way_reader *reader, revroute_way_reader *other) {
    if (FAULT == a_copy_that_is_the_reader_of_ways && reader->at) {
        engine_way_reader_close(other);
        *other = *reader;
        return REVROUTE_ANSWERED;
    }
    return engine_way_reader_copy(reader, other);
}

revroute_status revroute_way_reader_learn(revroute_way_reader *reader, revroute_way_reader *other) {
    if (FAULT == a_null_reader_of_ways_learned_from && reader->at && !other->at) return REVROUTE_ANSWERED;
    return engine_way_reader_learn(reader, other);
}

revroute_status revroute_way_reader_ways(revroute_way_reader *reader, uint32_t node, uint32_t *ways, size_t room,
                                         size_t *length) {
    if (FAULT == ways_that_are_read_of_another_node) node /= 2;
    uint32_t status = engine_way_reader_ways(reader, node, ways, room, length);
    if (FAULT == ways_that_want_too_little_room && status == REVROUTE_TOO_SHORT) *length = room;
    if (FAULT == ways_where_they_have_no_room_to_be_read && status == REVROUTE_TOO_SHORT && room) ways[0] = 0;
    return status;
}

uint32_t revroute_way_reader_way(revroute_way_reader *reader, uint32_t node, uint32_t choice) {
    uint32_t way = engine_way_reader_way(reader, node, FAULT == a_way_whatever_the_choice ? 0 : choice);
    return FAULT == no_reader_of_ways_told_as_cut_off && way == REVROUTE_NO_HOP ? REVROUTE_CUT_OFF : way;
}

void revroute_way_reader_close(revroute_way_reader *reader) {
    if (FAULT == a_reader_of_ways_closed_that_keeps_its_memory) memset(reader, 0, sizeof *reader);
    else if (FAULT != a_copy_that_is_the_reader_of_ways) engine_way_reader_close(reader);
}

void revroute_close(revroute *session) {
    if (FAULT == close_that_keeps_the_memory) memset(session, 0, sizeof *session);
    else if (FAULT != sessions_that_share) engine_close(session);
}

revroute_status revroute_version(uint8_t *text, size_t room, size_t *length) {
    uint32_t status = engine_version(text, room, length);
    if (FAULT == another_version && status == REVROUTE_ANSWERED) text[0]++;
    return status;
}

/* The number of the state as it is now. */
static uint64_t state_of(revroute_node *node) {
    uint64_t state = 0;
    size_t length;
    uint32_t none;
    engine_node_gates(node, &none, 0, &length, &state);
    return state;
}

/* Confirms the state as it is now. */
static revroute_status confirm_now(revroute_node *node) { return engine_node_written(node, state_of(node)); }

revroute_status revroute_node_say(revroute_node *node, uint32_t neighbour, uint8_t *message, size_t room, size_t *length) {
    if (FAULT == a_node_that_speaks_before_it_is_written) confirm_now(node);
    revroute_status status = engine_node_say(node, neighbour, message, room, length);
    if (FAULT == a_short_message_that_is_written && status == REVROUTE_TOO_SHORT && room) message[0] = 'F';
    return status;
}

revroute_status revroute_node_hear(revroute_node *node, const uint8_t *bytes, size_t count) {
    if (FAULT == a_message_that_is_not_heard && node->at && count == REVROUTE_MESSAGE_LENGTH)
        return memcmp(bytes, "FRN\2", 4) ? REVROUTE_NO_MESSAGE : engine_node_link_down(node, UINT32_MAX);
    if (FAULT == the_message_read_too_far) (void)*(const volatile uint8_t *)(bytes + count);
    uint64_t before = state_of(node);
    revroute_status status = engine_node_hear(node, bytes, count);
    if (FAULT == a_repeat_that_is_an_event && status == REVROUTE_ANSWERED && state_of(node) == before) engine_node_link_down(node, UINT32_MAX);
    if (FAULT == noise_that_is_to_be_written && status == REVROUTE_NO_MESSAGE) engine_node_link_down(node, UINT32_MAX);
    if (FAULT == a_later_start_that_is_an_event && status == REVROUTE_LATER_START) engine_node_link_down(node, UINT32_MAX);
    if (FAULT == a_later_start_that_is_not_told && status == REVROUTE_LATER_START) return engine_node_link_down(node, UINT32_MAX);
    if (FAULT == a_later_start_of_a_stranger && status == REVROUTE_ANSWERED && bytes[4] == 0x40) return REVROUTE_LATER_START;
    return FAULT == noise_told_as_heard && status == REVROUTE_NO_MESSAGE ? REVROUTE_ANSWERED : status;
}

revroute_status revroute_node_ways(revroute_node *node, uint32_t *ways, size_t room, size_t *length, uint64_t *state) {
    revroute_status status = engine_node_ways(node, ways, room, length, state);
    if (FAULT == a_way_of_a_node_too_few && status == REVROUTE_ANSWERED && *length > 1) --*length;
    return status;
}

revroute_status revroute_node_gates(revroute_node *node, uint32_t *gates, size_t room, size_t *length, uint64_t *state) {
    uint64_t was = *state;
    revroute_status status = engine_node_gates(node, gates, room, length, state);
    if (FAULT == a_gate_too_few && status == REVROUTE_ANSWERED && *length > 2) --*length;
    if (FAULT == gates_by_number && status == REVROUTE_ANSWERED) qsort(gates, *length, sizeof *gates, compare_numbers);
    if (FAULT == gates_with_no_number && status == REVROUTE_TOO_SHORT) *state = was;
    return status;
}

uint32_t revroute_node_lets_in(revroute_node *node, uint32_t neighbour) {
    uint32_t is_open = engine_node_lets_in(node, neighbour);
    if (FAULT == a_gate_that_is_open_too_early && node->at) return 1;
    return FAULT == a_null_node_that_lets_in && !node->at ? 1 : is_open;
}

revroute_status revroute_node_link_down(revroute_node *node, uint32_t neighbour) {
    return engine_node_link_down(node, neighbour);
}

revroute_status revroute_node_written(revroute_node *node, uint64_t state) {
    if (FAULT == a_state_that_is_never_outdated) return node->at ? confirm_now(node) : REVROUTE_NO_NETWORK;
    return engine_node_written(node, state);
}

revroute_status revroute_node_know(revroute_node *node, uint32_t neighbour, uint32_t cost) {
    static void *last_node;
    static uint64_t known;
    if (node->at != last_node) known = 0;
    last_node = node->at;
    if (FAULT == a_known_neighbour_told_as_no_memory && neighbour < 64 && known >> neighbour & 1) return REVROUTE_NO_MEMORY;
    revroute_status status = engine_node_know(node, neighbour, cost);
    if (status == REVROUTE_ANSWERED && neighbour < 64) known |= UINT64_C(1) << neighbour;
    return status;
}

revroute_status revroute_node_open(revroute_node *node, uint32_t me, uint64_t boot, uint64_t height, const revroute_policy *policy) {
    revroute_node before = *node;
    if (FAULT == a_node_replaced_and_not_closed) node->at = NULL;
    uint32_t status = engine_node_open(node, me, boot, FAULT == a_great_height_taken ? height & INT64_MAX : height, policy);
    if (FAULT == a_node_replaced_and_not_closed && status != REVROUTE_ANSWERED) *node = before;
    return status;
}

void revroute_node_close(revroute_node *node) {
    if (FAULT == a_node_closed_that_keeps_its_memory) memset(node, 0, sizeof *node);
    else engine_node_close(node);
}
