/* Nodes: null handles, short buffers, bytes that are not a message, refused memory, and a network that runs.
 *
 * First each call gets a null node; buffers that end where the next page cannot be accessed, of each length; bytes that
 * are not a message, and messages that know a later start, which must change nothing; and numbers of states that events
 * have overtaken. Memory is refused to each call that takes some. Links between two routers are lost by ticks, at each
 * end.
 *
 * Then routers run with random events. Links come up and go down at each end on its own, also by ticks, messages are
 * lost, delayed, repeated and reordered, and routers restart. Each router reads its table some time after an event and
 * writes it some time later. Only once the node has taken the number of its state the router says something. After each
 * step the program looks for a loop in the tables: there must be none. The same routers are run in the wrong order, in
 * which they say something before the table is written. Then loops must be seen.
 *
 * It prints how many allocations were refused, how many calls reported this, how many messages were heard, and how many
 * steps of the wrong order left a loop.
 */
#define _DEFAULT_SOURCE
#include "fence.h"
#include "refusing_heap.h"

#include <revroute.h>

enum { ROUTERS = 6, COST = 3, POOL = 64, STEPS = 60000, SEEDS = 20, FENCED = 1 << 16, UNTOUCHED = 0x5a, NEIGHBOURS = 38, CONTENT = REVROUTE_MESSAGE_LENGTH - 8 };

static const revroute_policy policies[] = {
    {REVROUTE_FULL, 0, 0, 0}, {REVROUTE_FULL, 0, 1, 1}, {REVROUTE_TOP, 9, 0, 1}, {REVROUTE_TOP, 9, 1, 0}};
static uint8_t *place_end;
static long refusals, told;

static void expect(int holds, const char *what) {
    if (!holds) stop(what);
}

static void ask_null(void) {
    revroute_node none = REVROUTE_NO_NODE;
    uint8_t *message = place_end - REVROUTE_MESSAGE_LENGTH;
    uint32_t number = UNTOUCHED, *ways = (uint32_t *)(void *)place_end - 2;
    uint64_t height = UNTOUCHED, state = UNTOUCHED;
    size_t length = 99;
    memset(message, UNTOUCHED, REVROUTE_MESSAGE_LENGTH);
    expect(revroute_node_know(&none, 1, 1) == REVROUTE_NO_NETWORK, "no node knows a neighbour");
    expect(revroute_node_link_up(&none, 1) == REVROUTE_NO_NETWORK, "no node has a link up");
    expect(revroute_node_set_cost(&none, 1, 0) == REVROUTE_NO_NETWORK, "no node has a cost");
    expect(revroute_node_link_down(&none, 1) == REVROUTE_NO_NETWORK, "no node has a link down");
    expect(revroute_node_hear(&none, message, REVROUTE_MESSAGE_LENGTH) == REVROUTE_NO_NETWORK, "no node hears");
    expect(revroute_node_written(&none, 0) == REVROUTE_NO_NETWORK, "no node is written");
    expect(revroute_node_say(&none, 1, message, REVROUTE_MESSAGE_LENGTH, &length) == REVROUTE_NO_NETWORK && !length, "no node says something");
    length = 99;
    expect(revroute_node_ways(&none, ways, 2, &length, &state) == REVROUTE_NO_NETWORK && !length, "no node has ways");
    length = 99;
    expect(revroute_node_gates(&none, ways, 2, &length, &state) == REVROUTE_NO_NETWORK && !length, "no node has gates");
    expect(state == UNTOUCHED, "no node has a state");
    expect(revroute_node_has_news(&none, 1, &number) == REVROUTE_NO_NETWORK && number == UNTOUCHED, "no node has news");
    expect(revroute_node_distance(&none, &number) == REVROUTE_NO_NETWORK && number == UNTOUCHED, "no node has a distance");
    expect(revroute_node_height(&none, &height) == REVROUTE_NO_NETWORK && height == UNTOUCHED, "no node has a height");
    expect(!revroute_node_act(&none) && !revroute_node_tick(&none, 0), "no node acts");
    expect(!revroute_node_lets_in(&none, 1) && !revroute_node_sends_to(&none, 1), "no node has a flag");
    for (size_t at = 0; at < REVROUTE_MESSAGE_LENGTH; at++) expect(message[at] == UNTOUCHED, "no node writes");
    revroute_node_close(&none);
    expect(!none.at && !refusing_held, "no node holds memory");
}

/* Calls that take memory, with each allocation refused in turn. Neither the handle nor the node may change. */
static revroute_status call_poor(revroute_node *node, int call, uint32_t number) {
    static const revroute_policy policy = {REVROUTE_TOP, 9, 1, 1};
    if (call == 0) return revroute_node_open(node, 1, number, 3, &policy);
    if (call == 1) return revroute_node_open_gateway(node, 1, number);
    return revroute_node_know(node, number, 1);
}

static void make_poor(revroute_node *node, int call, uint32_t number) {
    for (long refused = 1;; refused++) {
        void *was = node->at;
        refusing_left = refused;
        revroute_status status = call_poor(node, call, number);
        int was_refused = refusing_left == 0;
        refusing_left = 0;
        refusals += was_refused;
        if (status == REVROUTE_ANSWERED && !was_refused) return;
        if (status == REVROUTE_ANSWERED) continue;
        expect(status == REVROUTE_NO_MEMORY && was_refused && node->at == was, "a call without memory ends as it cannot end");
        if (call < 2) continue;
        expect(revroute_node_know(node, 1, 1) == REVROUTE_REFUSED, "without memory the router is another");
        expect(revroute_node_know(node, number, 0) == REVROUTE_REFUSED, "without memory a link is free");
        told++;
    }
}

/* The neighbour that is made known at an index, in an order that is neither rising nor falling. */
static uint32_t neighbour_at(uint32_t at) { return 2 + at * 17 % NEIGHBOURS; }

/* All neighbours come up. A gateway lets all of them in, in the order in which they were made known, and a router none. */
static void link_all(revroute_node *node, int is_gateway) {
    uint32_t list[NEIGHBOURS];
    uint64_t state = UNTOUCHED;
    size_t length, gates = is_gateway ? NEIGHBOURS : 0;
    for (uint32_t at = 0; at < NEIGHBOURS; at++) {
        expect(revroute_node_know(node, neighbour_at(at), 1) == REVROUTE_ANSWERED, "a known neighbour is refused");
        expect(revroute_node_link_up(node, neighbour_at(at)) == REVROUTE_ANSWERED, "a link does not come up");
        expect(revroute_node_ways(node, list, NEIGHBOURS, &length, &state) == REVROUTE_ANSWERED && !length, "a way has not been heard");
        expect(state == at + 1, "an event has no number");
    }
    for (size_t room = 0; room < gates; room++) {
        state = UNTOUCHED;
        expect(revroute_node_gates(node, list, room, &length, &state) == REVROUTE_TOO_SHORT && length == gates && state == NEIGHBOURS, "gates fit where they do not");
    }
    expect(revroute_node_gates(node, list, NEIGHBOURS, &length, &state) == REVROUTE_ANSWERED && length == gates && state == NEIGHBOURS, "there are other gates");
    for (uint32_t at = 0; at < length; at++) expect(list[at] == neighbour_at(at), "gates are in another order");
}

static void without_memory(void) {
    revroute_node node = REVROUTE_NO_NODE;
    revroute_policy unknown = {2, 9, 1, 1};
    expect(revroute_node_open(&node, 1, 1, 1, &unknown) == REVROUTE_REFUSED && !node.at, "an unknown rise is taken");
    for (size_t at = 0; at < 4; at++)
        for (uint64_t height = UINT64_C(1) << 63; height; height += UINT64_C(1) << (59 + at)) {
            refusing_left = 1;
            expect(revroute_node_open(&node, 1, 1, height, &policies[at]) == REVROUTE_REFUSED && !node.at, "a great height is taken");
            expect(revroute_node_open(&node, 1, 1, height - 1, &policies[at]) == (height << 1 ? REVROUTE_REFUSED : REVROUTE_NO_MEMORY), "a height counts as another");
            expect(!refusing_left == !(height << 1), "a height is refused after memory was taken");
            refusing_left = 0;
        }
    expect(revroute_node_open(&node, 1, 1, (UINT64_C(1) << 63) - 1, &policies[0]) == REVROUTE_ANSWERED, "a height is refused");
    for (int call = 0; call < 2; call++) {
        make_poor(&node, call, 1);
        for (uint32_t at = 0; at < NEIGHBOURS; at++) make_poor(&node, 2, neighbour_at(at));
        refusing_left = 1;
        link_all(&node, call);
        expect(refusing_left == 1, "a call takes memory that it does not need");
        refusing_left = 0;
        make_poor(&node, 1 - call, 2);
    }
    revroute_node_close(&node);
    revroute_node_close(&node);
    expect(!node.at && !refusing_held, "a closed node holds memory");
}

/* Confirms the state of a node as it is now, and returns its number. */
static uint64_t confirm(revroute_node *node) {
    uint32_t none;
    uint64_t state = UNTOUCHED;
    size_t length;
    revroute_status status = revroute_node_gates(node, &none, 0, &length, &state);
    expect(status == REVROUTE_ANSWERED || status == REVROUTE_TOO_SHORT, "there are no gates");
    expect(revroute_node_written(node, state) == REVROUTE_ANSWERED, "a node is not written");
    return state;
}

/* Two routers, of which the gateway has number 0. The other one has a link of cost COST. */
static void open_two(revroute_node *two) {
    expect(revroute_node_open_gateway(&two[0], 0, 1) == REVROUTE_ANSWERED, "there is no gateway");
    expect(revroute_node_open(&two[1], 1, 1, 1, &policies[2]) == REVROUTE_ANSWERED, "there is no router");
    for (uint32_t me = 0; me < 2; me++) {
        uint8_t byte;
        size_t length = 99;
        expect(revroute_node_say(&two[me], 1 - me, &byte, 1, &length) == REVROUTE_TOO_SHORT && length == REVROUTE_MESSAGE_LENGTH, "a byte is a message");
        uint8_t *message = place_end - REVROUTE_MESSAGE_LENGTH;
        expect(revroute_node_say(&two[me], 1 - me, message, REVROUTE_MESSAGE_LENGTH, &length) == REVROUTE_LINK_DOWN && !length, "a stranger gets a message");
        expect(revroute_node_know(&two[me], 1 - me, 0) == REVROUTE_REFUSED, "a link is free");
        expect(revroute_node_know(&two[me], 1 - me, me ? COST : 1) == REVROUTE_ANSWERED, "a neighbour is not known");
        expect(revroute_node_know(&two[me], 1 - me, 1) == REVROUTE_ANSWERED, "a known neighbour is refused");
        length = 99;
        expect(revroute_node_say(&two[me], 1 - me, message, REVROUTE_MESSAGE_LENGTH, &length) == REVROUTE_LINK_DOWN && !length, "a link that is down gets a message");
        expect(revroute_node_set_cost(&two[me], 1 - me, 0) == REVROUTE_REFUSED, "a link becomes free");
        expect(revroute_node_link_up(&two[me], 1 - me) == REVROUTE_ANSWERED, "a link does not come up");
        expect(confirm(&two[me]) == 1, "the first event has another number");
    }
}

/* Says a message into buffers of each length, and returns it at the end of the memory. */
static uint8_t *say_each(revroute_node *node, uint32_t to) {
    size_t length = 99;
    uint8_t *message = place_end;
    for (size_t room = 0; room < REVROUTE_MESSAGE_LENGTH; room++) {
        message = place_end - room;
        memset(message, UNTOUCHED, room);
        expect(revroute_node_say(node, to, message, room, &length) == REVROUTE_TOO_SHORT && length == REVROUTE_MESSAGE_LENGTH, "a message fits where it does not");
        for (size_t at = 0; at < room; at++) expect(message[at] == UNTOUCHED, "a message that does not fit is written");
    }
    message = place_end - REVROUTE_MESSAGE_LENGTH;
    expect(revroute_node_say(node, to, message, REVROUTE_MESSAGE_LENGTH, &length) == REVROUTE_ANSWERED && length == REVROUTE_MESSAGE_LENGTH, "there is no message");
    return message;
}

/* A number of 8 bytes in a message, the highest byte first. */
static void put_number(uint8_t *at, uint64_t number) {
    for (int byte = 7; byte >= 0; byte--, number >>= 8) at[byte] = (uint8_t)number;
}

static uint64_t number_at(const uint8_t *at) {
    uint64_t number = 0;
    for (int byte = 0; byte < 8; byte++) number = number << 8 | at[byte];
    return number;
}

/* Bytes that are not a message: each other length, and each other header. The node says the same then, with a later stamp. */
static void hear_noise(revroute_node *node, uint32_t to, const uint8_t *message) {
    uint8_t said[2][REVROUTE_MESSAGE_LENGTH], *bytes = place_end;
    size_t length;
    expect(revroute_node_say(node, to, said[0], sizeof said[0], &length) == REVROUTE_ANSWERED, "a node has nothing to say");
    for (size_t count = 0; count < 200; count++) {
        if (count == REVROUTE_MESSAGE_LENGTH) continue;
        bytes = place_end - count;
        memset(bytes, 0, count);
        memcpy(bytes, message, count < REVROUTE_MESSAGE_LENGTH ? count : REVROUTE_MESSAGE_LENGTH);
        expect(revroute_node_hear(node, bytes, count) == REVROUTE_NO_MESSAGE, "another number of bytes is a message");
    }
    for (size_t bit = 0; bit < 32; bit++) {
        bytes = place_end - REVROUTE_MESSAGE_LENGTH;
        memcpy(bytes, message, REVROUTE_MESSAGE_LENGTH);
        bytes[bit / 8] ^= (uint8_t)(1 << bit % 8);
        expect(revroute_node_hear(node, bytes, REVROUTE_MESSAGE_LENGTH) == REVROUTE_NO_MESSAGE, "another header is a message");
    }
    expect(revroute_node_say(node, to, said[1], sizeof said[1], &length) == REVROUTE_ANSWERED, "noise is to be written");
    expect(!memcmp(said[0], said[1], CONTENT), "noise has changed a node");
    expect(number_at(said[1] + CONTENT) == number_at(said[0] + CONTENT) + 1, "a message has no stamp of its own");
}

/* A message of a neighbour that knows a later start of this router changes nothing. It does not count if it is no message,
 * for another router, or from a stranger. */
static void hear_later_starts(revroute_node *node, uint64_t boot, const uint8_t *message) {
    uint8_t said[2][REVROUTE_MESSAGE_LENGTH], *bytes = place_end - REVROUTE_MESSAGE_LENGTH;
    uint32_t to = message[7];
    uint64_t state = confirm(node);
    size_t length;
    expect(revroute_node_say(node, to, said[0], sizeof said[0], &length) == REVROUTE_ANSWERED, "a node has nothing to say");
    for (uint64_t later = boot + 1; later; later = later < UINT64_MAX ? later * 2 > later ? later * 2 : UINT64_MAX : 0) {
        memcpy(bytes, message, REVROUTE_MESSAGE_LENGTH);
        put_number(bytes + 24, later);
        expect(revroute_node_hear(node, bytes, REVROUTE_MESSAGE_LENGTH) == REVROUTE_LATER_START, "a later start is not seen");
        bytes[3] ^= 1;
        expect(revroute_node_hear(node, bytes, REVROUTE_MESSAGE_LENGTH) == REVROUTE_NO_MESSAGE, "noise has a later start");
    }
    expect(revroute_node_say(node, to, said[1], sizeof said[1], &length) == REVROUTE_ANSWERED, "a later start is to be written");
    expect(!memcmp(said[0], said[1], CONTENT) && confirm(node) == state, "a later start has changed a node");
    for (size_t at = 4; at < 12; at += 4) {
        memcpy(bytes, message, REVROUTE_MESSAGE_LENGTH);
        put_number(bytes + 24, boot + 1);
        bytes[at] ^= 0x40;
        put_number(bytes + CONTENT, UINT64_MAX);
        expect(revroute_node_hear(node, bytes, REVROUTE_MESSAGE_LENGTH) == REVROUTE_ANSWERED, "a stranger knows a later start");
        expect(confirm(node) == state, "what a stranger says is an event");
    }
    expect(revroute_node_say(node, to, said[1], sizeof said[1], &length) == REVROUTE_ANSWERED, "there is nothing to say");
    expect(!memcmp(said[0], said[1], CONTENT), "a stranger has changed a node");
}

/* A message that was heard is no event when it is heard again, nor is one with an earlier stamp or of an earlier start. The
 * node is written. One with a later stamp is an event. The node is written then too. */
static void hear_again(revroute_node *node, const uint8_t *message) {
    uint8_t *bytes = place_end - REVROUTE_MESSAGE_LENGTH;
    uint32_t news = UNTOUCHED;
    uint64_t state = confirm(node), stamp = number_at(message + CONTENT);
    for (uint64_t early = 0; early <= stamp; early++)
        for (uint64_t boot = number_at(message + 16);; boot--) {
            memcpy(bytes, message, REVROUTE_MESSAGE_LENGTH);
            put_number(bytes + 16, boot);
            put_number(bytes + CONTENT, boot < number_at(message + 16) ? UINT64_MAX - early : early);
            expect(revroute_node_hear(node, bytes, REVROUTE_MESSAGE_LENGTH) == REVROUTE_ANSWERED, "what is old is refused");
            expect(revroute_node_has_news(node, message[7], &news) == REVROUTE_ANSWERED, "what is old is to be written");
            if (!boot) break;
        }
    expect(confirm(node) == state, "what is old is an event");
    memcpy(bytes, message, REVROUTE_MESSAGE_LENGTH);
    put_number(bytes + CONTENT, stamp + 1);
    expect(revroute_node_hear(node, bytes, REVROUTE_MESSAGE_LENGTH) == REVROUTE_ANSWERED, "a later message is refused");
    expect(confirm(node) == state + 1, "a later message is no event");
    while (revroute_node_act(node)) state++;
    expect(confirm(node) == state + 1, "a policy that rests is an event");
}

/* A node takes only the number of its state now. The node is unwritten, and is then written. */
static void confirm_only_the_last(revroute_node *node, uint32_t stranger) {
    uint32_t ways[2];
    uint64_t early = UNTOUCHED, state = UNTOUCHED, same = UNTOUCHED;
    size_t length;
    uint8_t message[REVROUTE_MESSAGE_LENGTH];
    expect(revroute_node_ways(node, ways, 2, &length, &early) == REVROUTE_ANSWERED, "there are no ways");
    expect((early & 1 ? revroute_node_link_up : revroute_node_link_down)(node, stranger) == REVROUTE_ANSWERED, "there is no event");
    expect(revroute_node_written(node, early) == REVROUTE_OUTDATED, "an outdated table is confirmed");
    expect(revroute_node_ways(node, ways, 2, &length, &state) == REVROUTE_ANSWERED && state == early + 1, "the number is another");
    expect(revroute_node_gates(node, ways, 2, &length, &same) == REVROUTE_ANSWERED && same == state, "gates have another number");
    uint64_t wrong[] = {early, 0, state + 1, state << 32, UINT64_MAX, ~state};
    for (size_t at = 0; at < sizeof wrong / sizeof *wrong; at++) {
        expect(revroute_node_written(node, wrong[at]) == REVROUTE_OUTDATED, "another number is confirmed");
        expect(revroute_node_say(node, 0, message, sizeof message, &length) == REVROUTE_UNWRITTEN, "a node speaks although its table is outdated");
    }
    expect(revroute_node_written(node, state) == REVROUTE_ANSWERED, "the number is not confirmed");
    expect(revroute_node_written(node, early) == REVROUTE_OUTDATED, "an earlier number is confirmed later");
    expect(revroute_node_written(node, state) == REVROUTE_ANSWERED, "the number is not confirmed again");
    expect(revroute_node_say(node, 99, message, sizeof message, &length) == REVROUTE_LINK_DOWN, "a written node is silent");
}

/* The message that router `from` says now is heard by the other one. Until it is written, it says nothing. */
static void pass_on(revroute_node *two, uint32_t from) {
    uint8_t message[REVROUTE_MESSAGE_LENGTH], *place = place_end - REVROUTE_MESSAGE_LENGTH;
    uint32_t to = 1 - from, news = UNTOUCHED;
    size_t length = 99;
    memcpy(message, say_each(&two[from], to), sizeof message);
    expect(revroute_node_has_news(&two[from], to, &news) == REVROUTE_ANSWERED && !news, "what was said is news");
    hear_noise(&two[to], from, message);
    memcpy(place, message, sizeof message);
    expect(revroute_node_hear(&two[to], place, sizeof message) == REVROUTE_ANSWERED, "a message is not heard");
    expect(revroute_node_hear(&two[to], place, sizeof message) == REVROUTE_ANSWERED, "a message is not heard while unwritten");
    news = UNTOUCHED;
    memset(place, UNTOUCHED, sizeof message);
    expect(revroute_node_say(&two[to], from, place, sizeof message, &length) == REVROUTE_UNWRITTEN && !length, "a node says something before it is written");
    expect(revroute_node_say(&two[to], from, place, 0, &length) == REVROUTE_UNWRITTEN, "a short buffer comes before the order");
    expect(place[0] == UNTOUCHED && place[REVROUTE_MESSAGE_LENGTH - 1] == UNTOUCHED, "a node writes before it is written");
    expect(revroute_node_has_news(&two[to], from, &news) == REVROUTE_UNWRITTEN && news == UNTOUCHED, "a node has news before it is written");
    expect(revroute_node_hear(&two[to], place, 0) == REVROUTE_NO_MESSAGE, "no bytes are a message");
    confirm_only_the_last(&two[to], 7);
    hear_later_starts(&two[to], 1, message);
    hear_again(&two[to], message);
}

/* A router that starts with a smaller boot number than before. Its neighbour says so, also over a link that is down. */
static void start_too_early(revroute_node *gateway) {
    revroute_node router = REVROUTE_NO_NODE;
    uint8_t message[REVROUTE_MESSAGE_LENGTH];
    size_t length;
    for (uint64_t boot = 1; boot + 1; boot = boot == 1 ? 9 : boot == 9 ? 8 : UINT64_MAX) {
        expect(revroute_node_open(&router, 1, boot, 1, &policies[2]) == REVROUTE_ANSWERED, "a router does not start");
        expect(revroute_node_know(&router, 0, COST) == REVROUTE_ANSWERED, "a neighbour is not known");
        expect(revroute_node_say(gateway, 1, message, sizeof message, &length) == REVROUTE_ANSWERED, "a gateway is silent");
        revroute_status heard_as = revroute_node_hear(&router, message, sizeof message);
        expect(heard_as == (boot == 8 ? REVROUTE_LATER_START : REVROUTE_ANSWERED), "a start counts as another");
        expect(revroute_node_link_up(&router, 0) == REVROUTE_ANSWERED, "a link does not come up");
        confirm(&router);
        expect(revroute_node_say(&router, 0, message, sizeof message, &length) == REVROUTE_ANSWERED, "a router is silent");
        expect(revroute_node_hear(gateway, message, sizeof message) == REVROUTE_ANSWERED, "a gateway hears nothing");
        confirm(gateway);
    }
    revroute_node_close(&router);
}

static void talk(void) {
    revroute_node two[2] = {REVROUTE_NO_NODE, REVROUTE_NO_NODE};
    uint32_t *ways = (uint32_t *)(void *)place_end, distance = UNTOUCHED;
    uint64_t height = UNTOUCHED, state;
    size_t length = 99;
    open_two(two);
    expect(revroute_node_distance(&two[1], &distance) == REVROUTE_NO_ROUTE && distance == UNTOUCHED, "a router has a distance from nothing");
    for (uint32_t at = 0; at < 4; at++) pass_on(two, at % 2);
    expect(revroute_node_ways(&two[1], ways, 0, &length, &state) == REVROUTE_TOO_SHORT && length == 1, "a way fits where it does not");
    expect(revroute_node_ways(&two[1], ways - 1, 1, &length, &state) == REVROUTE_ANSWERED && length == 1 && ways[-1] == 0, "there is no way");
    expect(revroute_node_gates(&two[0], ways, 0, &length, &state) == REVROUTE_TOO_SHORT && length == 1, "a gate fits where it does not");
    expect(revroute_node_gates(&two[0], ways - 1, 1, &length, &state) == REVROUTE_ANSWERED && length == 1 && ways[-1] == 1, "there is no gate");
    expect(revroute_node_distance(&two[1], &distance) == REVROUTE_ANSWERED && distance == COST, "the distance is another");
    expect(revroute_node_height(&two[1], &height) == REVROUTE_ANSWERED && height == COST, "the height is another");
    expect(revroute_node_distance(&two[0], &distance) == REVROUTE_ANSWERED && distance == 0, "a gateway is far");
    expect(revroute_node_ways(&two[0], ways, 0, &length, &state) == REVROUTE_ANSWERED && !length, "a gateway has a way");
    expect(revroute_node_lets_in(&two[0], 1) == 1 && revroute_node_sends_to(&two[0], 1) == 0, "a gateway is closed");
    expect(revroute_node_lets_in(&two[1], 7) == 0 && revroute_node_sends_to(&two[1], 0) == 1, "a router does not send");
    expect(revroute_node_link_down(&two[1], 0) == REVROUTE_ANSWERED && !revroute_node_sends_to(&two[1], 0), "a link that is down is a way");
    expect(revroute_node_ways(&two[1], ways, 0, &length, &state) == REVROUTE_ANSWERED && !length, "a link that is down is listed");
    expect(revroute_node_gates(&two[1], ways, 0, &length, &state) == REVROUTE_ANSWERED && !length, "a link that is down is let in");
    start_too_early(&two[0]);
    for (int at = 0; at < 2; at++) revroute_node_close(&two[at]);
    expect(!refusing_held, "closed nodes hold memory");
}

/* A router says a message, and the other one of two hears it. */
static void tell(revroute_node *two, uint32_t from) {
    uint8_t message[REVROUTE_MESSAGE_LENGTH];
    uint32_t to = 1 - from;
    size_t length;
    expect(revroute_node_say(&two[from], to, message, sizeof message, &length) == REVROUTE_ANSWERED, "a router is silent");
    expect(revroute_node_hear(&two[to], message, sizeof message) == REVROUTE_ANSWERED, "a router hears nothing");
    while (revroute_node_act(&two[to])) continue;
    confirm(&two[to]);
}

/* A node loses a link at the tick at which its patience ends, and not before. It goes on saying messages over it, with
 * no start of the neighbour. */
static void lose_link(revroute_node *node, uint32_t neighbour, uint32_t patience) {
    uint8_t message[REVROUTE_MESSAGE_LENGTH];
    size_t length;
    uint64_t state = confirm(node);
    for (uint32_t tick = 1; tick < patience; tick++) expect(!revroute_node_tick(node, patience), "a link is lost early");
    expect(confirm(node) == state && revroute_node_tick(node, patience) == 1, "a link is not lost");
    expect(!revroute_node_sends_to(node, neighbour) && !revroute_node_lets_in(node, neighbour), "a lost link is used");
    expect(revroute_node_say(node, neighbour, message, sizeof message, &length) == REVROUTE_UNWRITTEN, "a loss is no event");
    expect(confirm(node) == state + 1 && !revroute_node_tick(node, patience), "a link is lost twice");
    expect(revroute_node_say(node, neighbour, message, sizeof message, &length) == REVROUTE_ANSWERED, "a lost link gets no message");
    expect(!number_at(message + 24), "a router hears a neighbour that is silent");
}

/* Two routers. One hears nothing and loses the link. The other one hears that, and loses the link too. The link counts
 * at an end again once this end is told that it is heard. */
static void lose_links(void) {
    revroute_node two[2] = {REVROUTE_NO_NODE, REVROUTE_NO_NODE};
    open_two(two);
    for (uint32_t at = 0; at < 4; at++) tell(two, at % 2);
    for (uint32_t patience = 2; patience < 20; patience++) {
        uint32_t deaf = patience % 2, other = 1 - deaf;
        expect(revroute_node_sends_to(&two[1], 0) && revroute_node_lets_in(&two[0], 1), "the link is not used");
        lose_link(&two[deaf], other, patience);
        for (uint32_t tick = 1; tick <= patience; tick++) {
            tell(two, deaf);
            expect(revroute_node_tick(&two[other], patience) == (tick == patience), "the other end loses the link at another time");
        }
        confirm(&two[other]);
        expect(!revroute_node_sends_to(&two[1], 0) && !revroute_node_lets_in(&two[0], 1), "the link counts at an end");
        tell(two, other);
        expect(revroute_node_sends_to(&two[1], 0) == deaf && revroute_node_lets_in(&two[0], 1) == other, "the wrong end counts the link");
        tell(two, deaf);
    }
    for (int at = 0; at < 2; at++) revroute_node_close(&two[at]);
    expect(!refusing_held, "closed nodes hold memory");
}

/* The neighbours that a router sends to, and those that it lets in, as bits. */
typedef struct table {
    uint32_t ways, gates;
    uint64_t state;
} table;

/* A router with its forwarding table, and the table that it has read last and may write later. */
typedef struct router {
    revroute_node node;
    uint64_t boot, events;
    table written, read;
    int is_stale; /* an event came after the table was written */
    struct {
        uint64_t boot, stamp;
    } last[ROUTERS]; /* the last message that was taken from each other router */
} router;

static router routers[ROUTERS];
static struct {
    uint32_t to;
    uint8_t bytes[REVROUTE_MESSAGE_LENGTH];
} pool[POOL];
static size_t pooled;
static uint64_t seed;
static long heard;

static uint32_t drawn(uint32_t below) {
    seed = seed * UINT64_C(6364136223846793005) + UINT64_C(1442695040888963407);
    return (uint32_t)((seed >> 33) % below);
}

/* Starts a router with an empty table. Its links are to all others, and down. */
static void start(uint32_t me, int is_gateway, const revroute_policy *policy) {
    router *it = &routers[me];
    memset(&it->written, 0, sizeof it->written);
    memset(&it->read, 0, sizeof it->read);
    memset(it->last, 0, sizeof it->last);
    it->is_stale = 0;
    it->events = 0;
    it->boot++;
    revroute_status status = is_gateway ? revroute_node_open_gateway(&it->node, me, it->boot)
                                        : revroute_node_open(&it->node, me, it->boot, drawn(4), policy);
    expect(status == REVROUTE_ANSWERED, "a router does not start");
    for (uint32_t other = 0; other < ROUTERS; other++)
        if (other != me) expect(revroute_node_know(&it->node, other, 1 + drawn(3)) == REVROUTE_ANSWERED, "a neighbour is not known");
}

static void read_table(router *it) {
    uint32_t list[ROUTERS];
    uint64_t state = UNTOUCHED;
    size_t length, at = 0;
    it->read.ways = it->read.gates = 0;
    expect(revroute_node_ways(&it->node, list, ROUTERS, &length, &it->read.state) == REVROUTE_ANSWERED, "there are no ways");
    for (; at < length; at++) it->read.ways |= 1u << list[at];
    expect(revroute_node_gates(&it->node, list, ROUTERS, &length, &state) == REVROUTE_ANSWERED, "there are no gates");
    expect(state == it->read.state && state == it->events, "a state has another number");
    for (at = 0; at < length; at++) {
        expect(!at || list[at - 1] < list[at], "gates are not in the order of their neighbours");
        it->read.gates |= 1u << list[at];
    }
    for (uint32_t other = 0; other < ROUTERS; other++) {
        expect((it->read.ways >> other & 1) == revroute_node_sends_to(&it->node, other), "a way is not listed");
        expect((it->read.gates >> other & 1) == revroute_node_lets_in(&it->node, other), "a gate is not listed");
    }
}

/* Writes the table that was read last. The node takes it only if no event came since. */
static void write_table(router *it) {
    it->written = it->read;
    revroute_status status = revroute_node_written(&it->node, it->read.state);
    expect(status == (it->read.state == it->events ? REVROUTE_ANSWERED : REVROUTE_OUTDATED), "a table is confirmed at a wrong time");
    if (status == REVROUTE_ANSWERED) it->is_stale = 0;
}

/* Whether packets can go round in a circle: routers that can only send to routers outside of it are taken out of `left`
 * until none can be. */
static int has_loop(void) {
    uint32_t left = (1u << ROUTERS) - 1, before = 0;
    while (left != before) {
        before = left;
        for (uint32_t from = 0; from < ROUTERS; from++) {
            uint32_t sends = 0;
            for (uint32_t to = 0; to < ROUTERS; to++)
                sends |= (routers[from].written.ways >> to & routers[to].written.gates >> from & left >> to & 1) << to;
            if (!sends) left &= ~(1u << from);
        }
    }
    return left != 0;
}

/* One step of a router. In the wrong order it claims that its table is written before it is. */
static void step(router *it, uint32_t me, int is_wrong, int is_gateway, const revroute_policy *policy) {
    uint32_t other = (me + 1 + drawn(ROUTERS - 1)) % ROUTERS, what = drawn(64);
    uint8_t message[REVROUTE_MESSAGE_LENGTH];
    size_t length;
    if (what == 0) {
        start(me, is_gateway, policy);
    } else if (what < 12) {
        expect((drawn(6) ? revroute_node_link_up : revroute_node_link_down)(&it->node, other) == REVROUTE_ANSWERED, "a link stays");
        it->is_stale = 1;
        it->events++;
    } else if (what == 12) {
        uint32_t is_lost = revroute_node_tick(&it->node, 1 + drawn(8));
        it->is_stale |= (int)is_lost;
        it->events += is_lost;
    } else if (what == 13) {
        while (revroute_node_act(&it->node)) {
            it->is_stale = 1;
            it->events++;
        }
    } else if (what == 14) {
        expect(revroute_node_set_cost(&it->node, other, 1 + drawn(3)) == REVROUTE_ANSWERED, "a cost stays");
        it->is_stale = 1;
        it->events++;
    } else if (what < 28) {
        if (is_wrong && revroute_node_written(&it->node, it->events) != REVROUTE_ANSWERED) stop("a node is not written");
        if (is_wrong && drawn(5)) return;
        if (is_wrong || drawn(3)) read_table(it);
        if (is_wrong || drawn(4)) write_table(it);
    } else {
        revroute_status status = revroute_node_say(&it->node, other, message, sizeof message, &length);
        if (!is_wrong && it->is_stale) expect(status == REVROUTE_UNWRITTEN, "a node says something before it is written");
        if (status != REVROUTE_ANSWERED) return;
        size_t at = pooled < POOL ? pooled++ : drawn(POOL);
        pool[at].to = other;
        memcpy(pool[at].bytes, message, sizeof message);
    }
}

/* Whether a message is newer than all that a router has taken of its sender. Then it is taken too. */
static int is_taken(router *it, const uint8_t *message) {
    uint64_t boot = number_at(message + 16), stamp = number_at(message + CONTENT);
    uint32_t from = message[7];
    if (boot < it->last[from].boot || (boot == it->last[from].boot && stamp <= it->last[from].stamp)) return 0;
    it->last[from].boot = boot;
    it->last[from].stamp = stamp;
    return 1;
}

/* A message from the pool is heard, and stays there half of the time. */
static void deliver(void) {
    if (!pooled) return;
    size_t at = drawn((uint32_t)pooled);
    router *it = &routers[pool[at].to];
    expect(revroute_node_hear(&it->node, pool[at].bytes, REVROUTE_MESSAGE_LENGTH) == REVROUTE_ANSWERED, "a message is noise");
    heard++;
    if (is_taken(it, pool[at].bytes)) {
        it->is_stale = 1;
        it->events++;
    }
    if (drawn(2)) pool[at] = pool[--pooled];
}

/* Runs the routers, and returns how many steps left a loop. */
static long run(uint64_t from, int is_wrong) {
    const revroute_policy *policy = &policies[from % 4];
    uint32_t gateways = 1 + (uint32_t)from % 2;
    long loops = 0;
    seed = from + 1;
    pooled = 0;
    for (uint32_t me = 0; me < ROUTERS; me++) start(me, me < gateways, policy);
    for (long at = 0; at < STEPS; at++) {
        uint32_t me = drawn(ROUTERS);
        if (drawn(2))
            deliver();
        else
            step(&routers[me], me, is_wrong, me < gateways, policy);
        loops += has_loop();
    }
    return loops;
}

int main(void) {
    long loops = 0;
    place_end = fence(FENCED);
    ask_null();
    without_memory();
    talk();
    lose_links();
    for (uint64_t from = 0; from < SEEDS; from++) expect(!run(from, 0), "there is a loop");
    for (uint64_t from = 0; from < SEEDS; from++) loops += run(from, 1);
    for (uint32_t me = 0; me < ROUTERS; me++) revroute_node_close(&routers[me].node);
    expect(!refusing_held, "closed routers hold memory");
    printf("%ld %ld %ld %ld\n", refusals, told, heard, loops);
    return 0;
}
