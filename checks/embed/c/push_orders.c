/* Compares revroute_push_order with the definition (order.h), on random tables that no network has made. Arrays end where
 * the next page cannot be accessed. Sometimes the Nth allocation is refused, for N = 1, 2, .. until the call succeeds.
 *
 * Each order is pushed, and no push may make a loop that was not there. Each refusal must be the first that holds: too
 * many hops, a number that is no hop, a loop of the new table. Each loop must be one of the new table.
 *
 * It prints how many orders were right, how many tables were refused, and how often memory was refused. */
#define _DEFAULT_SOURCE
#include "fence.h"
#include "order.h"
#include "refusing_heap.h"

#include <revroute.h>
#include <stdbool.h>

enum { MOST = 9, TABLES = 60000, LIMIT = 4096, FENCED = 1 << 16, UNTOUCHED = 77 };

/* Two tables. `count` is how many nodes they have together, and `full` their hops for all of these nodes. */
typedef struct {
    size_t length[2], count;
    uint32_t hops[2][LIMIT + 2], full[2][LIMIT + 2];
} tables;

/* The end of a call, with what it wrote. The place is at the end of its fence. */
typedef struct {
    revroute_status status;
    size_t length, room;
    uint32_t *place;
    revroute_refusal why;
} end;

static uint64_t drawn = 20261127;
static uint8_t *given_end[2], *place_end;
static size_t ordered, refused, wanting;

static uint32_t draw(uint32_t below) {
    drawn = drawn * 6364136223846793005u + 1442695040888963407u;
    return (uint32_t)(drawn >> 33) % below;
}

static uint32_t *given(const tables *it, int which) {
    uint32_t *at = (uint32_t *)(void *)given_end[which] - it->length[which];
    if (it->length[which]) memcpy(at, it->hops[which], it->length[which] * sizeof *at);
    return at;
}

/* Makes the call. What it may not write must keep its bytes. */
static end order(const tables *it, size_t room) {
    end all = {REVROUTE_BLANK, UNTOUCHED, room, (uint32_t *)(void *)place_end - room, {REVROUTE_UNKNOWN_EDIT, UNTOUCHED, UNTOUCHED, UNTOUCHED}};
    for (size_t at = 0; at < room; at++) all.place[at] = UNTOUCHED;
    const uint32_t *old = given(it, 0), *new = given(it, 1);
    all.status = revroute_push_order(old, it->length[0], new, it->length[1], all.place, room, &all.length, &all.why);
    bool is_refused = all.status == REVROUTE_REFUSED, fits = all.status == REVROUTE_ANSWERED || is_refused;
    for (size_t at = fits ? all.length : 0; at < room; at++)
        if (all.place[at] != UNTOUCHED) stop("more is written than an order");
    if (is_refused == (all.why.u == UNTOUCHED)) stop("a refusal is written where none is, or none where one is");
    for (int which = 0; which < 2; which++)
        if (it->length[which] && memcmp(given_end[which] - it->length[which] * sizeof *old, it->hops[which], it->length[which] * sizeof *old)) stop("a table is written");
    return all;
}

/* The same, but sometimes with one allocation after the other refused, until the call succeeds. */
static end order_poor(const tables *it, size_t room) {
    for (long number = draw(16) ? 0 : 1;; number++) {
        refusing_left = number;
        end all = order(it, room);
        bool is_met = number && refusing_left == 0;
        refusing_left = 0;
        if (refusing_held) stop("a push order keeps memory");
        if (all.status != REVROUTE_NO_MEMORY) return all;
        if (!is_met || all.length) stop("want of memory is told wrong");
        wanting++;
    }
}

/* How many nodes are on the walk of a node, or more than all if the walk does not end. */
static size_t walk_length(const uint32_t *hops, size_t count, uint32_t node) {
    size_t length = 0;
    for (; node < count && length <= count; node = hops[node]) length++;
    return length;
}

/* The first number that is no hop, in the old table and then in the new one; or a number that is one. */
static uint32_t first_outside(const tables *it) {
    for (int which = 0; which < 2; which++)
        for (size_t at = 0; at < it->length[which]; at++)
            if (it->hops[which][at] >= it->count && it->hops[which][at] < REVROUTE_CUT_OFF) return it->hops[which][at];
    return REVROUTE_HERE;
}

static bool has_loop(const tables *it) {
    for (uint32_t x = 0; x < it->count; x++)
        if (walk_length(it->full[1], it->count, x) > it->count) return true;
    return false;
}

static void expect(const end *all, revroute_reason number, uint32_t u, uint32_t v, size_t length) {
    refused++;
    if (all->status != REVROUTE_REFUSED || all->why.number != number || all->why.u != u || all->why.v != v || all->why.at || all->length != length)
        stop("tables are refused for another reason, or not at all");
}

/* Whether each node of the list sends on to the next, the last is the first, and no other comes twice. */
static void look_at_loop(const tables *it, const end *all) {
    if (all->length < 2 || all->place[0] != all->place[all->length - 1]) stop("a loop does not come back");
    for (size_t at = 0; at + 1 < all->length; at++) {
        if (all->place[at] >= it->count || it->full[1][all->place[at]] != all->place[at + 1]) stop("a loop has a step that the table does not have");
        for (size_t other = 0; other < at; other++)
            if (all->place[other] == all->place[at]) stop("a loop has a node twice");
    }
    expect(all, REVROUTE_CLOSED_WALK, all->place[0], all->place[1], all->length);
}

/* Makes the pushes. A new loop would contain the node that was pushed. */
static void push_all(tables *it, const end *all) {
    for (size_t at = 0; at < all->length; at++) {
        uint32_t node = all->place[at];
        it->full[0][node] = it->full[1][node];
        if (walk_length(it->full[0], it->count, node) > it->count) stop("the walk of a pushed node does not end");
    }
    if (memcmp(it->full[0], it->full[1], it->count * sizeof **it->full)) stop("after all pushes the table is not the new one");
}

static void look_at(tables *it) {
    uint32_t wanted[MOST + 1], outside = first_outside(it);
    end all = order_poor(it, MOST + 1);
    if (outside != REVROUTE_HERE) {
        expect(&all, REVROUTE_RANGE, outside, outside, 0);
        return;
    }
    bool is_refused = has_loop(it);
    if (is_refused) look_at_loop(it, &all);
    size_t length = is_refused ? all.length : push_order(it->full[0], it->full[1], it->count, wanted);
    if (!is_refused && (all.status != REVROUTE_ANSWERED || all.length != length || memcmp(all.place, wanted, length * sizeof *wanted)))
        stop("the order is not that of the definition");
    size_t less = length ? draw((uint32_t)length) : 0;
    if (length) {
        end shorter = order_poor(it, less);
        if (shorter.status != REVROUTE_TOO_SHORT || shorter.length != length) stop("an order or a loop fits where it does not");
    }
    all = order_poor(it, length);
    if (all.status != (is_refused ? REVROUTE_REFUSED : REVROUTE_ANSWERED) || all.length != length) stop("there is room, and it is not enough");
    if (is_refused) return;
    ordered++;
    push_all(it, &all);
}

/* Pads the tables. */
static void fill(tables *it) {
    it->count = it->length[0] > it->length[1] ? it->length[0] : it->length[1];
    for (int which = 0; which < 2; which++)
        for (size_t at = 0; at < it->count; at++) it->full[which][at] = at < it->length[which] ? it->hops[which][at] : REVROUTE_CUT_OFF;
}

/* Random tables. The new one has few loops, because most of its hops lead to a lower number. */
static void draw_tables(tables *it) {
    for (int which = 0; which < 2; which++) it->length[which] = draw(MOST + 1);
    size_t most = it->length[0] > it->length[1] ? it->length[0] : it->length[1];
    bool is_wrong = draw(8) == 0, leads_down = draw(4);
    for (int which = 0; which < 2; which++)
        for (size_t at = 0; at < it->length[which]; at++) {
            uint32_t below = which && leads_down ? (uint32_t)at : (uint32_t)most;
            uint32_t hop = draw(4) && below ? draw(below) : REVROUTE_CUT_OFF + draw(2);
            const uint32_t wrong[] = {(uint32_t)most, REVROUTE_NO_HOP, REVROUTE_NO_SUCH_NODE, 1u << 31};
            it->hops[which][at] = is_wrong && draw(5) == 0 ? wrong[draw(4)] : hop;
        }
    fill(it);
}

/* The largest tables, and larger ones. A long chain turns round. */
static void look_at_limits(tables *it) {
    it->length[0] = it->length[1] = LIMIT;
    for (uint32_t at = 0; at < LIMIT; at++) {
        it->hops[0][at] = at ? at - 1 : REVROUTE_HERE;
        it->hops[1][at] = at < LIMIT - 1 ? at + 1 : REVROUTE_HERE;
    }
    fill(it);
    end all = order(it, LIMIT);
    if (all.status != REVROUTE_ANSWERED || all.length != LIMIT || all.place[0] != LIMIT - 1 || all.place[LIMIT - 1] != 0) stop("the largest tables have another order");
    it->hops[1][LIMIT - 1] = 0;
    fill(it);
    all = order(it, LIMIT + 1);
    if (all.length != LIMIT + 1) stop("the longest loop has another length");
    expect(&all, REVROUTE_CLOSED_WALK, all.place[0], all.place[1], LIMIT + 1);
    for (int which = 0; which < 2; which++) {
        it->length[which] = LIMIT + 1;
        it->hops[which][LIMIT] = REVROUTE_NO_HOP;
        all = order_poor(it, 0);
        expect(&all, REVROUTE_TOO_MANY, 0, 0, 0);
        it->length[which] = LIMIT;
    }
}

int main(void) {
    static tables it;
    for (int which = 0; which < 2; which++) given_end[which] = fence(FENCED);
    place_end = fence(FENCED);
    look_at_limits(&it);
    for (int at = 0; at < TABLES; at++) {
        draw_tables(&it);
        look_at(&it);
    }
    printf("%lu %lu %lu\n", (unsigned long)ordered, (unsigned long)refused, (unsigned long)wanting);
    return 0;
}
