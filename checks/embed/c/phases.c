/* Compares the pushes of ways in two phases with their definition, and makes them.
 *
 * There are random networks and changes. After each change the program asks what to push to routers that hold the ways
 * before it, or any lists of numbers. From the lists that revroute_all_ways writes it computes the same by the
 * definition, number by number. Some changes are made by revroute_change_with_ways: the session then keeps the pushes from
 * the ways before, until the next such change, whatever else is called or refused meanwhile. Then the program makes the pushes of each phase in a random order. If the routers hold the ways
 * before a change, it looks for a cycle after each push. Each call is made with too little room too, with tables that
 * are none, and sometimes with the Nth allocation refused, for N = 1, 2, .. until the call succeeds. Arrays end where
 * the next page cannot be accessed.
 *
 * It prints how many pushes it made in the first phase and in the second, how often a call reported that it had no
 * memory, and how many cycles there would have been with the second phase first.
 */
#define _DEFAULT_SOURCE
#include "fence.h"
#include "refusing_heap.h"

#include <revroute.h>
#include <stdbool.h>

enum { MOST = 9, MOST_LINKS = MOST * (MOST - 1) / 2, MOST_WAYS = MOST * MOST, NETWORKS = 800, CHANGES = 30, FENCED = 1 << 16 };
enum { UNTOUCHED = 77, MOST_NUMBERS = MOST * (MOST + 2) };

static uint64_t drawn = 20261128;
static size_t shrunk, grown_lists, poor, early;
static uint8_t *pushes_end, *starts_end, *ways_end;

static uint32_t draw(uint32_t below) {
    drawn = drawn * 6364136223846793005u + 1442695040888963407u;
    return (uint32_t)(drawn >> 33) % below;
}

/* The ways of a router. */
typedef struct {
    uint32_t to[MOST];
    size_t count;
} list;

/* The ways of all routers. */
typedef struct {
    list of[MOST];
    uint32_t nodes;
} table;

/* Pushes, as numbers. */
typedef struct {
    uint32_t numbers[MOST_NUMBERS];
    size_t length;
} pushes;

static bool has(const list *ways, uint32_t y) {
    for (size_t at = 0; at < ways->count; at++)
        if (ways->to[at] == y) return true;
    return false;
}

static bool loses(const list *old, const list *new) {
    for (size_t at = 0; at < old->count; at++)
        if (!has(new, old->to[at])) return true;
    return false;
}

static list kept(const list *old, const list *new) {
    list ways = {{0}, 0};
    for (size_t at = 0; at < new->count; at++)
        if (has(old, new->to[at])) ways.to[ways.count++] = new->to[at];
    return ways;
}

static bool are_same(const list *some, const list *other) {
    return some->count == other->count && !memcmp(some->to, other->to, some->count * sizeof *some->to);
}

static void add(pushes *all, uint32_t x, const list *ways) {
    all->numbers[all->length++] = x;
    all->numbers[all->length++] = (uint32_t)ways->count;
    for (size_t at = 0; at < ways->count; at++) all->numbers[all->length++] = ways->to[at];
}

static pushes wanted_shrinks(const table *old, const table *new) {
    pushes all = {{0}, 0};
    for (int are_emptied = 0; are_emptied < 2; are_emptied++)
        for (uint32_t x = 0; x < new->nodes; x++) {
            list left = kept(&old->of[x], &new->of[x]);
            if (loses(&old->of[x], &new->of[x]) && (left.count == 0) == are_emptied) add(&all, x, &left);
        }
    return all;
}

static pushes wanted_growths(const table *old, const table *new) {
    pushes all = {{0}, 0};
    for (uint32_t x = 0; x < new->nodes; x++) {
        list after = loses(&old->of[x], &new->of[x]) ? kept(&old->of[x], &new->of[x]) : old->of[x];
        if (!are_same(&after, &new->of[x])) add(&all, x, &new->of[x]);
    }
    return all;
}

static table ways_now(revroute *session) {
    table now = {{{{0}, 0}}, 0};
    size_t starts[MOST + 1], links, length;
    uint32_t ways[MOST_LINKS];
    if (revroute_size(session, &now.nodes, &links) != REVROUTE_ANSWERED) stop("there is no network");
    if (revroute_all_ways(session, starts, MOST + 1, ways, MOST_LINKS, &length) != REVROUTE_ANSWERED) stop("there are no ways");
    for (uint32_t x = 0; x < now.nodes; x++)
        for (size_t at = starts[x]; at < starts[x + 1]; at++) now.of[x].to[now.of[x].count++] = ways[at];
    return now;
}

/* Whether packets can go round a cycle: whether nodes remain after those without ways to them were removed. */
static bool has_cycle(const table *held) {
    bool gone[MOST] = {false};
    for (uint32_t times = 0; times < held->nodes; times++)
        for (uint32_t x = 0; x < held->nodes; x++) {
            bool is_last = true;
            for (size_t at = 0; at < held->of[x].count; at++)
                if (held->of[x].to[at] < held->nodes && !gone[held->of[x].to[at]]) is_last = false;
            if (is_last) gone[x] = true;
        }
    for (uint32_t x = 0; x < held->nodes; x++)
        if (!gone[x]) return true;
    return false;
}

typedef revroute_status phase(revroute *, const size_t *, size_t, const uint32_t *, size_t, uint32_t *, size_t, size_t *);

/* Asks with these arrays, which it copies to where the next page cannot be accessed. */
static revroute_status ask(phase *call, revroute *session, const size_t *starts, size_t starts_count, const uint32_t *ways,
                           size_t count, size_t room, size_t *length) {
    size_t *starts_at = (size_t *)(void *)starts_end - starts_count;
    uint32_t *ways_at = (uint32_t *)(void *)ways_end - count, *place = (uint32_t *)(void *)pushes_end - room;
    memcpy(starts_at, starts, starts_count * sizeof *starts);
    memcpy(ways_at, ways, count * sizeof *ways);
    for (long number = draw(4) ? 0 : 1;; number++) {
        for (size_t at = 0; at < room; at++) place[at] = UNTOUCHED;
        refusing_left = number;
        revroute_status status = call(session, starts_at, starts_count, ways_at, count, place, room, length);
        bool was_refused = number && refusing_left == 0;
        refusing_left = 0;
        for (size_t at = status == REVROUTE_ANSWERED ? *length : 0; at < room; at++)
            if (place[at] != UNTOUCHED) stop("more was written than the pushes");
        if (status != REVROUTE_NO_MEMORY) return status;
        if (!was_refused || *length) stop("want of memory was told where none was refused");
        poor++;
    }
}

/* Asks with a table, and compares the answer with the wanted pushes. */
static void expect(phase *call, revroute *session, const table *old, const pushes *wanted) {
    size_t starts[MOST + 1], count = 0, length, room = wanted->length + draw(2);
    uint32_t ways[MOST_WAYS];
    for (uint32_t x = 0; x < old->nodes; x++) {
        starts[x] = count;
        for (size_t at = 0; at < old->of[x].count; at++) ways[count++] = old->of[x].to[at];
    }
    starts[old->nodes] = count;
    size_t starts_count = old->nodes + 1;
    if (ask(call, session, starts, starts_count, ways, count, room, &length) != REVROUTE_ANSWERED || length != wanted->length) stop("there are other pushes");
    if (memcmp((uint32_t *)(void *)pushes_end - room, wanted->numbers, length * sizeof *wanted->numbers)) stop("the pushes are others");
    if (wanted->length) {
        revroute_status status = ask(call, session, starts, starts_count, ways, count, draw((uint32_t)wanted->length), &length);
        if (status != REVROUTE_TOO_SHORT || length != wanted->length) stop("pushes fit where they do not");
    }
    if (ask(call, session, starts, starts_count - 1, ways, count, MOST_NUMBERS, &length) != REVROUTE_NO_TABLE || length) stop("a list is missing, and nothing is said");
    starts[draw((uint32_t)starts_count)] += 1 + draw(3);
    bool rises = starts[0] == 0 && starts[old->nodes] == count;
    for (uint32_t x = 0; x < old->nodes; x++) rises &= starts[x] <= starts[x + 1];
    if (!rises && (ask(call, session, starts, starts_count, ways, count, MOST_NUMBERS, &length) != REVROUTE_NO_TABLE || length)) stop("bad starts are a table");
}

typedef revroute_status kept_phase(revroute *, uint32_t *, size_t, size_t *);

static revroute_status ask_kept(kept_phase *call, revroute *session, size_t room, size_t *length) {
    uint32_t *place = (uint32_t *)(void *)pushes_end - room;
    for (long number = draw(4) ? 0 : 1;; number++) {
        for (size_t at = 0; at < room; at++) place[at] = UNTOUCHED;
        refusing_left = number;
        revroute_status status = call(session, place, room, length);
        bool was_refused = number && refusing_left == 0;
        refusing_left = 0;
        for (size_t at = status == REVROUTE_ANSWERED ? *length : 0; at < room; at++)
            if (place[at] != UNTOUCHED) stop("more was written than the pushes that are kept");
        if (status != REVROUTE_NO_MEMORY) return status;
        if (!was_refused || *length) stop("want of memory was told for pushes that are kept");
        poor++;
    }
}

/* Asks for the pushes that the session keeps, and compares them with the wanted ones. */
static void expect_kept(kept_phase *call, revroute *session, const pushes *wanted) {
    size_t length = UNTOUCHED, room = wanted->length + draw(2);
    if (ask_kept(call, session, room, &length) != REVROUTE_ANSWERED || length != wanted->length) stop("other pushes are kept");
    if (memcmp((uint32_t *)(void *)pushes_end - room, wanted->numbers, length * sizeof *wanted->numbers)) stop("the pushes that are kept are others");
    if (!wanted->length) return;
    if (ask_kept(call, session, draw((uint32_t)wanted->length), &length) != REVROUTE_TOO_SHORT || length != wanted->length) stop("kept pushes fit where they do not");
}

/* Gives routers the lists of the pushes, in a random order. */
static size_t make(const pushes *all, table *held, bool may_cycle) {
    size_t at[MOST], count = 0;
    for (size_t from = 0; from < all->length; from += 2 + all->numbers[from + 1]) at[count++] = from;
    for (size_t left = count; left; left--) {
        size_t chosen = draw((uint32_t)left), from = at[chosen];
        at[chosen] = at[left - 1];
        list *ways = &held->of[all->numbers[from]];
        ways->count = all->numbers[from + 1];
        for (size_t k = 0; k < ways->count; k++) ways->to[k] = all->numbers[from + 2 + k];
        if (!may_cycle && has_cycle(held)) stop("a push made a cycle");
    }
    return count;
}

static void look(revroute *session, const table *old, bool may_cycle) {
    table new = ways_now(session), held = *old, hasty = *old;
    pushes first = wanted_shrinks(old, &new), then = wanted_growths(old, &new);
    expect(revroute_shrink, session, old, &first);
    expect(revroute_grow, session, old, &then);
    shrunk += make(&first, &held, may_cycle);
    /* Asked again with what routers hold by then, the first phase is over, and the second is the same. */
    pushes none = wanted_shrinks(&held, &new);
    if (none.length) stop("a node shrinks twice");
    expect(revroute_grow, session, &held, &then);
    grown_lists += make(&then, &held, may_cycle);
    for (uint32_t x = 0; x < new.nodes; x++)
        if (!are_same(&held.of[x], &new.of[x])) stop("a router ends with other ways");
    make(&then, &hasty, true);
    early += !may_cycle && has_cycle(&hasty);
}

/* Lists of any numbers. */
static table any_table(uint32_t nodes) {
    table any = {{{{0}, 0}}, nodes};
    for (uint32_t x = 0; x < nodes; x++)
        for (uint32_t times = draw(4); times; times--) any.of[x].to[any.of[x].count++] = draw(8) ? draw(nodes) : draw(2) ? UINT32_MAX : nodes + draw(9);
    return any;
}

static void open_drawn(revroute *session) {
    revroute_link links[MOST_LINKS];
    revroute_round round;
    revroute_refusal why;
    uint32_t nodes = 1 + draw(MOST);
    size_t count = 0;
    for (uint32_t u = 0; u < nodes; u++)
        for (uint32_t v = 0; v < u; v++)
            if (draw(3) == 0) links[count++] = (revroute_link){u, v};
    if (revroute_open(session, nodes, draw(nodes), links, count, &round, &why) != REVROUTE_ANSWERED) stop("a network is refused");
}

static revroute_status change_with_ways(revroute *session, const revroute_edit *edits, size_t count) {
    revroute_round round;
    revroute_refusal why;
    for (long number = draw(4) ? 0 : 1;; number++) {
        refusing_left = number;
        revroute_status status = revroute_change_with_ways(session, edits, count, &round, &why);
        bool was_refused = number && refusing_left == 0;
        refusing_left = 0;
        if (status != REVROUTE_NO_MEMORY) return status;
        if (!was_refused) stop("want of memory was told of a change");
        poor++;
    }
}

/* Returns whether the session now keeps the pushes of this change. */
static bool change_drawn(revroute *session, uint32_t nodes) {
    static const revroute_kind kinds[] = {REVROUTE_CUT, REVROUTE_JOIN, REVROUTE_ADD};
    revroute_round round;
    revroute_refusal why;
    revroute_edit edits[3];
    for (size_t at = 0; at < 3; at++) edits[at] = (revroute_edit){kinds[draw(3)], draw(nodes), draw(nodes)};
    if (draw(8) == 0) revroute_move_dest(session, draw(nodes), &round, &why);
    else if (draw(2)) revroute_change(session, edits, 1 + draw(3), &round, &why);
    else return change_with_ways(session, edits, 1 + draw(3)) == REVROUTE_ANSWERED;
    return false;
}

static void look_at_nothing(revroute *session) {
    size_t starts[] = {0}, length = UNTOUCHED;
    uint32_t ways[] = {0};
    if (ask(revroute_shrink, session, starts, 1, ways, 0, 3, &length) != REVROUTE_NO_NETWORK || length) stop("something shrinks before there is a network");
    length = UNTOUCHED;
    if (ask(revroute_grow, session, starts, 1, ways, 0, 3, &length) != REVROUTE_NO_NETWORK || length) stop("something grows before there is a network");
    pushes none = {{0}, 0};
    expect_kept(revroute_change_shrink, session, &none);
    expect_kept(revroute_change_grow, session, &none);
}

int main(void) {
    pushes_end = fence(FENCED), starts_end = fence(FENCED), ways_end = fence(FENCED);
    for (int network = 0; network < NETWORKS; network++) {
        revroute session = REVROUTE_NEW;
        look_at_nothing(&session);
        open_drawn(&session);
        table held = ways_now(&session);
        pushes first = {{0}, 0}, then = {{0}, 0};
        for (int change = 0; change < CHANGES; change++) {
            if (change_drawn(&session, held.nodes)) {
                table new = ways_now(&session);
                first = wanted_shrinks(&held, &new), then = wanted_growths(&held, &new);
            }
            expect_kept(revroute_change_shrink, &session, &first);
            expect_kept(revroute_change_grow, &session, &then);
            look(&session, &held, false);
            held = ways_now(&session);
            table any = any_table(held.nodes);
            look(&session, &any, true);
        }
        revroute_close(&session);
        look_at_nothing(&session);
        if (refusing_held) stop("a closed session holds memory");
    }
    printf("%lu %lu %lu %lu\n", (unsigned long)shrunk, (unsigned long)grown_lists, (unsigned long)poor, (unsigned long)early);
    return 0;
}
