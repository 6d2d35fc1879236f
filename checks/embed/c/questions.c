/* Compares the typed questions with the answers to lines, on random networks and changes.
 *
 * After each line it asks for the hops, counts, routes, links and the report in both ways, and for each hop also by
 * its own call. The rerouted nodes must be those whose hop has changed, in push order. This holds for a new network
 * too: it has more, fewer or equally many nodes, and often most links of the last one. Each array ends where its room
 * ends, so that a sanitizer sees a write beyond the end. An array that is too short by one must stay unchanged. It
 * prints how many lines were accepted.
 */
#include "lines.h"
#include "order.h"

#include <revroute.h>
#include <stdbool.h>

enum { MOST = 9, NETWORKS = 3600, CHANGES = 80, TEXT = 4096 };

static uint64_t drawn = 20261125;

static uint32_t draw(uint32_t below) {
    drawn = drawn * 6364136223846793005u + 1442695040888963407u;
    return (uint32_t)(drawn >> 33) % below;
}

static size_t ask(revroute *session, const char *asked, char *answer) {
    size_t length;
    if (revroute_answer(session, (const uint8_t *)asked, strlen(asked), (uint8_t *)answer, TEXT - 1, &length) != REVROUTE_ANSWERED)
        stop("a line has no answer");
    answer[length] = '\0';
    return length;
}

/* The hops, from the answer to a line. */
static void tell_hops(const uint32_t *hops, size_t count, char *text) {
    text += sprintf(text, "hops");
    for (size_t x = 0; x < count; x++) {
        if (hops[x] == REVROUTE_HERE) text += sprintf(text, " here");
        else if (hops[x] == REVROUTE_CUT_OFF) text += sprintf(text, " cut");
        else text += sprintf(text, " %lu", (unsigned long)hops[x]);
    }
}

static void tell_counts(const uint64_t *counts, size_t count, char *text) {
    text += sprintf(text, "counts");
    for (size_t x = 0; x < count; x++) text += sprintf(text, " %llu", (unsigned long long)counts[x]);
}

static uint32_t *hops_of(revroute *session, size_t *count) {
    uint32_t status = revroute_hops(session, NULL, 0, count);
    if (status == REVROUTE_NO_NETWORK && *count == 0) return NULL;
    if (status != REVROUTE_TOO_SHORT) stop("no room was enough for the hops");
    uint32_t *hops = grown(NULL, *count * sizeof *hops);
    hops[0] = 77;
    if (revroute_hops(session, hops, *count - 1, count) != REVROUTE_TOO_SHORT || hops[0] != 77) stop("hops were written though not asked");
    if (revroute_hops(session, hops, *count, count) != REVROUTE_ANSWERED) stop("there are no hops");
    for (uint32_t x = 0; x < *count; x++)
        if (revroute_next_hop(session, x) != hops[x]) stop("a hop differs from that of all");
    if (revroute_next_hop(session, (uint32_t)*count) != REVROUTE_NO_SUCH_NODE) stop("there is a hop behind the last node");
    return hops;
}

static void compare(revroute *session, const uint32_t *hops, size_t count) {
    char told[TEXT], made[TEXT];
    ask(session, "[\"hops\"]", told);
    tell_hops(hops, count, made);
    if (strcmp(told, made)) stop("the hops differ from the line's");
    size_t length;
    uint64_t *counts = grown(NULL, count * sizeof *counts);
    if (revroute_counts(session, counts, count - 1, &length) != REVROUTE_TOO_SHORT || length != count) stop("counts fit where they do not");
    if (revroute_counts(session, counts, count, &length) != REVROUTE_ANSWERED) stop("there are no counts");
    ask(session, "[\"counts\"]", told);
    tell_counts(counts, count, made);
    if (strcmp(told, made)) stop("the counts differ from the line's");
    free(counts);
}

/* The route of each node, from the answers to lines. There is none for the number after the last node. */
static void compare_routes(revroute *session, size_t count) {
    char asked[64], told[TEXT], made[TEXT];
    size_t length, none;
    for (uint32_t x = 0; x < count; x++) {
        sprintf(asked, "[\"walk\",%lu]", (unsigned long)x);
        ask(session, asked, told);
        uint32_t status = revroute_walk(session, x, NULL, 0, &length);
        uint32_t *nodes = grown(NULL, (length + 1) * sizeof *nodes);
        nodes[0] = 77;
        if (status == REVROUTE_TOO_SHORT && (revroute_walk(session, x, nodes, length - 1, &none) != REVROUTE_TOO_SHORT || nodes[0] != 77 || none != length))
            stop("a route was written though it has no room");
        if (status == REVROUTE_TOO_SHORT) status = revroute_walk(session, x, nodes, length, &length);
        char *text = made + sprintf(made, "walk");
        if (status == REVROUTE_NO_ROUTE && length == 0) sprintf(text, " %lu cut", (unsigned long)x);
        else if (status != REVROUTE_ANSWERED) stop("a node has no route");
        else for (size_t at = 0; at < length; at++) text += sprintf(text, " %lu", (unsigned long)nodes[at]);
        if (strcmp(told, made)) stop("a route differs from the line's");
        free(nodes);
    }
    uint32_t spare[MOST] = {77};
    if (revroute_walk(session, (uint32_t)count, spare, MOST, &length) != REVROUTE_NO_ROUTE || length || spare[0] != 77)
        stop("there is a route from behind the last node");
}

/* The links, from the answer to a line. */
static void compare_links(revroute *session) {
    char told[TEXT], made[TEXT];
    size_t length, none;
    uint32_t status = revroute_links(session, NULL, 0, &length);
    if ((status == REVROUTE_ANSWERED) != (length == 0)) stop("no room was enough for the links");
    revroute_link *links = grown(NULL, (length + 1) * sizeof *links);
    links[0].tail = 77;
    if (length && (revroute_links(session, links, length - 1, &none) != REVROUTE_TOO_SHORT || links[0].tail != 77 || none != length)) stop("links were written though they have no room");
    if (revroute_links(session, links, length, &length) != REVROUTE_ANSWERED) stop("there are no links");
    char *text = made + sprintf(made, "links");
    for (size_t at = 0; at < length; at++) text += sprintf(text, " %lu>%lu", (unsigned long)links[at].tail, (unsigned long)links[at].head);
    ask(session, "[\"links\"]", told);
    if (strcmp(told, made)) stop("the links differ from the line's");
    free(links);
}

/* The report and the size, from the answer of the round and from the links. */
static void compare_numbers(revroute *session, size_t count, const char *answer) {
    char told[TEXT], made[64];
    revroute_round round;
    uint32_t nodes;
    size_t links, spaces = 0;
    if (revroute_report(session, &round) != REVROUTE_ANSWERED) stop("there is no report");
    sprintf(made, "turned %llu cut %llu", (unsigned long long)round.turned, (unsigned long long)round.cut_off);
    if (strcmp(answer, made)) stop("the report differs from the line's");
    ask(session, "[\"links\"]", told);
    for (const char *at = told; *at; at++) spaces += *at == ' ';
    if (revroute_size(session, &nodes, &links) != REVROUTE_ANSWERED || nodes != count || links != spaces) stop("the size is another");
    if (revroute_next_hop(session, revroute_dest(session)) != REVROUTE_HERE) stop("the destination is another");
}

static uint32_t *rerouted_of(revroute *session, size_t *count) {
    uint32_t status = revroute_changed(session, NULL, 0, count);
    if (status == REVROUTE_NO_NETWORK && *count == 0) return NULL;
    if ((status == REVROUTE_ANSWERED) != (*count == 0)) stop("no room was enough for the nodes that are rerouted");
    uint32_t *nodes = grown(NULL, (*count + 1) * sizeof *nodes);
    if (revroute_changed(session, nodes, *count, count) != REVROUTE_ANSWERED) stop("rerouted nodes cannot be told");
    return nodes;
}

/* The hops of a network in a table with this many places. Numbers that are not nodes are cut off. */
static uint32_t *widened(const uint32_t *hops, size_t count, size_t places) {
    uint32_t *table = grown(NULL, (places + 1) * sizeof *table);
    for (size_t x = 0; x < places; x++) table[x] = x < count ? hops[x] : REVROUTE_CUT_OFF;
    return table;
}

/* The rerouted nodes, found by comparing all hops before and after. */
static void look_at_rerouted(revroute *session, const uint32_t *was, size_t before, const uint32_t *is, size_t after) {
    size_t told, places = before > after ? before : after;
    uint32_t *nodes = rerouted_of(session, &told), *order = grown(NULL, (places + 1) * sizeof *order);
    uint32_t *old = widened(was, before, places), *new = widened(is, after, places);
    if (push_order(old, new, places, order) != told) stop("another number of nodes is told than is rerouted");
    if (memcmp(nodes, order, told * sizeof *nodes)) stop("the rerouted nodes are not those that differ, in push order");
    free(nodes);
    free(order);
    free(old);
    free(new);
}

static char *put_link(char *at, bool *any, uint32_t tail, uint32_t head) {
    at += sprintf(at, "%s[%u,%u]", *any ? "," : "", (unsigned)tail, (unsigned)head);
    *any = true;
    return at;
}

/* Links from nodes, beginning with the first one, each to a lower number. */
static char *put_links(char *at, bool *any, uint32_t first, uint32_t count) {
    for (uint32_t u = first; u < count; u++)
        for (uint32_t v = 0; v < u; v++)
            if (draw(3) == 0) at = put_link(at, any, u, v);
    return at;
}

static void draw_network(uint32_t count, char *asked) {
    bool any = false;
    char *at = asked + sprintf(asked, "[\"net\",%u,%u,[", (unsigned)count, (unsigned)draw(count));
    sprintf(put_links(at, &any, 0, count), "]]");
}

/* A network of this many nodes, with most links of the last network, and mostly its destination. */
static void draw_resized(revroute *session, uint32_t last, uint32_t count, char *asked) {
    revroute_link links[MOST * (MOST - 1) / 2];
    uint32_t dest = draw(count);
    size_t length;
    bool any = false;
    if (revroute_links(session, links, MOST * (MOST - 1) / 2, &length) != REVROUTE_ANSWERED) stop("there are no links");
    for (uint32_t x = 0; x < count && draw(8); x++)
        if (revroute_next_hop(session, x) == REVROUTE_HERE) dest = x;
    char *at = asked + sprintf(asked, "[\"net\",%u,%u,[", (unsigned)count, (unsigned)dest);
    for (const revroute_link *it = links; it < links + length; it++)
        if (it->tail < count && it->head < count && draw(6)) at = put_link(at, &any, it->tail, it->head);
    sprintf(put_links(at, &any, last, count), "]]");
}

static void draw_edit(uint32_t count, char *asked) {
    static const char *const kinds[] = {"cut", "add", "join"};
    sprintf(asked, "[\"%s\",%u,%u]", kinds[draw(3)], (unsigned)draw(count), (unsigned)draw(count));
}

static void draw_change(uint32_t count, char *asked) {
    char some[64], others[64];
    draw_edit(count, some);
    draw_edit(count, others);
    uint32_t kind = draw(8);
    if (kind == 0) sprintf(asked, "[\"dest\",%u]", (unsigned)draw(count));
    else if (kind == 1) sprintf(asked, "[\"batch\",[%s,%s]]", some, others);
    else strcpy(asked, some);
}

/* Asks one line, and checks what it changed. */
static size_t step(revroute *session, const char *asked) {
    size_t count, after, told, still;
    uint32_t *before = hops_of(session, &count), *nodes = rerouted_of(session, &told);
    char answer[TEXT];
    ask(session, asked, answer);
    bool accepted = !strncmp(answer, "turned ", 7);
    uint32_t *hops = hops_of(session, &after);
    if (accepted) {
        look_at_rerouted(session, before, count, hops, after);
        compare(session, hops, after);
        compare_routes(session, after);
        compare_links(session);
        compare_numbers(session, after, answer);
        look_at_rerouted(session, before, count, hops, after);
    } else {
        uint32_t *same = rerouted_of(session, &still);
        if (still != told || (told && memcmp(same, nodes, told * sizeof *nodes))) stop("a refusal changed the rerouted nodes");
        if (after != count || (count && memcmp(hops, before, count * sizeof *hops))) stop("a refusal changed a hop");
        free(same);
    }
    free(before);
    free(nodes);
    free(hops);
    return accepted;
}

/* The answers before the first network. */
static void look_at_nothing(revroute *session) {
    revroute_round round = {7, 7};
    revroute_link link;
    uint32_t nodes = 7;
    size_t links = 7, length = 7;
    revroute_status ends[] = {revroute_report(session, &round), revroute_size(session, &nodes, &links), revroute_walk(session, 0, &nodes, 1, &length),
                              revroute_links(session, &link, 1, &length)};
    for (size_t at = 0; at < 4; at++)
        if (ends[at] != REVROUTE_NO_NETWORK) stop("there is an answer before there is a network");
    if (revroute_dest(session) != REVROUTE_NO_HOP) stop("there is a destination before there is a network");
    if (round.turned || round.cut_off || nodes || links || length) stop("there are numbers before there is a network");
}

/* The versions of the header and of the library must be the same. */
static void compare_versions(void) {
    char text[32], parts[32];
    size_t length;
    if (revroute_version((uint8_t *)text, sizeof text, &length) != REVROUTE_ANSWERED) stop("there is no version");
    sprintf(parts, "%d.%d.%d", REVROUTE_VERSION_MAJOR, REVROUTE_VERSION_MINOR, REVROUTE_VERSION_PATCH);
    if (length != strlen(REVROUTE_VERSION) || memcmp(text, REVROUTE_VERSION, length) || strcmp(parts, REVROUTE_VERSION)) stop("the versions differ");
}

int main(void) {
    compare_versions();
    size_t accepted = 0;
    char asked[TEXT];
    for (int network = 0; network < NETWORKS; network++) {
        revroute session = REVROUTE_NEW;
        if (revroute_next_hop(&session, 0) != REVROUTE_NO_HOP) stop("there is a hop before there is a network");
        look_at_nothing(&session);
        for (int change = 0; change < CHANGES; change++) {
            size_t count;
            free(hops_of(&session, &count));
            uint32_t kind = count ? draw(40) : 0;
            if (kind == 0) draw_network(1 + draw(MOST), asked);
            else if (kind == 1) draw_resized(&session, (uint32_t)count, 1 + draw(MOST), asked);
            else draw_change((uint32_t)count, asked);
            accepted += step(&session, asked);
        }
        revroute_close(&session);
        if (revroute_next_hop(&session, 0) != REVROUTE_NO_HOP) stop("there is a hop behind the end");
    }
    printf("%lu\n", (unsigned long)accepted);
    return 0;
}
