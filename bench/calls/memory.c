/* Counts the bytes that the library asks of malloc for a session and its readers: those that it holds at the end, and
 * the most that it holds meanwhile. It is linked with --wrap. The links of this program itself are not counted. */
#include "drawn.h"
#include <revroute.h>
#include <stdio.h>
#include <stdlib.h>

/* The bytes in front of each block. They keep the alignment that malloc gives. */
enum { FRONT = 16, LINKS_OF_A_NODE = 8, FEW = 1000, MANY = 100000 };

static size_t held, most;

void *__real_malloc(size_t size);
void *__real_calloc(size_t count, size_t size);
void *__real_realloc(void *block, size_t size);
void __real_free(void *block);

static void *noted(size_t *front, size_t before, size_t size) {
    if (!front) return NULL;
    *front = size;
    held = held - before + size;
    if (held > most) most = held;
    return (char *)front + FRONT;
}

void *__wrap_malloc(size_t size) { return noted(__real_malloc(size + FRONT), 0, size); }

void *__wrap_calloc(size_t count, size_t size) { return noted(__real_calloc(1, count * size + FRONT), 0, count * size); }

void *__wrap_realloc(void *block, size_t size) {
    size_t *front = block ? (size_t *)((char *)block - FRONT) : NULL;
    size_t before = front ? *front : 0;
    return noted(__real_realloc(front, size + FRONT), before, size);
}

void __wrap_free(void *block) {
    if (!block) return;
    size_t *front = (size_t *)((char *)block - FRONT);
    held -= *front;
    __real_free(front);
}

static void wanted(uint32_t status, const char *call) {
    if (status == REVROUTE_ANSWERED) return;
    fprintf(stderr, "%s: status %u\n", call, status);
    exit(1);
}

/* Cuts and joins `times` random links. */
static void change(revroute *session, const revroute_link *links, uint32_t count, int times) {
    revroute_round round;
    revroute_refusal why;
    for (int at = 0; at < times; at++) {
        revroute_link it = links[drawn(count)];
        wanted(revroute_change(session, &(revroute_edit){REVROUTE_CUT, it.tail, it.head}, 1, &round, &why), "cut");
        wanted(revroute_change(session, &(revroute_edit){REVROUTE_JOIN, it.tail, it.head}, 1, &round, &why), "join");
    }
}

int main(int count, char **words) {
    uint32_t nodes = count > 1 ? (uint32_t)atoi(words[1]) : 0, link_count = LINKS_OF_A_NODE * nodes;
    if (nodes < 32 || nodes > 4096) return fprintf(stderr, "usage: memory NODES, 32 to 4,096\n"), 2;
    revroute_link *links = __real_malloc(link_count * sizeof *links);
    draw_links(nodes, links, link_count);
    most = held;
    revroute session = REVROUTE_NEW;
    revroute_reader first = REVROUTE_NO_READER, later = REVROUTE_NO_READER;
    revroute_way_reader of_ways = REVROUTE_NO_WAY_READER;
    revroute_round round;
    revroute_refusal why;
    wanted(revroute_open(&session, nodes, 0, links, link_count, &round, &why), "open");
    printf("%u %zu %zu", nodes, held, most);
    change(&session, links, link_count, FEW);
    size_t after_few = most = held;
    change(&session, links, link_count, MANY);
    if (held != after_few) return fprintf(stderr, "it grows from %zu to %zu bytes\n", after_few, held), 1;
    printf(" %zu %zu", held, most);
    size_t before = held;
    wanted(revroute_reader_open(&session, &first), "first reader");
    printf(" %zu", held - before);
    before = held;
    wanted(revroute_reader_open(&session, &later), "later reader");
    printf(" %zu", held - before);
    before = held;
    wanted(revroute_way_reader_open(&session, &of_ways), "reader of ways");
    printf(" %zu\n", held - before);
    revroute_close(&session);
    revroute_reader_close(&first);
    revroute_reader_close(&later);
    revroute_way_reader_close(&of_ways);
    __real_free(links);
    if (held) return fprintf(stderr, "%zu bytes are left\n", held), 1;
}
