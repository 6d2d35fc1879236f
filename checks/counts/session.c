/* A session of a C program, for checks/counts/check.
 *
 *     session [hops] [ways] [told] < LINES
 *
 * The first line is a network. Then the session gets a reader of hops or of ways, or both. Of the other lines each cut and each
 * added link is a typed call, and the rest are answered as lines. After each of them the readers read one node. `told`: a change
 * keeps what has to be pushed to routers that hold all their ways. */
#include <revroute.h>
#include <stdbool.h>
#include <stdio.h>
#include <stdlib.h>
#include <string.h>

enum { MOST_BYTES = 1 << 20 };

static revroute session = REVROUTE_NEW;
static revroute_reader hops = REVROUTE_NO_READER;
static revroute_way_reader ways = REVROUTE_NO_WAY_READER;
static bool has_hops, has_ways, is_told;
static uint8_t answer[MOST_BYTES];
static char line[MOST_BYTES];
static volatile uint32_t kept;

static void stop(const char *why) {
    fprintf(stderr, "session: %s\n", why);
    exit(1);
}

/* Whether the line is a change that a typed call makes. */
static bool is_change(revroute_edit *edit) {
    if (strncmp(line, "[\"cut\",", 7) && strncmp(line, "[\"add\",", 7)) return false;
    char *end;
    edit->kind = line[2] == 'c' ? REVROUTE_CUT : REVROUTE_ADD;
    edit->u = (uint32_t)strtoul(line + 7, &end, 10);
    edit->v = (uint32_t)strtoul(end + 1, NULL, 10);
    return true;
}

static void change(const revroute_edit *edit) {
    revroute_round round;
    revroute_refusal why;
    revroute_status status = is_told ? revroute_change_with_ways(&session, edit, 1, &round, &why)
                                     : revroute_change(&session, edit, 1, &round, &why);
    if (status != REVROUTE_ANSWERED && status != REVROUTE_REFUSED) stop("a change is not made");
    if (has_hops) kept = revroute_reader_next_hop(&hops, edit->u);
    if (has_ways) kept = revroute_way_reader_way(&ways, edit->u, 0);
}

static void ask(size_t length) {
    size_t answered;
    revroute_status status = revroute_answer(&session, (const uint8_t *)line, length, answer, sizeof answer, &answered);
    if (status != REVROUTE_ANSWERED) stop("a line has no answer");
    if (has_hops) kept = revroute_reader_next_hop(&hops, 1);
    if (has_ways) kept = revroute_way_reader_way(&ways, 1, 0);
}

static void open_readers(bool wants_hops, bool wants_ways) {
    if (wants_hops && revroute_reader_open(&session, &hops) != REVROUTE_ANSWERED) stop("there is no reader");
    if (wants_ways && revroute_way_reader_open(&session, &ways) != REVROUTE_ANSWERED) stop("there is no reader of ways");
    has_hops = wants_hops;
    has_ways = wants_ways;
}

int main(int count, char **words) {
    bool wants_hops = false, wants_ways = false, is_first = true;
    for (int at = 1; at < count; at++) {
        wants_hops |= !strcmp(words[at], "hops");
        wants_ways |= !strcmp(words[at], "ways");
        is_told |= !strcmp(words[at], "told");
    }
    while (fgets(line, sizeof line, stdin)) {
        revroute_edit edit;
        if (is_change(&edit)) change(&edit);
        else ask(strcspn(line, "\n"));
        if (is_first) open_readers(wants_hops, wants_ways);
        is_first = false;
    }
    revroute_reader_close(&hops);
    revroute_way_reader_close(&ways);
    revroute_close(&session);
}
