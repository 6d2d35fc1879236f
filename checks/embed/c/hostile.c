/* Asks the lines of standard input with too little room and with too little memory, and checks that nothing is lost.
 *
 * One session gets enough of both, and its answers are the expected ones. Then each line is asked in two ways:
 *
 *   - With too little room: 0 bytes, one byte less than the least room, and one byte less than the answer; then with
 *     exactly enough.
 *   - With the Nth allocation of a session refused, for N = 1, 2, .. until no allocation is refused. A call may
 *     succeed nevertheless. Otherwise it reports that there is no memory, and is made again. A blank line always
 *     succeeds.
 *
 * The answer must be the same. Until there is one, the session must be unchanged, and so must the handle's own bytes.
 * A handle without a network is tested in the same ways. It must own nothing until a line is answered.
 *
 * Each line and each buffer ends where the next page cannot be accessed. So a read or write beyond the end stops the
 * program with a signal. It prints how many allocations were refused, and how many calls reported this.
 */
#define _DEFAULT_SOURCE
#include "fence.h"
#include "refusing_heap.h"

#include <revroute.h>

enum { FENCED = 1 << 16, UNTOUCHED = 0xa5 };

static uint8_t *line_end, *answer_end;

/* An answer, or the status of a call without one. */
typedef struct {
    uint32_t status;
    uint8_t *bytes;
    size_t length;
} answer;

/* Makes one call, and checks that it writes only the answer's bytes of the buffer, that it returns a length only with
 * an answer or for too little room, and that it writes the handle only with an answer. */
static uint32_t call(revroute *session, line it, size_t room, size_t *length) {
    if (it.length > FENCED) stop("a line is too long for this test");
    memcpy(line_end - it.length, it.bytes, it.length);
    memset(answer_end - room, UNTOUCHED, room);
    revroute before = *session;
    uint32_t status = revroute_answer(session, line_end - it.length, it.length, answer_end - room, room, length);
    if (status != REVROUTE_ANSWERED && session->at != before.at) stop("a call with no answer wrote the handle");
    if ((status == REVROUTE_BLANK || status == REVROUTE_NO_MEMORY) && *length != 0) stop("a length without an answer");
    for (size_t at = status == REVROUTE_ANSWERED ? *length : 0; at < room; at++)
        if (answer_end[at - room] != UNTOUCHED) stop("a byte was written that is none of the answer's");
    return status;
}

static answer ask(revroute *session, line it) {
    answer all = {0, NULL, 0};
    all.status = call(session, it, FENCED, &all.length);
    if (all.status != REVROUTE_ANSWERED) return all;
    const uint8_t *text = answer_end - FENCED;
    if (memchr(text, 0, all.length) || memchr(text, '\n', all.length)) stop("an answer with a NUL or a line end");
    all.bytes = memcpy(grown(NULL, all.length + 1), text, all.length);
    return all;
}

static int is_same(answer one, answer other) {
    if (one.status != other.status || one.status != REVROUTE_ANSWERED) return one.status == other.status;
    return one.length == other.length && !memcmp(one.bytes, other.bytes, one.length);
}

/* The nodes that the last round rerouted, as bytes. */
static answer rerouted_of(revroute *session) {
    size_t count;
    revroute_changed(session, (uint32_t[1]){0}, 0, &count);
    uint32_t *nodes = grown(NULL, (count + 1) * sizeof *nodes);
    revroute_status status = revroute_changed(session, nodes, count, &count);
    if (status != REVROUTE_ANSWERED && status != REVROUTE_NO_NETWORK) stop("rerouted nodes cannot be told");
    return (answer){status, (uint8_t *)nodes, count * sizeof *nodes};
}

/* All that can be asked about a session's state: by lines, and which nodes were rerouted last. */
enum { LINES = 3, QUESTIONS };
typedef struct {
    answer to[QUESTIONS];
} state;

static state state_of(revroute *session) {
    static const char *const questions[LINES] = {"[\"links\"]", "[\"counts\"]", "[\"hops\"]"};
    state all;
    for (int at = 0; at < LINES; at++) {
        line question = {(const uint8_t *)questions[at], strlen(questions[at])};
        all.to[at] = ask(session, question);
    }
    all.to[LINES] = rerouted_of(session);
    return all;
}

static void drop(state it) {
    for (int at = 0; at < QUESTIONS; at++) free(it.to[at].bytes);
}

static void expect_state(revroute *session, state wanted, const char *why) {
    state found = state_of(session);
    for (int at = 0; at < QUESTIONS; at++)
        if (!is_same(found.to[at], wanted.to[at])) stop(why);
    drop(found);
}

static void expect_too_short(revroute *session, line it, size_t room, size_t wanted, state before) {
    size_t length;
    if (call(session, it, room, &length) != REVROUTE_TOO_SHORT) stop("a buffer that is too short was taken");
    if (length != wanted) stop("of a buffer that is too short another room is wanted");
    expect_state(session, before, "a buffer that was too short changed the session");
}

/* Asks a line with too little room, and then with exactly enough. */
static void ask_short(revroute *session, line it, answer wanted) {
    state before = state_of(session);
    expect_too_short(session, it, 0, REVROUTE_LEAST_ROOM, before);
    expect_too_short(session, it, REVROUTE_LEAST_ROOM - 1, REVROUTE_LEAST_ROOM, before);
    if (wanted.length > REVROUTE_LEAST_ROOM) expect_too_short(session, it, wanted.length - 1, wanted.length, before);
    size_t length, room = wanted.length > REVROUTE_LEAST_ROOM ? wanted.length : REVROUTE_LEAST_ROOM;
    uint32_t status = call(session, it, room, &length);
    if (!is_same((answer){status, answer_end - room, length}, wanted)) stop("with just enough room the answer is another");
    drop(before);
}

/* The number of calls that reported that they had no memory. */
static long refusals;

/* Asks a line while an allocation may be refused, and asks again if it was. Returns whether one was refused. */
static int ask_poor(revroute *session, line it, answer wanted, long *left) {
    state before = state_of(session);
    refusing_left = *left;
    answer found = ask(session, it);
    int was_refused = *left > 0 && refusing_left == 0;
    *left = refusing_left;
    refusing_left = 0;
    if (found.status == REVROUTE_NO_MEMORY) {
        if (!was_refused) stop("want of memory was told where none was refused");
        if (wanted.status == REVROUTE_BLANK) stop("a blank line wants memory");
        refusals++;
        expect_state(session, before, "a call without memory changed the session");
        found = ask(session, it);
    }
    if (!is_same(found, wanted)) stop("where an allocation was refused, the line has another answer");
    free(found.bytes);
    drop(before);
    return was_refused;
}

/* Asks a line of a handle without a network. Until the line is answered, the handle must own nothing. */
static void ask_new(line it, answer wanted) {
    revroute session = REVROUTE_NEW;
    size_t length;
    if (call(&session, it, 0, &length) != REVROUTE_TOO_SHORT || refusing_held) stop("a buffer that is too short took memory");
    refusing_left = 1;
    uint32_t status = call(&session, it, FENCED, &length);
    refusing_left = 0;
    if (status != (wanted.status == REVROUTE_BLANK ? REVROUTE_BLANK : REVROUTE_NO_MEMORY)) stop("a new session asks for no memory");
    if (refusing_held) stop("a handle with no answer owns memory");
    free(ask(&session, it).bytes);
    if (wanted.status == REVROUTE_BLANK && refusing_held) stop("a blank line took memory");
    revroute_close(&session);
    if (refusing_held) stop("a closed session holds memory");
}

int main(void) {
    line_end = fence(FENCED);
    answer_end = fence(FENCED);
    lines asked = read_lines();
    answer *wanted = grown(NULL, (asked.count + 1) * sizeof *wanted);
    revroute ahead = REVROUTE_NEW, behind = REVROUTE_NEW;
    for (size_t at = 0; at < asked.count; at++) {
        wanted[at] = ask(&ahead, asked.at[at]);
        if (wanted[at].status > REVROUTE_BLANK) stop("a line that meets nothing has no answer");
        ask_short(&behind, asked.at[at], wanted[at]);
    }
    revroute_close(&ahead);
    revroute_close(&behind);
    revroute_close(&behind);
    for (size_t at = 0; at < asked.count; at++) ask_new(asked.at[at], wanted[at]);
    long number = 0;
    for (int meets = 1; meets;) {
        long left = ++number;
        meets = 0;
        for (size_t at = 0; at < asked.count; at++) meets |= ask_poor(&behind, asked.at[at], wanted[at], &left);
        revroute_close(&behind);
        if (refusing_held) stop("a closed session holds memory");
    }
    for (size_t at = 0; at < asked.count; at++) free(wanted[at].bytes);
    free(wanted);
    drop_lines(asked);
    printf("%ld %ld\n", number - 1, refusals);
}
