/* Answers the lines of standard input one by one, as `revroute run` does.
 *
 * usage: lines [--room N] [--threads N] [--stack N]
 *
 *   --room N      ask each line first with a buffer of N bytes, instead of the buffer of the line before; if this is
 *                 too short, ask again with the room that is needed
 *   --threads N   answer all lines on N threads in parallel, each with its own session; all must give the same answers
 *   --stack N     give each thread a stack of N KiB
 */
#include "lines.h"

#include <pthread.h>
#include <revroute.h>

enum { MOST_THREADS = 64 };

static size_t first_room = 4096;
static int starts_over;
static lines asked;

/* The answers of a thread, each with its newline, and a buffer for the next answer, with one byte more for the
 * newline. A single thread writes its answers out immediately. */
typedef struct {
    int is_alone;
    uint8_t *bytes;
    size_t length, room;
    uint8_t *answer;
    size_t answer_room;
} answers;

static void take_answer(answers *it, size_t length) {
    it->answer[length++] = '\n';
    if (it->is_alone) {
        fwrite(it->answer, 1, length, stdout);
        return;
    }
    if (it->room - it->length < length) it->bytes = grown(it->bytes, it->room = 2 * it->room + length);
    memcpy(it->bytes + it->length, it->answer, length);
    it->length += length;
}

static void ask(revroute *session, line it, answers *all) {
    size_t room = starts_over ? first_room : all->answer_room, length;
    for (;;) {
        uint32_t status = revroute_answer(session, it.bytes, it.length, all->answer, room, &length);
        if (status == REVROUTE_ANSWERED) take_answer(all, length);
        if (status == REVROUTE_NO_MEMORY) stop("no memory");
        if (status != REVROUTE_TOO_SHORT) return;
        if (length <= room) stop("too short a buffer, and no more is wanted");
        room = length;
        if (room > all->answer_room) all->answer = grown(all->answer, (all->answer_room = room) + 1);
    }
}

static void *answer_all(void *given) {
    answers *all = given;
    revroute session = REVROUTE_NEW;
    all->bytes = grown(NULL, all->room = 65536);
    all->answer = grown(NULL, (all->answer_room = first_room) + 1);
    for (size_t at = 0; at < asked.count; at++) ask(&session, asked.at[at], all);
    revroute_close(&session);
    free(all->answer);
    return NULL;
}

static size_t number(const char *word) {
    char *end;
    size_t found = word ? strtoul(word, &end, 10) : 0;
    if (!word || *word < '0' || *word > '9' || *end) stop("a number is wanted");
    return found;
}

/* Answers on several threads, and checks that all give the same answers. */
static void answer_by(size_t threads, size_t stack, answers *all) {
    pthread_t started[MOST_THREADS];
    pthread_attr_t how;
    if (pthread_attr_init(&how) || (stack && pthread_attr_setstacksize(&how, stack << 10))) stop("there is no such stack");
    for (size_t at = 0; at < threads; at++) {
        all[at].is_alone = threads == 1;
        if (pthread_create(&started[at], &how, answer_all, &all[at])) stop("a thread could not be started");
    }
    for (size_t at = 0; at < threads; at++) {
        pthread_join(started[at], NULL);
        if (all[at].length != all[0].length || memcmp(all[at].bytes, all[0].bytes, all[0].length))
            stop("two threads answer differently");
    }
    pthread_attr_destroy(&how);
}

int main(int count, char **words) {
    size_t threads = 1, stack = 0;
    for (int at = 1; at < count; at++) {
        if (!strcmp(words[at], "--room")) first_room = number(words[++at]), starts_over = 1;
        else if (!strcmp(words[at], "--threads")) threads = number(words[++at]);
        else if (!strcmp(words[at], "--stack")) stack = number(words[++at]);
        else stop("usage: lines [--room N] [--threads N] [--stack N]");
    }
    if (threads < 1 || threads > MOST_THREADS) stop("there are 1 to 64 threads");
    setvbuf(stdout, NULL, _IOFBF, 65536);
    asked = read_lines();
    answers all[MOST_THREADS] = {{0}};
    answer_by(threads, stack, all);
    fwrite(all[0].bytes, 1, all[0].length, stdout);
    for (size_t at = 0; at < threads; at++) free(all[at].bytes);
    drop_lines(asked);
    return fflush(stdout) || ferror(stdout);
}
