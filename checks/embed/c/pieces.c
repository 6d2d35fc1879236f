/* Passes standard input in pieces, and checks that the answers are those in a file, wherever the input is cut.
 *
 * usage: pieces ANSWERS
 *        pieces --longest
 *
 * The input is cut in two at each byte, including its ends, and into single bytes. Each cut is passed with enough
 * room, and then with too little room before each call: 0 bytes, one byte less than the least room, and one byte less
 * than the answer. The whole input and the single bytes are also passed with the Nth allocation refused, for N = 1,
 * 2, .. until no allocation is refused. A call with too little room or memory must take nothing and change nothing,
 * and then the same piece must get its answer. Before each call questions are asked. They must not change the line
 * that has begun. It prints how many allocations were refused, and how many calls reported this.
 *
 * With --longest it tests a line of the greatest length, a longer one, and blank lines in a new session. Each piece
 * and each buffer ends where the next page cannot be accessed.
 */
#define _DEFAULT_SOURCE
#include "fence.h"
#include "refusing_heap.h"

#include <revroute.h>

enum { LONGEST = 16777216, ROOM = 4096, UNTOUCHED = 0xa5, PIECE_SPACE = LONGEST + 65536, ANSWER_SPACE = 65536 };

static uint8_t *piece_end, *answer_end;

/* A session that gets pieces, the answers that are still expected, and which allocation is refused (0 for none). */
typedef struct {
    revroute session;
    line owed;
    long left;
} talk;

/* The status of a call, and its answer. */
typedef struct {
    uint32_t status;
    line answer;
    size_t taken;
} ending;

/* Passes the front of a piece. A piece whose bytes are NULL is the end of the input. */
typedef size_t step(talk *, line);

/* The number of bytes of a piece that a call takes. */
static size_t front_of(line piece) {
    const uint8_t *end = piece.length ? memchr(piece.bytes, '\n', piece.length) : NULL;
    return end ? (size_t)(end - piece.bytes) + 1 : piece.length;
}

/* The state of a session, asked by lines. Empty while it holds nothing. */
static size_t state_of(revroute *session, uint8_t *text) {
    static const char *const questions[] = {"[\"links\"]", "[\"counts\"]", "[\"hops\"]"};
    size_t all = 0, length;
    for (size_t at = 0; session->at && at < 3; at++) {
        const uint8_t *question = (const uint8_t *)questions[at];
        if (revroute_answer(session, question, strlen(questions[at]), text + all, ROOM, &length) != REVROUTE_ANSWERED)
            stop("a question has no answer");
        all += length;
    }
    return all;
}

static int has_taken(uint32_t status) {
    return status == REVROUTE_ANSWERED || status == REVROUTE_BLANK || status == REVROUTE_BEGUN;
}

/* Checks that a status is one that the header allows for such a piece. */
static void look_at(ending it, line piece) {
    size_t front = front_of(piece);
    int ends = !piece.bytes || (front && piece.bytes[front - 1] == '\n');
    if (it.status == REVROUTE_NO_NETWORK || it.status > REVROUTE_TOO_LONG) stop("an end that the header does not name");
    if (has_taken(it.status) && (it.status == REVROUTE_BEGUN) == ends) stop("a line ends where it does not, or has begun where it ends");
    if (it.taken != (has_taken(it.status) ? front : 0)) stop("another number of bytes is told as taken");
    if (it.status != REVROUTE_ANSWERED && it.status != REVROUTE_TOO_SHORT && it.answer.length) stop("a length without an answer");
}

/* Makes one call. Checks that it changes nothing if it takes nothing, and that it writes only the answer's bytes. */
static ending call(talk *it, line piece, size_t room) {
    static uint8_t before[3 * ROOM], after[3 * ROOM];
    size_t told = state_of(&it->session, before), length = 77, taken = 77;
    if (piece.length > PIECE_SPACE) stop("a piece is too long for this test");
    uint8_t *at = piece.length ? memcpy(piece_end - piece.length, piece.bytes, piece.length) : piece_end;
    uint8_t *answer = memset(answer_end - room, UNTOUCHED, room);
    const void *held = it->session.at;
    uint32_t status;
    refusing_left = it->left;
    if (piece.bytes) status = revroute_take(&it->session, at, piece.length, answer, room, &length, &taken);
    else status = revroute_finish(&it->session, answer, room, &length), taken = 0;
    it->left = refusing_left;
    refusing_left = 0;
    ending end = {status, {answer, length}, taken};
    look_at(end, piece);
    for (size_t byte = status == REVROUTE_ANSWERED ? length : 0; byte < room; byte++)
        if (answer[byte] != UNTOUCHED) stop("a byte was written that is none of the answer's");
    if (status != REVROUTE_ANSWERED && status != REVROUTE_BEGUN && it->session.at != held) stop("the session's own bytes were written");
    if (!it->session.at && refusing_held) stop("a session that holds nothing owns memory");
    if (!has_taken(status) && (state_of(&it->session, after) != told || memcmp(before, after, told)))
        stop("a call that took nothing changed the session");
    return end;
}

/* The length of the next expected answer. */
static size_t next_length(const talk *it) {
    const uint8_t *end = it->owed.length ? memchr(it->owed.bytes, '\n', it->owed.length) : NULL;
    if (!end) stop("there are more answers than the file has");
    return (size_t)(end - it->owed.bytes);
}

/* Compares an answer with the next expected one. Returns how many bytes the call took. */
static size_t settle(talk *it, ending end) {
    if (!has_taken(end.status)) stop("a front of a piece was not taken");
    if (end.status != REVROUTE_ANSWERED) return end.taken;
    size_t length = next_length(it);
    if (end.answer.length != length || memcmp(end.answer.bytes, it->owed.bytes, length)) stop("the answer is another than the file's");
    it->owed = (line){it->owed.bytes + length + 1, it->owed.length - length - 1};
    return end.taken;
}

static size_t hand_roomy(talk *it, line piece) { return settle(it, call(it, piece, ROOM)); }

static void expect_too_short(talk *it, line piece, size_t room, size_t wanted) {
    ending end = call(it, piece, room);
    if (end.status != REVROUTE_TOO_SHORT) stop("a buffer that is too short was taken");
    if (end.answer.length != wanted) stop("of a buffer that is too short another room is wanted");
}

static size_t hand_short(talk *it, line piece) {
    expect_too_short(it, piece, 0, REVROUTE_LEAST_ROOM);
    expect_too_short(it, piece, REVROUTE_LEAST_ROOM - 1, REVROUTE_LEAST_ROOM);
    ending end = call(it, piece, REVROUTE_LEAST_ROOM);
    if (end.status != REVROUTE_TOO_SHORT) return settle(it, end);
    size_t length = next_length(it);
    if (length <= REVROUTE_LEAST_ROOM || end.answer.length != length) stop("another room is wanted than the answer's");
    expect_too_short(it, piece, length - 1, length);
    return settle(it, call(it, piece, length));
}

/* The number of calls that reported that they had no memory. */
static long refusals;

static size_t hand_poor(talk *it, line piece) {
    long before = it->left;
    ending end = call(it, piece, ROOM);
    if (end.status != REVROUTE_NO_MEMORY) return settle(it, end);
    if (!before || it->left) stop("want of memory was told where none was refused");
    refusals++;
    return settle(it, call(it, piece, ROOM));
}

static void hand_in(talk *it, line piece, step *hand) {
    do {
        size_t taken = hand(it, piece);
        piece = (line){piece.bytes + taken, piece.length - taken};
    } while (piece.length);
}

static void end_input(talk *it, step *hand) {
    hand(it, (line){NULL, 0});
    if (it->owed.length) stop("there are fewer answers than the file has");
    hand(it, (line){NULL, 0});
    revroute_close(&it->session);
    if (it->session.at || refusing_held) stop("a closed session holds memory");
}

static void hand_in_two(line input, size_t cut, line owed, step *hand) {
    talk it = {REVROUTE_NEW, owed, 0};
    hand_in(&it, (line){input.bytes, cut}, hand);
    hand_in(&it, (line){input.bytes + cut, input.length - cut}, hand);
    end_input(&it, hand);
}

/* Passes pieces of this many bytes. Returns whether an allocation was refused. */
static int hand_in_pieces(line input, size_t size, line owed, step *hand, long left) {
    talk it = {REVROUTE_NEW, owed, left};
    for (size_t from = 0; from < input.length; from += size) {
        size_t rest = input.length - from;
        hand_in(&it, (line){input.bytes + from, rest < size ? rest : size}, hand);
    }
    end_input(&it, hand);
    return !it.left;
}

/* Refuses each allocation in turn. Returns the number of allocations. */
static long refuse_each(line input, size_t size, line owed) {
    long number = 1;
    while (hand_in_pieces(input, size, owed, hand_poor, number)) number++;
    return number - 1;
}

static void cut_everywhere(line input, line owed) {
    static step *const hands[] = {hand_roomy, hand_short};
    for (size_t way = 0; way < 2; way++) {
        for (size_t cut = 0; cut <= input.length; cut++) hand_in_two(input, cut, owed, hands[way]);
        hand_in_pieces(input, input.length, owed, hands[way], 0);
        hand_in_pieces(input, 1, owed, hands[way], 0);
    }
    long refused = refuse_each(input, input.length, owed) + refuse_each(input, 1, owed);
    printf("%ld %ld\n", refused, refusals);
}

static void expect(talk *it, line piece, uint32_t status, const char *why) {
    if (call(it, piece, ROOM).status != status) stop(why);
}

/* A question that is filled with spaces up to the longest line is answered. With one space more it is not, in one
 * piece or after a line that has begun. */
static void ask_longest(void) {
    static const char network[] = "[\"net\",2,0,[[1,0]]]\n", question[] = "[\"links\"]";
    static const char answers[] = "turned 0 cut 0\nlinks 1>0\nlinks 1>0\n";
    uint8_t *text = memset(grown(NULL, LONGEST + 2), ' ', LONGEST + 2);
    memcpy(text, question, sizeof question - 1);
    talk it = {REVROUTE_NEW, {(const uint8_t *)answers, sizeof answers - 1}, 0};
    expect(&it, (line){text, LONGEST + 1}, REVROUTE_TOO_LONG, "a new session takes more than the longest line");
    hand_in(&it, (line){(const uint8_t *)network, sizeof network - 1}, hand_roomy);
    text[LONGEST] = '\n';
    hand_in(&it, (line){text, LONGEST + 1}, hand_roomy);
    text[LONGEST] = ' ';
    text[LONGEST + 1] = '\n';
    expect(&it, (line){text, LONGEST + 2}, REVROUTE_TOO_LONG, "a longer line than the longest is taken");
    hand_in(&it, (line){text, 1}, hand_roomy);
    expect(&it, (line){text + 1, LONGEST}, REVROUTE_TOO_LONG, "more than the longest line is kept");
    hand_in(&it, (line){text + 1, LONGEST - 1}, hand_roomy);
    expect(&it, (line){text + LONGEST, 1}, REVROUTE_TOO_LONG, "a byte behind the longest line is kept");
    expect(&it, (line){text + LONGEST, 2}, REVROUTE_TOO_LONG, "a byte behind the longest line is taken");
    hand_in(&it, (line){text + LONGEST + 1, 1}, hand_roomy);
    end_input(&it, hand_roomy);
    free(text);
}

/* Closing a session discards the line that has begun. */
static void close_begun(void) {
    talk it = {REVROUTE_NEW, {NULL, 0}, 0};
    hand_in(&it, (line){(const uint8_t *)"[]", 2}, hand_roomy);
    revroute_close(&it.session);
    if (it.session.at || refusing_held) stop("a closed session keeps what has begun");
    end_input(&it, hand_short);
}

/* A blank line has no answer, and a new session takes no memory for it: it succeeds in each sufficient room, even if
 * every allocation is refused. */
static void end_blank(void) {
    static const size_t rooms[] = {REVROUTE_LEAST_ROOM, REVROUTE_LEAST_ROOM + 1, 1000, ROOM};
    static const char *const blanks[] = {"\n", " \t\r\n"};
    for (size_t at = 0; at < 4; at++) {
        talk it = {REVROUTE_NEW, {NULL, 0}, 1};
        if (call(&it, (line){NULL, 0}, rooms[at]).status != REVROUTE_BLANK) stop("an empty input is not blank");
        for (size_t blank = 0; blank < 2; blank++) {
            line piece = {(const uint8_t *)blanks[blank], strlen(blanks[blank])};
            if (call(&it, piece, rooms[at]).status != REVROUTE_BLANK) stop("a blank line is not blank");
        }
        if (it.session.at || it.left != 1) stop("a blank line takes memory");
    }
}

int main(int count, char **words) {
    if (count != 2) stop("usage: pieces ANSWERS | --longest");
    piece_end = fence(PIECE_SPACE);
    answer_end = fence(ANSWER_SPACE);
    if (!strcmp(words[1], "--longest")) {
        ask_longest();
        close_begun();
        end_blank();
        return 0;
    }
    FILE *file = fopen(words[1], "rb");
    if (!file) stop("there is no such file of answers");
    line input, owed;
    uint8_t *given = read_all(stdin, &input.length), *answers = read_all(file, &owed.length);
    fclose(file);
    input.bytes = given;
    owed.bytes = answers;
    cut_everywhere(input, owed);
    free(given);
    free(answers);
    return 0;
}
