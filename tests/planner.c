/*
 * The five calls of a rehearsal from C, as the header declares them: the ring is in the file's order, a run in pieces leaves
 * the store that steps leave, a step that moves an emitter writes two lines, the run file is written back, the dispatcher's
 * turns leave the stores that runs leave, and a refused call writes nothing that is lent to it, neither a byte nor a number.
 * A file is opened with any W; the last line of its run has the letter E, or F where W is below H + D. No call answers
 * by 4.
 */
#include <inttypes.h>
#include <stdio.h>
#include <stdlib.h>
#include <string.h>

#include "kelbraut.h"

#define CHECK(holds)                                                    \
    do {                                                                \
        if (!(holds)) {                                                 \
            fprintf(stderr, "planner: line %d: " #holds "\n", __LINE__); \
            exit(1);                                                    \
        }                                                               \
    } while (0)

/* What stands behind the pointers before a call: an accepted call writes all of them, a refused one leaves them. */
#define BEFORE UINT64_C(0x5a5a5a5a5a5a5a5a)
#define STEP_LEFT (a == BEFORE && b == BEFORE && c == BEFORE && d == BEFORE && e == BEFORE)
#define RUN_LEFT (a == BEFORE && b == BEFORE)
#define WRITE_LEFT (a == BEFORE)

static const char FILE_TEXT[] = "P,6,5,27,2,90\nC,30,1\nC,35,2\nL,3,1\nL,40,1\n";
static const char IN_NUMBER_ORDER[] = "P,6,5,27,2,90\nQ,0,1,2,3,4,5\nC,30,1\nC,35,2\nL,3,1\nL,40,1\n";
static const char SHUFFLED[] = "P,6,5,27,2,90\nQ,4,2,0,5,3,1\nC,30,1\nC,35,2\nL,3,1\nL,40,1\n";
static const char ALONE[] = "P,2,2,3,1,6\nC,3,1\n";
static const char LISTED_BEFORE[] = "P,6,5,7,2,90\nC,10,1\nC,40,2\n";
static const char LISTED_BEFORE_SHUFFLED[] = "P,6,5,7,2,90\nQ,4,2,0,5,3,1\nC,10,0\nC,40,5\n";
static const char REPORTED[] = "P,10,1,5,4,60\nC,1,2\nC,1,3\nC,2,8\nC,7,0\nC,12,9\nC,16,1\n";
static const char OVERFULL[] = "P,64,1,34,33,200\n";
static const char SHORT[] = "P,6,5,6,2,90\nC,30,1\nC,35,2\nL,3,1\nL,40,1\n";
static const char SHORT_ALONE[] = "P,3,2,2,1,8\n";
static const char SHORT_AND_OUT_OF_RANGE[] = "P,2,2,2,1,6\nC,3,2\n";
static const char SHORT_AND_TWICE[] = "P,2,2,2,1,6\nQ,0,0\n";
static const char NO_TIME_OUT[] = "P,2,2,0,1,6\n";
static const char TWICE[] = "P,3,2,3,1,6\nQ,0,2,0\n";
static const char TWICE_AND_OUT_OF_RANGE[] = "P,3,2,3,1,6\nQ,0,3,0\n";
static const char TWO_OF_THREE[] = "P,3,2,3,1,6\nQ,0,0\n";
static const char RING_AFTER_CRASH[] = "P,3,2,3,1,6\nC,3,1\nQ,0,2,1\n";

/* The number that is given by no call. */
enum { UNUSED_NUMBER = 4 };

/* What is read of a store: the first byte of a column, by docs/LAYOUTS.md. */
enum { EMITTERS = 128, LISTS = 768 };

static uint8_t store[KELBRAUT_STORE], kept[KELBRAUT_STORE], part[KELBRAUT_FILE_PART + 8];
static uint64_t a, b, c, d, e;

/* Every answer goes through here. */
static uint64_t given_answer(uint64_t answer) {
    CHECK(KELBRAUT_NUMBER(answer) != UNUSED_NUMBER);
    return answer;
}

static uint64_t open_text(const char *text, size_t size, size_t store_size) {
    return given_answer(kelbraut_open((const uint8_t *)text, size, store, store_size));
}

/* A text is refused by a number at a line. */
static int refuses(const char *text, size_t size, size_t store_size, uint64_t number, uint64_t line) {
    uint64_t answer = open_text(text, size, store_size);
    return KELBRAUT_NUMBER(answer) == number && KELBRAUT_LINE(answer) == line;
}

static uint64_t step(size_t store_size, size_t log_size) {
    a = b = c = d = e = BEFORE;
    return given_answer(kelbraut_step(store, store_size, part, log_size, &a, &b, &c, &d, &e));
}

static uint64_t run(size_t store_size, uint64_t budget) {
    a = b = BEFORE;
    return given_answer(kelbraut_run(store, store_size, budget, &a, &b));
}

static uint64_t write_file(size_t store_size, size_t part_size) {
    a = BEFORE;
    return given_answer(kelbraut_write(store, store_size, part, part_size, &a));
}

/* The bytes of the part from a place on are as they were filled. */
static int unwritten(size_t from) {
    while (from < sizeof part && part[from] == 0xa5) {
        from++;
    }
    return from == sizeof part;
}

static void steps_and_runs(const char *text, size_t size, uint64_t end) {
    uint64_t stepped = 0, ran = 0, answer;
    CHECK(open_text(text, size, sizeof store) == KELBRAUT_ACCEPTED);
    CHECK(run(sizeof store, 0) == KELBRAUT_ACCEPTED && a == 0 && b == 1);
    for (;; stepped++) {
        memset(part, 0xa5, sizeof part);
        CHECK(step(sizeof store, KELBRAUT_LOG_PART) == KELBRAUT_ACCEPTED);
        CHECK(part[0] == a && e <= KELBRAUT_LOG_PART && part[e - 1] == '\n' && unwritten(e));
        if (kelbraut_is_end(a)) {
            break;
        }
        CHECK(b <= 90 && c < 6 && d < 6);
    }
    CHECK(a == end && b == 90 && c == 4);
    memcpy(kept, store, sizeof store);
    CHECK(open_text(text, size, sizeof store) == KELBRAUT_ACCEPTED);
    do {
        answer = run(sizeof store, 7);
        ran += a;
        CHECK(answer == KELBRAUT_ACCEPTED && (b == 0 || (b == 1 && a == 7)));
    } while (b == 1);
    CHECK(ran == stepped && memcmp(store, kept, sizeof store) == 0);
    CHECK(run(sizeof store, UINT64_MAX) == KELBRAUT_ACCEPTED && a == 0 && b == 0);
}

static int put_line(char *text, uint64_t letter, uint64_t other) {
    uint64_t list = 0;
    for (unsigned byte = 8; byte-- > 0;) {
        list = list << 8 | store[LISTS + 8 * c + byte];
    }
    return sprintf(text, "%c,%" PRIu64 ",%" PRIu64 ",%" PRIu64 ",%016" PRIx64 "\n", (int)letter, b, c, other, list);
}

/*
 * The text of each step: the event's own line, and, where the node's emitter in the store is then another one, K with how far
 * back that is in the ring; the rest of the part is unchanged. So many moves are by an expired watch and by a report, and the
 * last one passes so many nodes. A part of 79 bytes is refused before every event, whatever its lines need, and at the end.
 */
static void moves(const char *text, size_t size, unsigned by_watch, unsigned by_report, unsigned last_passed) {
    uint8_t back[64], emitters[64];
    unsigned watches = 0, reports = 0, passed = 0;
    char lines[128];
    CHECK(open_text(text, size, sizeof store) == KELBRAUT_ACCEPTED);
    memcpy(back, store + EMITTERS, sizeof back);
    for (;;) {
        memset(part, 0xa5, sizeof part);
        memcpy(kept, store, sizeof store);
        CHECK(step(sizeof store, 79) == KELBRAUT_SHORT_PART && STEP_LEFT);
        CHECK(memcmp(store, kept, sizeof store) == 0 && unwritten(0));
        memcpy(emitters, store + EMITTERS, sizeof emitters);
        CHECK(step(sizeof store, 80) == KELBRAUT_ACCEPTED);
        if (kelbraut_is_end(a)) {
            break;
        }
        int length = put_line(lines, a, d);
        if (emitters[c] != store[EMITTERS + c]) {
            CHECK(emitters[c] == d && (a == KELBRAUT_EXPIRED || a == KELBRAUT_REPORT));
            *(a == KELBRAUT_EXPIRED ? &watches : &reports) += 1;
            passed = 0;
            for (uint8_t at = emitters[c]; at != store[EMITTERS + c]; at = back[at]) {
                passed++;
            }
            length += put_line(lines + length, KELBRAUT_MOVED, passed);
        }
        CHECK(e == (uint64_t)length && memcmp(part, lines, e) == 0 && unwritten(e));
    }
    CHECK(watches == by_watch && reports == by_report && passed == last_passed);
}

static void written_back(const char *text, size_t size) {
    memset(part, 0xa5, sizeof part);
    CHECK(write_file(sizeof store, sizeof part) == KELBRAUT_ACCEPTED && a == size);
    CHECK(memcmp(part, text, a) == 0 && unwritten(a));
}

/*
 * A file is opened with any W from 1 on, and written back. The last line of its run has the letter E, or F where W is
 * below H + D. Each step from then on writes that line again, so that a loop which waits for E alone may not end.
 */
static void any_time_out(unsigned h, unsigned w, unsigned d) {
    char text[64];
    uint64_t end = w < h + d ? KELBRAUT_END_SHORT : KELBRAUT_END, size;
    int length = sprintf(text, "P,3,%u,%u,%u,40\nC,20,1\n", h, w, d);
    CHECK(open_text(text, (size_t)length, sizeof store) == KELBRAUT_ACCEPTED);
    written_back(text, (size_t)length);
    do {
        CHECK(step(sizeof store, sizeof part) == KELBRAUT_ACCEPTED);
    } while (!kelbraut_is_end(a));
    memcpy(kept, store, sizeof store);
    size = e;
    for (unsigned again = 0; again < 3; again++) {
        CHECK(step(sizeof store, sizeof part) == KELBRAUT_ACCEPTED && a == end && part[0] == end);
        CHECK(b == 40 && c == 2 && e == size && memcmp(store, kept, sizeof store) == 0);
    }
    CHECK(run(sizeof store, 1) == KELBRAUT_ACCEPTED && a == 0 && b == 0);
}

static void any_time_outs(void) {
    for (unsigned h = 1; h <= 4; h++) {
        for (unsigned d = 1; d <= 4; d++) {
            for (unsigned w = 1; w <= h + d + 1; w++) {
                any_time_out(h, w, d);
            }
        }
    }
    any_time_out(1000, 1, 255);
    any_time_out(1000, 1254, 255);
    any_time_out(1000, 1255, 255);
    any_time_out(1, 65535, 1);
    for (uint64_t letter = 0; letter < 512; letter++) {
        CHECK(kelbraut_is_end(letter) == (letter == 'E' || letter == 'F'));
    }
}

/* The first heartbeats, by node: each goes to the node after it in the ring. */
static void followed_by(const char *text, size_t size, const uint8_t after[6]) {
    CHECK(open_text(text, size, sizeof store) == KELBRAUT_ACCEPTED);
    for (unsigned node = 0; node < 6; node++) {
        CHECK(step(sizeof store, sizeof part) == KELBRAUT_ACCEPTED && a == KELBRAUT_SENT && c == node && d == after[node]);
    }
}

static void refusals(void) {
    memset(part, 0xa5, sizeof part);
    CHECK(refuses(FILE_TEXT, 0, sizeof store, KELBRAUT_BAD_LENGTH, 0));
    CHECK(refuses(SHORT, sizeof SHORT - 1, 0, KELBRAUT_BAD_STORE, 0));
    CHECK(refuses(SHORT_AND_OUT_OF_RANGE, sizeof SHORT_AND_OUT_OF_RANGE - 1, 0, KELBRAUT_BAD_NUMBER, 2));
    CHECK(refuses(SHORT_AND_TWICE, sizeof SHORT_AND_TWICE - 1, 0, KELBRAUT_BAD_RING, 2));
    CHECK(refuses(NO_TIME_OUT, sizeof NO_TIME_OUT - 1, sizeof store, KELBRAUT_BAD_NUMBER, 1));
    CHECK(refuses(FILE_TEXT, sizeof FILE_TEXT - 2, sizeof store, KELBRAUT_BAD_FORM, 5));
    CHECK(refuses(TWICE, sizeof TWICE - 1, 0, KELBRAUT_BAD_RING, 2));
    CHECK(refuses(TWICE_AND_OUT_OF_RANGE, sizeof TWICE_AND_OUT_OF_RANGE - 1, sizeof store, KELBRAUT_BAD_NUMBER, 2));
    CHECK(refuses(TWO_OF_THREE, sizeof TWO_OF_THREE - 1, sizeof store, KELBRAUT_BAD_FORM, 2));
    CHECK(refuses(RING_AFTER_CRASH, sizeof RING_AFTER_CRASH - 1, sizeof store, KELBRAUT_BAD_FORM, 3));
    CHECK(refuses(FILE_TEXT, sizeof FILE_TEXT - 1, sizeof store - 1, KELBRAUT_BAD_STORE, 0));
    CHECK(step(sizeof store - 1, 0) == KELBRAUT_BAD_STORE && STEP_LEFT);
    CHECK(step(sizeof store, KELBRAUT_LOG_PART - 1) == KELBRAUT_SHORT_PART && STEP_LEFT);
    CHECK(run(sizeof store - 1, 1) == KELBRAUT_BAD_STORE && RUN_LEFT);
    CHECK(write_file(sizeof store - 1, 0) == KELBRAUT_BAD_STORE && WRITE_LEFT);
    CHECK(write_file(sizeof store, KELBRAUT_FILE_PART - 1) == KELBRAUT_SHORT_PART && WRITE_LEFT);
    CHECK(memcmp(store, kept, sizeof store) == 0 && unwritten(0));
}

/* On 8 a run says how many events it keeps, and leaves the other number. */
static void overfull(void) {
    CHECK(open_text(OVERFULL, sizeof OVERFULL - 1, sizeof store) == KELBRAUT_ACCEPTED);
    CHECK(run(sizeof store, UINT64_MAX) == KELBRAUT_OVERFULL && a == 2048 && b == BEFORE);
    memcpy(kept, store, sizeof store);
    CHECK(step(sizeof store, sizeof part) == KELBRAUT_OVERFULL && STEP_LEFT);
    CHECK(run(sizeof store, 1) == KELBRAUT_OVERFULL && a == 0 && b == BEFORE);
    CHECK(run(sizeof store, 0) == KELBRAUT_ACCEPTED && a == 0 && b == 1);
    CHECK(memcmp(store, kept, sizeof store) == 0 && unwritten(0));
}

/*
 * Node 63 leaves 62 by seven messages. Of the 2,078 others that are sent and not yet 33 ticks old some are delivered early:
 * with 36 there are 2,049 in flight after the move, which is refused and writes neither line; with 37 it writes both.
 */
static void overfull_move(unsigned early, uint64_t wanted) {
    static const char MOVE[] = "W,34,63,62,4000000000000000\nK,34,63,1,4000000000000000\n";
    char text[1024];
    int size = sprintf(text, "P,64,1,34,33,60\nC,0,62\n");
    uint64_t answer, written = wanted == KELBRAUT_ACCEPTED ? sizeof MOVE - 1 : 0;
    for (unsigned number = 63; number < 63 + early; number++) {
        size += sprintf(text + size, "L,%u,1\n", number);
    }
    CHECK(open_text(text, (size_t)size, sizeof store) == KELBRAUT_ACCEPTED);
    do {
        memset(part, 0xa5, sizeof part);
        answer = step(sizeof store, sizeof part);
    } while (answer == KELBRAUT_ACCEPTED && a != KELBRAUT_EXPIRED);
    CHECK(answer == wanted && (answer == KELBRAUT_ACCEPTED ? e == written && d == 62 : STEP_LEFT));
    CHECK(memcmp(part, MOVE, written) == 0 && unwritten(written));
    CHECK(store[EMITTERS + 61] == 60 && store[EMITTERS + 63] == (answer == KELBRAUT_ACCEPTED ? 61 : 62));
}

static uint8_t stores[(KELBRAUT_MOST_STORES + 1) * KELBRAUT_STORE], stores_kept[sizeof stores];
static uint64_t given, events[KELBRAUT_MOST_STORES + 1], stopped;

/* One number more than eight stands behind `events`: no call writes it. */
static uint64_t dispatch(size_t size, uint64_t length, uint64_t turns) {
    given = stopped = BEFORE;
    for (unsigned i = 0; i <= KELBRAUT_MOST_STORES; i++) {
        events[i] = BEFORE;
    }
    memcpy(stores_kept, stores, sizeof stores);
    uint64_t answer = kelbraut_dispatch(stores, size, length, turns, &given, events, &stopped);
    CHECK(events[KELBRAUT_MOST_STORES] == BEFORE);
    return given_answer(answer);
}

/* A dispatcher's call is refused by a number and leaves all stores and numbers. */
static int turned_down(size_t size, uint64_t length, uint64_t turns, uint64_t by) {
    int left = dispatch(size, length, turns) == by && given == BEFORE && stopped == BEFORE;
    for (unsigned i = 0; i < KELBRAUT_MOST_STORES; i++) {
        left = left && events[i] == BEFORE;
    }
    return left && memcmp(stores, stores_kept, sizeof stores) == 0;
}

/* Stores with 178, 8, 0 and 2,048 events, the last one with a refused event after them, and again the first, up to nine. */
static void open_stores(void) {
    static const char *const texts[] = {"P,6,5,27,2,90\nC,30,1\nC,35,2\n", ALONE, "P,1,1,2,1,5\n", OVERFULL};
    for (unsigned i = 0; i <= KELBRAUT_MOST_STORES; i++) {
        const char *text = texts[i % 4];
        CHECK(open_text(text, strlen(text), sizeof store) == KELBRAUT_ACCEPTED);
        memcpy(stores + i * KELBRAUT_STORE, store, sizeof store);
    }
}

/*
 * An accepted call on the first `count` stores gives so many turns, the i-th store having `had` of them and so many events, 0
 * where there is none. Each store is what a run alone leaves, and what stands behind the part is left.
 */
static void dispatched(unsigned count, uint64_t length, uint64_t turns, const uint64_t *had, const uint64_t *did,
                       uint64_t stop) {
    uint64_t sum = 0;
    CHECK(dispatch(count * KELBRAUT_STORE, length, turns) == KELBRAUT_ACCEPTED && stopped == stop);
    for (unsigned i = 0; i < KELBRAUT_MOST_STORES; i++) {
        CHECK(events[i] == (i < count ? did[i] : 0));
        memcpy(store, stores_kept + i * KELBRAUT_STORE, sizeof store);
        if (i < count) {
            sum += had[i];
            uint64_t wanted = stop >> i & 1 ? KELBRAUT_OVERFULL : KELBRAUT_ACCEPTED;
            CHECK(run(sizeof store, had[i] * length) == wanted && a == did[i]);
        }
        CHECK(memcmp(store, stores + i * KELBRAUT_STORE, sizeof store) == 0);
    }
    CHECK(given == sum);
}

static void turns_go_round(void) {
    static const uint64_t none[8] = {0}, once[] = {1, 1, 0, 1, 0, 0, 0, 0};
    open_stores();
    dispatched(8, 1000, 0, none, none, 0);
    dispatched(8, 1, 3, once, once, 0);
    dispatched(3, 10, 4, (const uint64_t[]){3, 1, 0}, (const uint64_t[]){30, 7, 0}, 0);
    /* Store 3 has 23 whole turns left and is then not done: the refused event takes another turn, in each call anew. */
    dispatched(4, 89, 24, (const uint64_t[]){2, 0, 0, 22}, (const uint64_t[]){147, 0, 0, 1958}, 0);
    dispatched(4, 89, 1, (const uint64_t[]){0, 0, 0, 1}, (const uint64_t[]){0, 0, 0, 89}, 0);
    dispatched(4, 89, 3, (const uint64_t[]){0, 0, 0, 1}, none, 8);
    dispatched(4, 1, UINT64_MAX, (const uint64_t[]){0, 0, 0, 1}, none, 8);
    open_stores();
    dispatched(8, 512, UINT64_MAX, (const uint64_t[]){1, 1, 0, 5, 1, 1, 0, 5},
               (const uint64_t[]){178, 8, 0, 2048, 178, 8, 0, 2048}, 0x88);
    dispatched(3, 512, 7, none, none, 0);
}

/* 14 before 15, 15 before 7; 7 where the part is no whole stores, or where the first or the last of them is out of range. */
static void turns_refused(void) {
    const size_t eight = KELBRAUT_MOST_STORES * KELBRAUT_STORE;
    open_stores();
    CHECK(turned_down(0, 0, 1, KELBRAUT_BAD_PART) && turned_down(0, 1, 0, KELBRAUT_BAD_PART));
    CHECK(turned_down(eight + 1, 1001, 1, KELBRAUT_BAD_PART) && turned_down(sizeof stores, 1, 1, KELBRAUT_BAD_PART));
    CHECK(turned_down(eight, 0, 1, KELBRAUT_BAD_TURN) && turned_down(1, KELBRAUT_LONGEST_TURN + 1, 1, KELBRAUT_BAD_TURN));
    CHECK(turned_down(eight, UINT64_MAX, 0, KELBRAUT_BAD_TURN));
    CHECK(turned_down(1, 1, 1, KELBRAUT_BAD_STORE) && turned_down(KELBRAUT_STORE - 1, 1, 1, KELBRAUT_BAD_STORE));
    CHECK(turned_down(KELBRAUT_STORE + 1, 1, 0, KELBRAUT_BAD_STORE) && turned_down(eight - 1, 1, 1, KELBRAUT_BAD_STORE));
    stores[eight - 1] = 1;
    CHECK(turned_down(eight, KELBRAUT_LONGEST_TURN, 1, KELBRAUT_BAD_STORE) && turned_down(eight, 1, 0, KELBRAUT_BAD_STORE));
    CHECK(dispatch(eight - KELBRAUT_STORE, KELBRAUT_LONGEST_TURN, 1) == KELBRAUT_ACCEPTED && given == 1 && events[0] == 178);
    stores[0] = 65;
    CHECK(turned_down(KELBRAUT_STORE, 1, 1, KELBRAUT_BAD_STORE) && turned_down(eight, 0, 1, KELBRAUT_BAD_TURN));
}

int main(void) {
    followed_by(FILE_TEXT, sizeof FILE_TEXT - 1, (const uint8_t[]){1, 2, 3, 4, 5, 0});
    followed_by(IN_NUMBER_ORDER, sizeof IN_NUMBER_ORDER - 1, (const uint8_t[]){1, 2, 3, 4, 5, 0});
    followed_by(SHUFFLED, sizeof SHUFFLED - 1, (const uint8_t[]){5, 4, 0, 1, 2, 3});
    moves(ALONE, sizeof ALONE - 1, 1, 0, 1);
    moves(FILE_TEXT, sizeof FILE_TEXT - 1, 1, 0, 1);
    moves(SHUFFLED, sizeof SHUFFLED - 1, 2, 0, 1);
    moves(LISTED_BEFORE, sizeof LISTED_BEFORE - 1, 2, 0, 2);
    moves(LISTED_BEFORE_SHUFFLED, sizeof LISTED_BEFORE_SHUFFLED - 1, 2, 0, 2);
    moves(REPORTED, sizeof REPORTED - 1, 7, 1, 1);
    moves(SHORT_ALONE, sizeof SHORT_ALONE - 1, 3, 3, 1);
    any_time_outs();
    steps_and_runs(SHORT, sizeof SHORT - 1, KELBRAUT_END_SHORT);
    written_back(SHORT, sizeof SHORT - 1);
    steps_and_runs(SHUFFLED, sizeof SHUFFLED - 1, KELBRAUT_END);
    written_back(SHUFFLED, sizeof SHUFFLED - 1);
    steps_and_runs(IN_NUMBER_ORDER, sizeof IN_NUMBER_ORDER - 1, KELBRAUT_END);
    written_back(IN_NUMBER_ORDER, sizeof IN_NUMBER_ORDER - 1);
    steps_and_runs(FILE_TEXT, sizeof FILE_TEXT - 1, KELBRAUT_END);
    written_back(FILE_TEXT, sizeof FILE_TEXT - 1);
    refusals();
    overfull();
    overfull_move(36, KELBRAUT_OVERFULL);
    overfull_move(37, KELBRAUT_ACCEPTED);
    turns_go_round();
    turns_refused();
    return 0;
}
