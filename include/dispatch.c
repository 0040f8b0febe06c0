/*
 * Planners who share a machine: this program rehearses up to eight run files side by side. Each file gets turns of LENGTH
 * events, file after file and round again, so that a long rehearsal does not keep the short ones waiting. A call of the
 * dispatcher gives TURNS of them; between two calls another program could look for new files, show how far each is, or stop.
 *
 *     dispatch LENGTH TURNS FILE ..
 *
 * A file is named by its place on the command line, from 0. A line for each call has its turns in their order, each as
 * file:events. Below it stand the files that are done by then, and those of which an event was refused, with all events that
 * they did. Exit status: 0 where every file is done, else 1.
 *
 * Build: sh tools/build.sh planner
 *        gcc -std=c11 -O2 -Iinclude include/dispatch.c target/staticlib/libplanner.a -o target/dispatch
 */
#include <inttypes.h>
#include <stdio.h>
#include <stdlib.h>
#include <string.h>

#include "kelbraut.h"

/* The rehearsals that go on, in the order of their stores; those stand in one part, one after another. */
static struct rehearsal {
    int place;
    const char *file;
    uint64_t events;
} rehearsals[KELBRAUT_MOST_STORES];
static uint8_t stores[KELBRAUT_MOST_STORES * KELBRAUT_STORE];
static size_t count;

static uint8_t *store(size_t i) {
    return stores + i * KELBRAUT_STORE;
}

/* Ends the program where a call is refused, with number and line as the rehearsal program gives them. */
static void check(uint64_t answer, const char *whose) {
    if (answer != KELBRAUT_ACCEPTED) {
        fprintf(stderr, "%s: %" PRIu64 ",%" PRIu64 "\n", whose, KELBRAUT_NUMBER(answer), KELBRAUT_LINE(answer));
        exit(1);
    }
}

/* Opens the next store of the part. One byte more than the longest file is read, so that a longer one is refused by 1. */
static void add(int place, const char *file) {
    static uint8_t text[KELBRAUT_LONGEST_FILE + 1];
    FILE *from = fopen(file, "rb");
    size_t size = from != NULL ? fread(text, 1, sizeof text, from) : 0;
    if (from == NULL || ferror(from)) {
        perror(file);
        exit(1);
    }
    fclose(from);
    check(kelbraut_open(text, size, store(count), KELBRAUT_STORE), file);
    rehearsals[count].place = place;
    rehearsals[count].file = file;
    count++;
}

/*
 * How many turns a store had in a call, by its answer. All but its last have `length` events. The last may have fewer, and
 * does where the store is stopped: the refused event was still one of its own. A store that is done gets no turn.
 */
static uint64_t turns_of(uint64_t events, uint64_t length, int stopped) {
    return stopped ? events / length + 1 : (events + length - 1) / length;
}

/* Prints the turns of a call: in each round one for every store that has any left, by index. */
static void print_turns(uint64_t length, const uint64_t *events, uint64_t stopped) {
    int more = 1;
    for (uint64_t round = 0; more; round++) {
        more = 0;
        for (size_t i = 0; i < count; i++) {
            if (round < turns_of(events[i], length, stopped >> i & 1)) {
                uint64_t left = events[i] - round * length;
                printf(" %d:%" PRIu64, rehearsals[i].place, left < length ? left : length);
                more = 1;
            }
        }
    }
    printf("\n");
}

/* A run with budget 0 does nothing, and says whether an event is left. */
static int is_done(size_t i) {
    uint64_t events, spent;
    check(kelbraut_run(store(i), KELBRAUT_STORE, 0, &events, &spent), rehearsals[i].file);
    return !spent;
}

/*
 * Counts the events of a call, reports the rehearsals that are over and takes them out of the part, where those after them
 * move up; the next call would give a stopped one a turn again. Answers whether one was stopped.
 */
static int sort_out(const uint64_t *events, uint64_t stopped) {
    size_t kept = 0;
    for (size_t i = 0; i < count; i++) {
        int refused = stopped >> i & 1;
        rehearsals[i].events += events[i];
        if (refused || is_done(i)) {
            printf("  %d %s: %s after %" PRIu64 " events\n", rehearsals[i].place, rehearsals[i].file,
                   refused ? "stopped by 8" : "done", rehearsals[i].events);
        } else {
            rehearsals[kept] = rehearsals[i];
            memmove(store(kept), store(i), KELBRAUT_STORE);
            kept++;
        }
    }
    count = kept;
    return stopped != 0;
}

/* The number that stands in an argument, 0 where none does. */
static uint64_t number(const char *text) {
    size_t digits = strspn(text, "0123456789");
    return digits > 0 && digits <= 18 && text[digits] == '\0' ? strtoull(text, NULL, 10) : 0;
}

int main(int argc, char **argv) {
    uint64_t length = argc > 3 ? number(argv[1]) : 0, turns = argc > 3 ? number(argv[2]) : 0;
    int failed = 0;
    if (length == 0 || turns == 0 || argc > 3 + KELBRAUT_MOST_STORES) {
        fprintf(stderr, "usage: dispatch LENGTH TURNS FILE .., with 1 to %d files\n", KELBRAUT_MOST_STORES);
        return 1;
    }
    for (int i = 3; i < argc; i++) {
        add(i - 3, argv[i]);
    }
    for (int call = 1; count > 0; call++) {
        uint64_t given, events[KELBRAUT_MOST_STORES], stopped;
        check(kelbraut_dispatch(stores, count * KELBRAUT_STORE, length, turns, &given, events, &stopped), "dispatch");
        printf("call %d, %" PRIu64 " of %" PRIu64 " turns:", call, given, turns);
        print_turns(length, events, stopped);
        failed |= sort_out(events, stopped);
    }
    return failed || fflush(stdout) != 0 || ferror(stdout);
}
