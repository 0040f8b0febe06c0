/*
 * The loop by which include/kelbraut.h runs a node, as it stands there: tests/host.sh takes it out of the header. Node 1 of
 * four gets messages, and bytes that no node sent, by a script; what it sends is printed. Its first heartbeat lists node 3.
 * Nothing may be sent for refused bytes, and the loop ends when the ticks do.
 */
#include <inttypes.h>
#include <stdio.h>
#include <stdlib.h>
#include <string.h>

#include "kelbraut.h"

static const struct {
    uint64_t tick;
    uint8_t bytes[KELBRAUT_MESSAGE];
} script[] = {
    {3, {'H', 1, 0, [8] = 8}}, {12, {'?', 1, 0}}, {15, {'R', 1, 2, 0}}, {15, {'R', 1, 2, 1}}, {16, {'O', 1, 4}},
    {17, {'O', 1, 2, [8] = 16}}, {18, {'O', 1, 2, [15] = 128}}, {25, {'H', 1, 63}}, {31, {'O', 1, 2, [8] = 15}},
    {KELBRAUT_MOST_TICK + 1, {'H', 1, 2}},
};

static uint64_t now;
static size_t received;

/* The tick of the next message of the script. */
static uint64_t arrives(void) {
    return received < sizeof script / sizeof script[0] ? script[received].tick : KELBRAUT_NEVER;
}

static uint64_t sleep_until(uint64_t due) {
    uint64_t before = now;
    now = due < arrives() ? due : arrives();
    if (now <= before || now == KELBRAUT_NEVER) {
        printf("after tick %" PRIu64 ": no tick to wake up at\n", before);
        exit(1);
    }
    return now;
}

static int receive(uint8_t *m) {
    if (arrives() > now) {
        return 0;
    }
    memcpy(m, script[received++].bytes, KELBRAUT_MESSAGE);
    return 1;
}

static void send_all(const uint8_t *sent) {
    for (const uint8_t *m = sent; m < sent + KELBRAUT_MESSAGES && kelbraut_kind(m) != 0; m += KELBRAUT_MESSAGE) {
        printf("tick %" PRIu64 ": %c to %d, subject %d, list %" PRIx64 "\n", now, kelbraut_kind(m), kelbraut_receiver(m),
               kelbraut_subject(m), kelbraut_list(m));
    }
}

static void stop(uint64_t answer) {
    printf("tick %" PRIu64 ": stopped by %" PRIu64 "\n", now, answer);
    exit(0);
}

static void run_node(uint64_t number, uint64_t nodes, uint64_t h, uint64_t w) {
#include "loop.inc"
}

int main(void) {
    run_node(1, 4, 10, 14);
    return 1;
}
