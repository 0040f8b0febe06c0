/*
 * Five nodes in one process. A message travels for 1 to 3 ticks, as the 16 bytes that a call wrote. Bytes that no node sent
 * are dropped. Node 2 stops at tick 100. The program goes from one tick at which there is something to do to the next,
 * where a host with a clock would sleep. At the end each live node is printed.
 * Build: sh tools/build.sh host && gcc -Iinclude include/host.c target/staticlib/libhost.a -o target/host
 */
#include <inttypes.h>
#include <stdio.h>
#include <stdlib.h>
#include <string.h>

#include "kelbraut.h"

#define NODES 5
#define H 20
#define D 3
#define W 30
#define STOPPED 2
#define STOP_TICK 100
#define END_TICK 300
#define MOST_AT_A_TICK 64

/* This program's own choice: a record opens with any W, but with a shorter one live nodes get listed. */
#if W < H + D
#error "live nodes would be listed"
#endif

static uint8_t nodes[NODES][KELBRAUT_RECORD];

/* The wire: the bytes that arrive at a tick stand at that tick's remainder by D + 1. */
static struct arriving {
    size_t count;
    uint8_t bytes[MOST_AT_A_TICK][KELBRAUT_MESSAGE];
} wire[D + 1];

static int lives(size_t node, uint64_t tick) {
    return node != STOPPED || tick < STOP_TICK;
}

static void check(uint64_t answer) {
    if (answer != KELBRAUT_ACCEPTED) {
        fprintf(stderr, "refused by %" PRIu64 "\n", answer);
        exit(1);
    }
}

static void put(const uint8_t *bytes, uint64_t tick) {
    struct arriving *at = &wire[tick % (D + 1)];
    if (at->count == MOST_AT_A_TICK) {
        fprintf(stderr, "the wire is full\n");
        exit(1);
    }
    memcpy(at->bytes[at->count++], bytes, KELBRAUT_MESSAGE);
}

/* Puts the messages of an accepted call on the wire. */
static void send_all(const uint8_t *sent, uint64_t tick) {
    for (const uint8_t *m = sent; m < sent + KELBRAUT_MESSAGES && kelbraut_kind(m) != 0; m += KELBRAUT_MESSAGE) {
        put(m, tick + 1 + (kelbraut_receiver(m) + tick) % D);
    }
}

/* Delivers bytes off the wire. Those that are for no live node are lost, those that no node sent are refused by 11. */
static void deliver(const uint8_t *m, uint64_t tick) {
    uint8_t sent[KELBRAUT_MESSAGES], to = kelbraut_receiver(m);
    if (to >= NODES || !lives(to, tick)) {
        return;
    }
    uint64_t answer = kelbraut_node_deliver(nodes[to], KELBRAUT_RECORD, tick, kelbraut_kind(m), kelbraut_sender(m),
                                            kelbraut_subject(m), kelbraut_list(m), sent, sizeof sent);
    if (answer == KELBRAUT_BAD_MESSAGE) {
        printf("tick %" PRIu64 ": bytes for node %d are dropped\n", tick, to);
        return;
    }
    check(answer);
    send_all(sent, tick);
}

static void do_timers(size_t node, uint64_t tick) {
    uint8_t sent[KELBRAUT_MESSAGES];
    while (lives(node, tick) && kelbraut_next_due(nodes[node]) <= tick) {
        check(kelbraut_node_timers(nodes[node], KELBRAUT_RECORD, tick, sent, sizeof sent));
        send_all(sent, tick);
    }
}

/* The first tick after this one at which bytes arrive or a live node's timer is due. */
static uint64_t next_tick(uint64_t tick) {
    uint64_t next = KELBRAUT_NEVER;
    for (size_t node = 0; node < NODES; node++) {
        uint64_t due = kelbraut_next_due(nodes[node]);
        next = lives(node, tick) && due < next ? due : next;
    }
    for (uint64_t later = tick + D; later > tick; later--) {
        next = wire[later % (D + 1)].count > 0 && later < next ? later : next;
    }
    return next;
}

int main(void) {
    static const uint8_t stray[KELBRAUT_MESSAGE] = {'?', 1, 3};
    int awake = 0;
    for (size_t node = 0; node < NODES; node++) {
        check(kelbraut_node_open(nodes[node], KELBRAUT_RECORD, node, NODES, H, W));
    }
    put(stray, 1);
    for (uint64_t tick = next_tick(0); tick <= END_TICK; tick = next_tick(tick)) {
        struct arriving *at = &wire[tick % (D + 1)];
        for (size_t i = 0; i < at->count; i++) {
            deliver(at->bytes[i], tick);
        }
        at->count = 0;
        for (size_t node = 0; node < NODES; node++) {
            do_timers(node, tick);
        }
        awake++;
    }
    for (size_t node = 0; node < NODES; node++) {
        if (lives(node, END_TICK)) {
            printf("node %zu watches %d, sends to %d and lists %016" PRIx64 "\n", node, kelbraut_emitter(nodes[node]),
                   kelbraut_observer(nodes[node]), kelbraut_dead_list(nodes[node]));
        }
    }
    printf("awake at %d ticks of %d\n", awake, END_TICK);
    return 0;
}
