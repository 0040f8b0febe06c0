/*
 * The readers of include/kelbraut.h, beside the bytes and the calls that they are about, in four parts:
 *
 *     letters  which letters end a run: E and F, of all numbers that a step may answer, and none beyond
 *     bytes    every byte of a record and of a message, with every value, by docs/LAYOUTS.md; every move in every ring
 *     calls    records that random calls lead to: before the next due tick the timers do nothing, at it they do something;
 *              whom they send to and with which list, whose heartbeat counts, what it adds to the list, which reports are
 *              passed on, how many nodes a move passes, which ticks are refused
 *     rings    whole rings twice, with the timers called at every tick and only where one is due: the messages are the same,
 *              and the records but for the last tick. Nodes stop in the midst of a tick, with some of a call's messages
 *              sent. With W at least H + D no live node is listed; with less, some are
 *
 * Usage: readers SEED [PART]. Stops at the first failure.
 */
#include <inttypes.h>
#include <stdio.h>
#include <stdlib.h>
#include <string.h>

#include "kelbraut.h"

#define MOST_NODES 64
#define MOST_IN_FLIGHT 65536
#define END_TICK 500

#define CHECK(fact) ((fact) ? (void)0 : fail(#fact, __LINE__))

static const char *part_name;

static void fail(const char *fact, int line) {
    fprintf(stderr, "readers: %s, line %d: not so: %s\n", part_name, line, fact);
    exit(1);
}

/* ---- a source of random numbers (splitmix64) */

static uint64_t state;

static uint64_t mixed(uint64_t x) {
    x = (x ^ x >> 30) * UINT64_C(0xbf58476d1ce4e5b9);
    x = (x ^ x >> 27) * UINT64_C(0x94d049bb133111eb);
    return x ^ x >> 31;
}

static uint64_t below(uint64_t bound) {
    state += UINT64_C(0x9e3779b97f4a7c15);
    return mixed(state) % bound;
}

/* ---- letters */

static void test_letters(void) {
    CHECK(KELBRAUT_END == 'E' && KELBRAUT_END_SHORT == 'F');
    for (uint64_t letter = 0; letter < 1024; letter++) {
        CHECK(kelbraut_is_end(letter) == (letter == 'E' || letter == 'F'));
        CHECK(!kelbraut_is_end(letter | UINT64_C(1) << 32) && !kelbraut_is_end(~letter));
    }
}

/* ---- the bytes of docs/LAYOUTS.md */

/* The value of a byte where it is the place of a field that starts at `from` and has `size` bytes, else 0. */
static uint64_t share(int place, uint64_t value, int from, int size) {
    return place >= from && place < from + size ? value << 8 * (place - from) : 0;
}

static uint64_t earlier(uint64_t a, uint64_t b) {
    return a < b ? a : b;
}

/* The tick of a timer's field: 0 is off, else one more than the tick. */
static uint64_t tick_of(uint64_t timer) {
    return timer == 0 ? KELBRAUT_NEVER : timer - 1;
}

static void test_byte(int place, uint8_t value) {
    uint8_t record[KELBRAUT_RECORD] = {0};
    record[place] = value;
    CHECK(kelbraut_emitter(record) == share(place, value, 6, 1));
    CHECK(kelbraut_observer(record) == share(place, value, 7, 1));
    CHECK(kelbraut_dead_list(record) == share(place, value, 8, 8));
    CHECK(kelbraut_mark(record) == share(place, value, 32, 8));
    CHECK(kelbraut_last_tick(record) == share(place, value, 16, 4));
    CHECK(kelbraut_next_due(record) == earlier(tick_of(share(place, value, 20, 4)), tick_of(share(place, value, 24, 4))));
    if (place < KELBRAUT_MESSAGE) {
        CHECK(kelbraut_kind(record) == share(place, value, 0, 1));
        CHECK(kelbraut_receiver(record) == share(place, value, 1, 1));
        CHECK(kelbraut_sender(record) == share(place, value, 2, 1));
        CHECK(kelbraut_subject(record) == share(place, value, 3, 1));
        CHECK(kelbraut_list(record) == share(place, value, 8, 8));
    }
}

/* Two timers, written as bytes by hand: the earlier one is next. */
static void test_timers(uint32_t watch, uint32_t heartbeat) {
    uint8_t record[KELBRAUT_RECORD] = {0};
    for (int i = 0; i < 4; i++) {
        record[20 + i] = (uint8_t)(watch >> 8 * i);
        record[24 + i] = (uint8_t)(heartbeat >> 8 * i);
    }
    CHECK(kelbraut_next_due(record) == earlier(tick_of(watch), tick_of(heartbeat)));
}

/* A move from one emitter to another: as many nodes are passed as there are steps back. */
static void test_way(uint8_t count, uint8_t left, uint8_t taken) {
    uint8_t before[KELBRAUT_RECORD] = {0}, after[KELBRAUT_RECORD] = {0};
    int steps = 0;
    for (uint8_t at = left; at != taken; at = at == 0 ? count - 1 : at - 1) {
        steps++;
    }
    before[1] = after[1] = count;
    before[6] = left;
    after[6] = taken;
    CHECK(kelbraut_passed(before, after) == steps);
}

static void test_bytes(void) {
    static const uint32_t timers[] = {0, 1, 2, 255, 256, 65536, 1000000, 1000001, 1131071, UINT32_MAX};
    const int count = sizeof timers / sizeof timers[0];
    for (int i = 0; i < KELBRAUT_RECORD * 256; i++) {
        test_byte(i / 256, (uint8_t)i);
    }
    for (int i = 0; i < count * count; i++) {
        test_timers(timers[i / count], timers[i % count]);
    }
    for (int ring = 1; ring <= MOST_NODES; ring++) {
        for (int i = 0; i < ring * ring; i++) {
            test_way((uint8_t)ring, (uint8_t)(i / ring), (uint8_t)(i % ring));
        }
    }
    CHECK(KELBRAUT_NEVER > KELBRAUT_MOST_TICK);
}

/* ---- records that calls lead to */

/* The figures of a record by which a test chooses its calls. */
static uint64_t own_number, nodes, period, time_out;

static uint64_t heartbeats, moves, left_alone, passed_one, passed_more, learnt, relayed;

static uint64_t bit(uint64_t node) {
    return UINT64_C(1) << node;
}

/* A list of at most two nodes. */
static uint64_t short_list(void) {
    return below(2) == 0 ? 0 : bit(below(nodes)) | bit(below(nodes));
}

static int same_but_last_tick(const uint8_t *a, const uint8_t *b) {
    return memcmp(a, b, 16) == 0 && memcmp(a + 20, b + 20, KELBRAUT_RECORD - 20) == 0;
}

/*
 * The number passed by an accepted call is how many listed nodes there are, one after another, going back from the emitter
 * before it, up to the one found; none where that is the emitter still, as it is not listed then.
 */
static void test_passed(const uint8_t *before, const uint8_t *after) {
    uint64_t at = kelbraut_emitter(before), passed = 0;
    while (kelbraut_dead_list(after) >> at & 1) {
        at = (at + nodes - 1) % nodes;
        passed++;
    }
    CHECK(at == kelbraut_emitter(after) && kelbraut_passed(before, after) == passed);
    passed_one += passed == 1;
    passed_more += passed > 1;
}

/* The timers send nothing at this tick, and change nothing but the last tick. */
static void test_idle(const uint8_t *record, uint64_t tick) {
    static const uint8_t nothing[KELBRAUT_MESSAGES];
    uint8_t copy[KELBRAUT_RECORD], sent[KELBRAUT_MESSAGES];
    memcpy(copy, record, sizeof copy);
    memset(sent, 7, sizeof sent);
    CHECK(kelbraut_node_timers(copy, sizeof copy, tick, sent, sizeof sent) == KELBRAUT_ACCEPTED);
    CHECK(memcmp(sent, nothing, sizeof sent) == 0);
    CHECK(same_but_last_tick(copy, record));
    CHECK(kelbraut_last_tick(copy) == tick);
}

/* A timer is done at this tick: a heartbeat to the observer, or the emitter is listed. */
static void test_one_timer(uint8_t *record, uint64_t tick) {
    uint8_t before[KELBRAUT_RECORD], sent[KELBRAUT_MESSAGES];
    memcpy(before, record, sizeof before);
    CHECK(kelbraut_node_timers(record, KELBRAUT_RECORD, tick, sent, sizeof sent) == KELBRAUT_ACCEPTED);
    CHECK(!same_but_last_tick(record, before));
    CHECK(kelbraut_last_tick(record) == tick);
    test_passed(before, record);
    if (kelbraut_kind(sent) == KELBRAUT_HEARTBEAT) {
        CHECK(kelbraut_receiver(sent) == kelbraut_observer(before));
        CHECK(kelbraut_list(sent) == kelbraut_dead_list(before));
        CHECK(kelbraut_dead_list(record) == kelbraut_dead_list(before) && kelbraut_mark(record) == kelbraut_mark(before));
        heartbeats++;
        return;
    }
    CHECK(kelbraut_dead_list(record) == (kelbraut_dead_list(before) | bit(kelbraut_emitter(before))));
    CHECK(kelbraut_mark(record) == (kelbraut_mark(before) | bit(kelbraut_emitter(before))));
    if (kelbraut_kind(sent) == 0) {
        CHECK(kelbraut_emitter(record) == own_number && kelbraut_observer(record) == own_number);
        CHECK(kelbraut_next_due(record) == KELBRAUT_NEVER);
        left_alone++;
    } else {
        CHECK(kelbraut_kind(sent) == KELBRAUT_OBSERVER && kelbraut_receiver(sent) == kelbraut_emitter(record));
        CHECK(kelbraut_list(sent) == 0);
        moves++;
    }
}

/* Before the next due tick nothing, at it one timer or two, then nothing again at that tick. */
static void test_next_due(const uint8_t *record) {
    uint64_t last = kelbraut_last_tick(record), due = kelbraut_next_due(record);
    if (due > last) {
        uint64_t idle = earlier(due - 1, KELBRAUT_MOST_TICK);
        test_idle(record, last);
        test_idle(record, last + below(idle - last + 1));
        test_idle(record, idle);
    }
    uint64_t tick = due > last ? due : last;
    if (tick > KELBRAUT_MOST_TICK) {
        return;
    }
    uint8_t copy[KELBRAUT_RECORD];
    memcpy(copy, record, sizeof copy);
    test_one_timer(copy, tick);
    if (kelbraut_next_due(copy) <= tick) {
        test_one_timer(copy, tick);
    }
    CHECK(kelbraut_next_due(copy) > tick);
    test_idle(copy, tick);
}

/* What a message does to a copy of a record, at the tick after the last, and whether anything is sent. */
static int deliver(uint8_t *copy, const uint8_t *record, uint64_t kind, uint64_t sender, uint64_t subject, uint64_t list) {
    uint8_t sent[KELBRAUT_MESSAGES];
    uint64_t tick = kelbraut_last_tick(record) + 1;
    memcpy(copy, record, KELBRAUT_RECORD);
    CHECK(kelbraut_node_deliver(copy, KELBRAUT_RECORD, tick, kind, sender, subject, list, sent, sizeof sent) ==
          KELBRAUT_ACCEPTED);
    CHECK(kelbraut_last_tick(copy) == tick);
    return kelbraut_kind(sent) != 0;
}

/* A report of a node that is listed already: passed on, and marked, where it is not marked yet, else nothing. */
static void test_listed(const uint8_t *record, uint64_t sender) {
    uint8_t copy[KELBRAUT_RECORD];
    uint64_t list = kelbraut_dead_list(record), mark = kelbraut_mark(record);
    CHECK((mark & ~list) == 0);
    if ((list >> sender & 1) == 0) {
        return;
    }
    /* Reports go to nodes that are not listed: a node that lists all others sends none. */
    int targets = (list | bit(own_number)) != UINT64_MAX >> (64 - nodes);
    int sends = deliver(copy, record, KELBRAUT_REPORT, sender, sender, 0);
    CHECK(kelbraut_dead_list(copy) == list && kelbraut_mark(copy) == (mark | bit(sender)));
    CHECK(sends == ((mark >> sender & 1) == 0 && targets));
    relayed += (uint64_t)sends;
}

/*
 * A heartbeat from the emitter renews the watch and adds its list, but for the node itself and the sender, to the list alone;
 * one from another node does nothing; a new observer is the observer.
 */
static void test_sender(const uint8_t *record, uint64_t sender) {
    uint8_t copy[KELBRAUT_RECORD];
    uint64_t tick = kelbraut_last_tick(record) + 1, list = short_list();
    CHECK(!deliver(copy, record, KELBRAUT_HEARTBEAT, sender, 0, list));
    if (sender == kelbraut_emitter(record)) {
        CHECK(kelbraut_dead_list(copy) == (kelbraut_dead_list(record) | (list & ~bit(own_number) & ~bit(sender))));
        CHECK(kelbraut_mark(copy) == kelbraut_mark(record));
        learnt += kelbraut_dead_list(copy) != kelbraut_dead_list(record);
        CHECK(kelbraut_next_due(copy) <= tick + time_out);
        copy[24] = copy[25] = copy[26] = copy[27] = 0;
        CHECK(kelbraut_next_due(copy) == tick + time_out);
    } else {
        CHECK(same_but_last_tick(copy, record));
    }
    CHECK(!deliver(copy, record, KELBRAUT_OBSERVER, sender, 0, list));
    CHECK(kelbraut_dead_list(copy) == kelbraut_dead_list(record));
    CHECK(kelbraut_observer(copy) == sender && kelbraut_emitter(copy) == kelbraut_emitter(record));
    CHECK(kelbraut_next_due(copy) <= tick);
}

/* A call at a tick before the last one or above the greatest is refused, and leaves the record and the part. */
static void test_refused(const uint8_t *record, uint64_t tick) {
    uint8_t copy[KELBRAUT_RECORD], sent[KELBRAUT_MESSAGES], full[KELBRAUT_MESSAGES];
    memcpy(copy, record, sizeof copy);
    memset(sent, 7, sizeof sent);
    memset(full, 7, sizeof full);
    CHECK(kelbraut_node_timers(copy, sizeof copy, tick, sent, sizeof sent) == KELBRAUT_BAD_TICK);
    CHECK(memcmp(copy, record, sizeof copy) == 0 && memcmp(sent, full, sizeof sent) == 0);
}

static void test_record(const uint8_t *record) {
    uint64_t last = kelbraut_last_tick(record);
    test_next_due(record);
    for (uint64_t sender = 0; sender < nodes && last < KELBRAUT_MOST_TICK; sender++) {
        if (sender != own_number) {
            test_sender(record, sender);
            test_listed(record, sender);
        }
    }
    if (last > 0) {
        test_refused(record, last - 1);
    }
    test_refused(record, KELBRAUT_MOST_TICK + 1);
}

/* A tick at which to call next: this one, soon, about when a timer is due, or late. */
static uint64_t next_tick(const uint8_t *record) {
    uint64_t last = kelbraut_last_tick(record), due = kelbraut_next_due(record);
    switch (below(8)) {
    case 0:
        return last;
    case 1:
        return earlier(last + below(2 * time_out) + 1, KELBRAUT_MOST_TICK);
    case 2:
        return below(20) == 0 ? KELBRAUT_MOST_TICK - below(3 * time_out) % (KELBRAUT_MOST_TICK - last + 1) : last;
    case 3:
        return earlier(last + below(period) + 1, KELBRAUT_MOST_TICK);
    default:
        return earlier(due > last && due != KELBRAUT_NEVER ? due - below(2) : last + 1, KELBRAUT_MOST_TICK);
    }
}

static uint64_t other_node(void) {
    return (own_number + 1 + below(nodes - 1)) % nodes;
}

static void random_call(uint8_t *record) {
    uint8_t before[KELBRAUT_RECORD], sent[KELBRAUT_MESSAGES];
    uint64_t tick = next_tick(record);
    memcpy(before, record, sizeof before);
    if (nodes == 1 || below(2) == 0) {
        CHECK(kelbraut_node_timers(record, KELBRAUT_RECORD, tick, sent, sizeof sent) == KELBRAUT_ACCEPTED);
    } else {
        uint64_t kind = (uint64_t)"HORR"[below(4)], sender = other_node(), subject = other_node();
        if (below(2) == 0 && kelbraut_emitter(record) != own_number) {
            sender = kelbraut_emitter(record);
        }
        CHECK(kelbraut_node_deliver(record, KELBRAUT_RECORD, tick, kind, sender, subject, short_list(), sent, sizeof sent) ==
              KELBRAUT_ACCEPTED);
    }
    CHECK(kelbraut_last_tick(record) == tick);
    test_passed(before, record);
}

static void test_sequence(void) {
    static const uint64_t counts[] = {1, 2, 3, 5, 8, 33, 64};
    static const uint64_t periods[] = {1, 2, 7, 40, 1000}, time_outs[] = {1, 3, 20, 300, 65535};
    uint8_t record[KELBRAUT_RECORD];
    nodes = counts[below(7)];
    own_number = below(nodes);
    period = periods[below(5)];
    time_out = time_outs[below(5)];
    CHECK(kelbraut_node_open(record, sizeof record, own_number, nodes, period, time_out) == KELBRAUT_ACCEPTED);
    CHECK(kelbraut_emitter(record) == (own_number + nodes - 1) % nodes);
    CHECK(kelbraut_observer(record) == (own_number + 1) % nodes);
    CHECK(kelbraut_dead_list(record) == 0 && kelbraut_mark(record) == 0 && kelbraut_last_tick(record) == 0);
    CHECK(kelbraut_next_due(record) == (nodes == 1 ? KELBRAUT_NEVER : earlier(period, time_out)));
    for (int i = 0; i < 60; i++) {
        test_record(record);
        random_call(record);
    }
}

static void test_calls(void) {
    for (int i = 0; i < 400; i++) {
        test_sequence();
    }
    CHECK(heartbeats > 1000 && moves > 1000 && left_alone > 100 && passed_one > 1000 && passed_more > 100);
    CHECK(learnt > 1000 && relayed > 1000);
    printf("readers: calls: %" PRIu64 " heartbeats, %" PRIu64 " new emitters, %" PRIu64 " nodes alone; one passed %" PRIu64
           " times, more %" PRIu64 "; %" PRIu64 " heartbeats add to a list, %" PRIu64 " reports of listed nodes are passed on\n",
           heartbeats, moves, left_alone, passed_one, passed_more, learnt, relayed);
}

/* ---- whole rings */

/*
 * A ring: its records, how many messages each node sends before it stops, the messages in flight in the order of sending, how
 * many were sent, the longest delay and what the delays are drawn from.
 */
struct ring {
    uint8_t records[MOST_NODES][KELBRAUT_RECORD];
    uint64_t left[MOST_NODES];
    struct flight {
        uint64_t due;
        uint8_t message[KELBRAUT_MESSAGE];
    } flights[MOST_IN_FLIGHT];
    size_t in_flight;
    uint64_t sent, most_delay, seed, timer_calls;
};

static struct ring waking, sleeping;

static uint64_t stopped, listed_alive, all_sent, all_waking, all_sleeping;

/* Puts the messages of a call in flight, in whose midst the node may stop, and says how many the call sent. */
static int send_all(struct ring *r, size_t node, const uint8_t *sent, uint64_t tick) {
    int count = 0;
    for (const uint8_t *m = sent; m < sent + KELBRAUT_MESSAGES && kelbraut_kind(m) != 0; m += KELBRAUT_MESSAGE) {
        CHECK(kelbraut_sender(m) == node && r->in_flight < MOST_IN_FLIGHT);
        if (r->left[node] > 0) {
            struct flight *f = &r->flights[r->in_flight++];
            f->due = tick + 1 + mixed(r->seed + r->sent++) % r->most_delay;
            memcpy(f->message, m, KELBRAUT_MESSAGE);
            r->left[node]--;
        }
        count++;
    }
    return count;
}

/* Delivers what is due, to live nodes, and keeps the rest; what is sent meanwhile comes after it. */
static void deliver_due(struct ring *r, uint64_t tick) {
    uint8_t sent[KELBRAUT_MESSAGES];
    size_t kept = 0;
    for (size_t i = 0; i < r->in_flight; i++) {
        const uint8_t *m = r->flights[i].message;
        uint8_t to = kelbraut_receiver(m);
        if (r->flights[i].due > tick) {
            r->flights[kept++] = r->flights[i];
        } else if (r->left[to] > 0) {
            CHECK(kelbraut_node_deliver(r->records[to], KELBRAUT_RECORD, tick, kelbraut_kind(m), kelbraut_sender(m),
                                        kelbraut_subject(m), kelbraut_list(m), sent, sizeof sent) == KELBRAUT_ACCEPTED);
            send_all(r, to, sent, tick);
        }
    }
    r->in_flight = kept;
}

static int fire(struct ring *r, size_t node, uint64_t tick) {
    uint8_t sent[KELBRAUT_MESSAGES];
    CHECK(kelbraut_node_timers(r->records[node], KELBRAUT_RECORD, tick, sent, sizeof sent) == KELBRAUT_ACCEPTED);
    r->timer_calls++;
    return send_all(r, node, sent, tick);
}

/* A tick of the ring whose host calls the timers of every node, until they send nothing. */
static void wake_all(struct ring *r, uint64_t tick) {
    deliver_due(r, tick);
    for (size_t node = 0; node < nodes; node++) {
        while (r->left[node] > 0 && fire(r, node, tick) > 0) {
        }
    }
}

/* The tick at which the other ring has something to do next. */
static uint64_t next_wake(const struct ring *r) {
    uint64_t next = KELBRAUT_NEVER;
    for (size_t i = 0; i < r->in_flight; i++) {
        next = earlier(next, r->flights[i].due);
    }
    for (size_t node = 0; node < nodes; node++) {
        next = r->left[node] > 0 ? earlier(next, kelbraut_next_due(r->records[node])) : next;
    }
    return next;
}

/* A tick of the ring whose host calls timers only where one is due: at most two of a node. */
static void wake_due(struct ring *r, uint64_t tick) {
    deliver_due(r, tick);
    for (size_t node = 0; node < nodes; node++) {
        for (int calls = 0; r->left[node] > 0 && kelbraut_next_due(r->records[node]) <= tick; calls++) {
            CHECK(calls < 2);
            fire(r, node, tick);
        }
    }
}

static void open_ring(struct ring *r, uint64_t seed, uint64_t most_delay) {
    memset(r, 0, sizeof *r);
    r->seed = seed;
    r->most_delay = most_delay;
    for (size_t node = 0; node < nodes; node++) {
        CHECK(kelbraut_node_open(r->records[node], KELBRAUT_RECORD, node, nodes, period, time_out) == KELBRAUT_ACCEPTED);
        uint64_t x = mixed(~seed + 77 * node);
        r->left[node] = x % 3 == 0 ? x / 3 % 60 : UINT64_MAX;
    }
}

/* How many times a live node is on a list, of live nodes and of stopped ones. */
static uint64_t live_listed(const struct ring *r) {
    uint64_t live = 0, count = 0;
    for (size_t node = 0; node < nodes; node++) {
        live |= (uint64_t)(r->left[node] > 0) << node;
    }
    for (size_t node = 0; node < nodes; node++) {
        count += (kelbraut_dead_list(r->records[node]) & live) != 0;
    }
    return count;
}

/* The same messages in flight, the same nodes stopped, the same records; the last tick is that of a host's own last call. */
static void compare(uint64_t tick) {
    CHECK(waking.sent == sleeping.sent && waking.in_flight == sleeping.in_flight);
    CHECK(memcmp(waking.flights, sleeping.flights, waking.in_flight * sizeof waking.flights[0]) == 0);
    CHECK(memcmp(waking.left, sleeping.left, sizeof waking.left) == 0);
    for (size_t node = 0; node < nodes; node++) {
        CHECK(same_but_last_tick(waking.records[node], sleeping.records[node]));
        CHECK(waking.left[node] == 0 || kelbraut_last_tick(waking.records[node]) == tick);
        CHECK(kelbraut_last_tick(sleeping.records[node]) <= kelbraut_last_tick(waking.records[node]));
    }
}

static void test_ring(void) {
    static const uint64_t counts[] = {1, 2, 3, 5, 8, 21, 48, 64};
    nodes = counts[below(8)];
    period = 1 + below(20);
    uint64_t most_delay = 1 + below(12), seed = below(UINT64_MAX);
    int safe = below(4) != 0;
    time_out = safe ? period + most_delay + below(2) * below(20) : 1 + below(period + most_delay - 1);
    open_ring(&waking, seed, most_delay);
    open_ring(&sleeping, seed, most_delay);
    uint64_t wake = next_wake(&sleeping);
    for (uint64_t tick = 0; tick <= END_TICK; tick++) {
        wake_all(&waking, tick);
        if (tick == wake) {
            wake_due(&sleeping, tick);
            wake = next_wake(&sleeping);
            CHECK(wake > tick);
        }
        compare(tick);
        uint64_t wrong = live_listed(&sleeping);
        CHECK(!safe || wrong == 0);
        listed_alive += wrong;
    }
    for (size_t node = 0; node < nodes; node++) {
        stopped += sleeping.left[node] == 0;
    }
    all_sent += sleeping.sent;
    all_waking += waking.timer_calls;
    all_sleeping += sleeping.timer_calls;
}

static void test_rings(void) {
    for (int i = 0; i < 120; i++) {
        test_ring();
    }
    CHECK(stopped > 300 && listed_alive > 300 && all_sent > 50000 && all_sleeping < all_waking / 3);
    printf("readers: rings: %" PRIu64 " messages, %" PRIu64 " nodes stopped; %" PRIu64 " timer calls in place of %" PRIu64 "\n",
           all_sent, stopped, all_sleeping, all_waking);
}

int main(int count, char **words) {
    static const struct {
        const char *name;
        void (*test)(void);
    } parts[] = {{"letters", test_letters}, {"bytes", test_bytes}, {"calls", test_calls}, {"rings", test_rings}};
    if (count < 2) {
        fprintf(stderr, "usage: readers SEED [PART]\n");
        return 2;
    }
    printf("readers: seed %s\n", words[1]);
    for (size_t i = 0; i < sizeof parts / sizeof parts[0]; i++) {
        if (count < 3 || strcmp(words[2], parts[i].name) == 0) {
            part_name = parts[i].name;
            state = strtoull(words[1], NULL, 10);
            parts[i].test();
        }
    }
    return 0;
}
