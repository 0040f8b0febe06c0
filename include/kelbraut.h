/*
 * The ring failure detector, for programs in C. There are two parts; a program may use either or both:
 *
 *     a node         one node of the ring, in the field              link with libhost.a
 *     a rehearsal    a whole ring with planned crashes and delays    link with libplanner.a
 *
 * Up to 64 nodes stand in a ring. Each sends heartbeats to the node after it, its observer, and watches the node before
 * it, its emitter. A node that hears nothing from its emitter for the time-out puts it on its dead list, watches the next
 * node back, and tells the others by reports; one to which its emitter is reported does so at once. A heartbeat carries its
 * sender's list, from which the observer adds to its own. A node that is rehearsed in a ring in number order does what a
 * node in the field does. Time is counted in ticks.
 *
 * The calls have no state of their own, allocate nothing and always return: all that they know stands in the bytes that
 * the program lends to each call. What a call may write must not overlap with anything else that is lent to it, and no
 * pointer may be null.
 *
 * An accepted call answers KELBRAUT_ACCEPTED. A refused one answers another number and writes nothing that is lent to it:
 * no byte of a record, of a store or of a part, and no number behind a pointer. Only a run that is refused by 8 keeps the
 * events before it, and says how many they are. A dispatcher's call is not refused where an event of one of its stores is:
 * it says which stores that has stopped.
 */
#ifndef KELBRAUT_H
#define KELBRAUT_H

#include <stddef.h>
#include <stdint.h>

#ifdef __cplusplus
extern "C" {
#endif

/* Answers of both parts. A call gives the first that applies, in the order that stands at the call. */
#define KELBRAUT_ACCEPTED 0
#define KELBRAUT_BAD_LENGTH 1     /* run file: no bytes, or more than 65,536 */
#define KELBRAUT_BAD_FORM 2       /* line: letter, number of fields, digits, line feed or order of the letters */
#define KELBRAUT_BAD_NUMBER 3     /* line, or opening of a node: a number outside its range, a node not below N */
#define KELBRAUT_SHORT_TIME_OUT 4 /* no longer given, by no call and for no file: a P line with W below H + D is accepted */
#define KELBRAUT_BAD_ORDER 5      /* C or L line: not rising, or a node twice */
#define KELBRAUT_MANY_DELAYS 6    /* L line: the 2,049th */
#define KELBRAUT_BAD_STORE 7      /* not 65,536 bytes, a field out of range, or an unused byte not zero; part of stores: no
                                     whole number of them, or one of them is out of range */
#define KELBRAUT_OVERFULL 8       /* event: more than 2,048 messages would be in flight after it */
#define KELBRAUT_SHORT_PART 9     /* message part under 112 bytes, log part under 80, file part under 65,536; also where
                                     less would do */
#define KELBRAUT_BAD_RECORD 10    /* not 64 bytes, or a field out of range */
#define KELBRAUT_BAD_MESSAGE 11   /* unknown kind, the sender or a report's subject is no other node of the ring, or the list
                                     has a bit from N on, whatever the kind */
#define KELBRAUT_BAD_TICK 12      /* before the record's last tick, or above 1,000,000 */
#define KELBRAUT_BAD_RING 13      /* Q line: not each node once */
#define KELBRAUT_BAD_PART 14      /* part of stores: empty, or longer than eight of them */
#define KELBRAUT_BAD_TURN 15      /* length of a turn: outside 1 to 1,000 */

/* Kinds of message. */
#define KELBRAUT_HEARTBEAT 'H' /* the sender lives, and the nodes of its list are dead; goes to its observer */
#define KELBRAUT_OBSERVER 'O'  /* the sender is the receiver's new observer */
#define KELBRAUT_REPORT 'R'    /* the subject is dead; where it is the receiver's emitter, the receiver leaves it */

/*
 * ---- A node ----
 *
 * A node is a record of 64 bytes. The program keeps the record, brings messages to their receivers and knows the tick. To
 * run a node:
 *
 *     uint8_t node[KELBRAUT_RECORD], sent[KELBRAUT_MESSAGES], m[KELBRAUT_MESSAGE];
 *     uint64_t answer = kelbraut_node_open(node, sizeof node, number, nodes, h, w);
 *     if (answer != KELBRAUT_ACCEPTED) {
 *         stop(answer);
 *     }
 *     for (;;) {
 *         uint64_t tick = sleep_until(kelbraut_next_due(node));
 *         while (receive(m)) {
 *             answer = kelbraut_node_deliver(node, sizeof node, tick, kelbraut_kind(m), kelbraut_sender(m),
 *                                            kelbraut_subject(m), kelbraut_list(m), sent, sizeof sent);
 *             if (answer == KELBRAUT_ACCEPTED) {
 *                 send_all(sent);
 *             } else if (answer != KELBRAUT_BAD_MESSAGE) {
 *                 stop(answer);
 *             }
 *         }
 *         while (kelbraut_next_due(node) <= tick) {
 *             answer = kelbraut_node_timers(node, sizeof node, tick, sent, sizeof sent);
 *             if (answer != KELBRAUT_ACCEPTED) {
 *                 stop(answer);
 *             }
 *             send_all(sent);
 *         }
 *     }
 *
 * The program's own: `sleep_until` returns the tick, at the one that it is given or earlier where a message has arrived,
 * but never the same tick twice; `receive` takes the next message that has arrived for this node off the wire; `send_all`
 * brings each message of the part to its receiver; `stop` does not return. host.c beside this file runs five nodes so.
 *
 * Look at every answer, and send nothing after a refused call: it leaves `sent` as it was, with the messages of the call
 * before, which would be sent a second time. A message that is refused by 11 was sent by no node of this ring, and is
 * dropped. Any other refusal is a mistake in the program, or the ticks are at their end (KELBRAUT_MOST_TICK).
 *
 * Threads: calls on different records may run at the same time, each with a message part of its own. Those on one record
 * come one after another.
 *
 * Wire: the 16 bytes of a message can be sent as they are. The list, in the last eight, has its lowest byte first, whatever
 * the machine's own byte order; kelbraut_list reads it so. Each other field is one byte, and the bytes between are zero.
 *
 * Library: `sh tools/build.sh host` proves it and builds target/staticlib/libhost.a, for x86-64 Linux, in some minutes.
 */

/* Sizes in bytes: a record, a message, and the message part of a call, which has places for seven messages. */
#define KELBRAUT_RECORD 64
#define KELBRAUT_MESSAGE 16
#define KELBRAUT_MESSAGES 112

/*
 * The greatest tick; a call with a later one is refused by 12. So a ring runs for nearly 17 minutes with ticks of a
 * millisecond, for 2 hours 46 minutes with ticks of 10, for 27 hours with ticks of 100, for 11 days with ticks of a second.
 *
 * To go on, open all records of the ring anew, together, at one tick, which is then tick 0. Throw away the messages that
 * are still on their way: the new records would take them for messages of their own ring. Dead lists are forgotten. So give
 * the live nodes new numbers and leave the dead ones out, or expect these to be listed again from tick W on.
 */
#define KELBRAUT_MOST_TICK 1000000

/*
 * Opens a record at tick 0: node `number` of a ring of `nodes`, 0 to nodes - 1. A heartbeat is sent every `h` ticks, and
 * an emitter is given up that has been silent for `w`. Records stand in the ring in number order; another order is had by
 * giving the nodes their numbers in that order.
 * Ranges: nodes 1 to 64, number below nodes, h 1 to 1,000, w 1 to 65,535. All bytes of the record are written.
 * Answers 0, 10 or 3.
 *
 * With W at least H + D no live node is ever listed, whatever nodes stop. This is proved of rings that run as a rehearsal
 * does (docs/THEOREMS.md), which no call can test:
 *
 *   - D is the longest delay. Each message is delivered 1 to D ticks after it is sent, counted from the tick of the call
 *     that sends it to the tick of the call that delivers it. Messages may overtake each other.
 *   - No message between live nodes is lost, and none is delivered twice. At most 2,048 are on their way at a time; of
 *     heartbeats there are about N x D / H.
 *   - The records of all nodes are opened at one tick, with the same N, H and W.
 *   - The clocks agree on the tick. Where two of them differ, so do the delays between their nodes.
 *   - At each tick deliveries come before timers. A message that arrives after the timers of its tick is delivered at the
 *     next.
 *   - The timers are called at every tick, or at each tick at which one is due. Where a call can be late by some ticks, W
 *     needs as many more; that is not proved.
 *   - A node stops between two ticks. Nodes that stop in the midst of one, with some of their messages sent, are tested
 *     (tests/readers.c), not proved.
 *   - No node comes back. A listed node stays listed, and one that has stopped may not be opened again under its number
 *     while the ring runs.
 *
 * A record opens with any `w` of the range, also with one below H + D; live nodes then get listed. A node that is listed
 * though it lives is not told so, and goes on. README.md says how to choose W, how soon all survivors list a node, and how
 * to rehearse what a short W does.
 */
uint64_t kelbraut_node_open(uint8_t *record, size_t record_size, uint64_t number, uint64_t nodes, uint64_t h, uint64_t w);

/*
 * Delivers a message that node `sender` sent to this record's node. Only a report's subject counts, and only a heartbeat's
 * list: on another kind the subject may be any number, and the list any that has no bit from N on.
 *
 *   - A heartbeat of the node's emitter renews the watch, and the nodes of `list` are added to the node's own, but for the
 *     node itself and the sender. One of another node does nothing. Neither sends anything.
 *   - A new observer's message makes the sender the observer, with a heartbeat due at once.
 *   - The first report of a subject lists it and is passed on, also where a heartbeat has brought it onto the list before;
 *     later ones do nothing. A report of the node's emitter does what its expired watch would do: the node watches the next
 *     one back, for twice `w` at first, and sends it a new observer's message and then reports; or it is alone, both timers
 *     off, and sends nothing.
 *
 * So look at kelbraut_next_due again after a delivery. Writes the record and the first 112 bytes of the message part.
 * Answers 0, 10, 12, 11 or 9.
 */
uint64_t kelbraut_node_deliver(uint8_t *record, size_t record_size, uint64_t tick, uint64_t kind, uint64_t sender,
                               uint64_t subject, uint64_t list, uint8_t *messages, size_t messages_size);

/*
 * Does the watch if it is due by this tick, else the heartbeat if that is due, else nothing: at most one of them, so call
 * it until none is due (kelbraut_next_due) or it sends nothing. Writes the record and the first 112 bytes of the message
 * part.
 * Answers 0, 10, 12 or 9.
 */
uint64_t kelbraut_node_timers(uint8_t *record, size_t record_size, uint64_t tick, uint8_t *messages, size_t messages_size);

/* The number in `size` bytes of a record or a message from `place` on, the lowest first; docs/LAYOUTS.md has the places. */
static inline uint64_t kelbraut_field(const uint8_t *bytes, int place, int size) {
    uint64_t number = 0;
    for (int i = size - 1; i >= 0; i--) {
        number = number << 8 | bytes[place + i];
    }
    return number;
}

/* Whom the node watches: itself where it is alone. */
static inline uint8_t kelbraut_emitter(const uint8_t record[KELBRAUT_RECORD]) {
    return record[6];
}

/* To whom it sends its heartbeats: itself where it is alone. */
static inline uint8_t kelbraut_observer(const uint8_t record[KELBRAUT_RECORD]) {
    return record[7];
}

/* Its dead list: bit i stands for node i. */
static inline uint64_t kelbraut_dead_list(const uint8_t record[KELBRAUT_RECORD]) {
    return kelbraut_field(record, 8, 8);
}

/*
 * Its mark: the nodes on its list that were reported to it, or that it gave up itself. Of these it passes no report on any
 * more; the others on its list it has from heartbeats alone.
 */
static inline uint64_t kelbraut_mark(const uint8_t record[KELBRAUT_RECORD]) {
    return kelbraut_field(record, 32, 8);
}

/*
 * How many listed nodes an accepted call passed to find a new emitter, the one that it left included, up to the new one, or
 * to the node itself where it is alone; 0 where the emitter stays. `before` is a copy of the record from before the call,
 * `after` the record after it. All nodes on that way are listed, so that its length in the ring is the number. A program that
 * writes a log as a rehearsal does puts it into the line K of the call.
 */
static inline uint8_t kelbraut_passed(const uint8_t before[KELBRAUT_RECORD], const uint8_t after[KELBRAUT_RECORD]) {
    int left = kelbraut_emitter(before), taken = kelbraut_emitter(after), nodes = after[1];
    return (uint8_t)(left < taken ? left + nodes - taken : left - taken);
}

/* The tick of the last accepted call, 0 at opening. A call with an earlier one is refused by 12. */
static inline uint64_t kelbraut_last_tick(const uint8_t record[KELBRAUT_RECORD]) {
    return kelbraut_field(record, 16, 4);
}

/* What kelbraut_next_due gives where both timers are off; later than every tick. */
#define KELBRAUT_NEVER UINT64_MAX

/*
 * The tick at which the next timer is due, the earlier of watch and heartbeat. Before it kelbraut_node_timers sends nothing
 * and changes nothing but the last tick; at it, and later, it does a timer. So a program that calls it only while a timer is
 * due sends the same messages at the same ticks as one that calls it at every tick. Its records are the same, too, but for
 * the last tick, which is that of its own last call, so that a tick that goes back is found out later.
 *
 * Read it anew after each call: a new observer's message, for one, makes a heartbeat due at the tick of that call. It is
 * before the last tick where a timer is overdue, and can be above KELBRAUT_MOST_TICK.
 */
static inline uint64_t kelbraut_next_due(const uint8_t record[KELBRAUT_RECORD]) {
    /* A timer is 0 where it is off, else one more than its tick. */
    uint64_t watch = kelbraut_field(record, 20, 4) - 1;
    uint64_t heartbeat = kelbraut_field(record, 24, 4) - 1;
    return watch < heartbeat ? watch : heartbeat;
}

/*
 * The messages that an accepted call sends stand one after another from the start of the message part, 16 bytes each, in
 * the order of sending. A place whose kind is 0 is unused, and so are those after it. The receiver's record, opened with
 * the same number of nodes, never refuses such a message by 11.
 */
static inline uint8_t kelbraut_kind(const uint8_t message[KELBRAUT_MESSAGE]) {
    return message[0];
}

static inline uint8_t kelbraut_receiver(const uint8_t message[KELBRAUT_MESSAGE]) {
    return message[1];
}

static inline uint8_t kelbraut_sender(const uint8_t message[KELBRAUT_MESSAGE]) {
    return message[2];
}

/* 0 on a heartbeat and on a new observer's message. */
static inline uint8_t kelbraut_subject(const uint8_t message[KELBRAUT_MESSAGE]) {
    return message[3];
}

/* On a heartbeat its sender's dead list, as it was when it was sent; 0 on the other kinds. */
static inline uint64_t kelbraut_list(const uint8_t message[KELBRAUT_MESSAGE]) {
    return kelbraut_field(message, 8, 8);
}

/*
 * ---- A rehearsal ----
 *
 * A run file says how many nodes there are, which of them crash and how long messages take. A store, 65,536 bytes, is
 * opened from it and holds the rehearsal; steps, runs and turns do its next events. To write the log of a run file:
 *
 *     uint8_t store[KELBRAUT_STORE], log[KELBRAUT_LOG_PART];
 *     uint64_t letter = 0, tick, node, other, size;
 *     uint64_t answer = kelbraut_open(file, file_size, store, sizeof store);
 *     while (answer == KELBRAUT_ACCEPTED && !kelbraut_is_end(letter)) {
 *         answer = kelbraut_step(store, sizeof store, log, sizeof log, &letter, &tick, &node, &other, &size);
 *         if (answer == KELBRAUT_ACCEPTED) {
 *             fwrite(log, 1, size, stdout);
 *         }
 *     }
 *
 * planner.c beside this file tries the crashes of a run file with several time-outs, dispatch.c rehearses several files
 * side by side. A copy of a store's bytes is the rehearsal at that moment, from which one can go on as often as one likes.
 * A store that was opened, and that only these calls have written since, is never refused by 7.
 *
 * An accepted call writes every number behind its pointers. A refused one leaves them as they were, so look at the answer
 * first; on 8 a run writes `events` alone.
 *
 * Threads: calls on different stores may run at the same time, each with parts of its own. Those on one store come one
 * after another; a dispatcher's call is one on each store of its part.
 *
 * Library: `sh tools/build.sh planner` proves it and builds target/staticlib/libplanner.a, for x86-64 Linux, in some
 * minutes, in less than one where what is below it is proved already.
 *
 * Run file: lines of fields parted by commas, each line ended by one line feed (hexadecimal 0A); first the P line, then a Q
 * line or none, then C lines, then L lines. Numbers are decimal, with no sign, space or leading zero.
 *
 *     P,N,H,W,D,end     N nodes, 1 to 64, numbered from 0; a heartbeat every H ticks, 1 to 1,000; the time-out W, 1 to
 *                       65,535; delays of at most D ticks, 1 to 255; the end tick, 0 to 1,000,000
 *     Q,node,node,..    the ring in this order: N numbers, each node once; without this line it is in number order
 *     C,tick,node       the node crashes at this tick, 0 to end; rising by tick, then node, no node twice
 *     L,number,delay    the message of this number, 0 to 999,999, takes this many ticks, 1 to D; rising by number, at
 *                       most 2,048 lines. Messages are numbered from 0 in the order of sending; without a line one
 *                       takes D ticks
 *
 * W may be below H + D, to see how bad that is: live nodes get listed, and with many nodes the reports of them soon are more
 * than 2,048 in flight, so that the next event is refused by 8. The last line of such a run has KELBRAUT_END_SHORT in the
 * place of KELBRAUT_END. Which of the two it is goes by the P line alone.
 *
 * Events: those of the earliest tick that has any, and of these first the crashes, by node; then the messages due, by
 * number; then the timers of live nodes, by node, the watch before the heartbeat. The ring's order says who is before and
 * after a node, going back and ahead; events, lists and lines go by node number.
 *
 * Log line: letter, tick, node, other, list, parted by commas, and a line feed. The list is the node's dead list after
 * the event, 16 lower-case hexadecimal digits; bit i stands for node i. An event has one line, or two where the node leaves
 * its emitter: the event's own, and then KELBRAUT_MOVED with the same tick, node and list.
 */

/* Sizes in bytes: a store, the longest run file, and the least part for an event's lines and for writing a run file. */
#define KELBRAUT_STORE 65536
#define KELBRAUT_LONGEST_FILE 65536
#define KELBRAUT_LOG_PART 80
#define KELBRAUT_FILE_PART 65536

/* Of a dispatcher's call: the most stores in its part, and the most events of a turn. */
#define KELBRAUT_MOST_STORES 8
#define KELBRAUT_LONGEST_TURN 1000

/*
 * Letters of events. A message that is delivered has its kind for letter: KELBRAUT_HEARTBEAT and KELBRAUT_OBSERVER with
 * the sender as other, KELBRAUT_REPORT with the subject, which the node lists from then on; where that is the node's
 * emitter, the node leaves it in the same event, as at KELBRAUT_EXPIRED. KELBRAUT_MOVED is the letter of the second line of
 * such an event and of each expired watch; it stands in the log alone, and is the letter of no event.
 */
#define KELBRAUT_CRASH 'C'   /* the node crashes; other: the node itself */
#define KELBRAUT_DROPPED 'X' /* a message to the node, which has crashed, is dropped; other: the sender */
#define KELBRAUT_EXPIRED 'W' /* the node's watch expires; other: the emitter that it lists */
#define KELBRAUT_MOVED 'K'   /* the node moves to another emitter, or is alone; other: how many listed nodes it passed on
                                its way back from the one that it left, that one included */
#define KELBRAUT_SENT 'S'    /* the node sends a heartbeat; other: its observer */
#define KELBRAUT_END 'E'     /* none is left up to the end tick; tick: that tick, node: how many survive, other: how many
                                messages are in flight, list: the crashed nodes */
#define KELBRAUT_END_SHORT 'F' /* the same of a run whose W is below H + D */

/* Whether a step's letter says that none is left: a loop that waits for one of the two alone may never end. */
static inline int kelbraut_is_end(uint64_t letter) {
    return letter == KELBRAUT_END || letter == KELBRAUT_END_SHORT;
}

/*
 * Opens a store from a run file and writes all of its bytes, whatever they held. Answers 0, or, with nothing written, the
 * number of the refusal and its line in one:
 *
 *     KELBRAUT_NUMBER(answer)    1; then for the first bad line 2, 3, and 13 on Q, 5 on C and L, 6 on L; then 7, which here
 *                                is about the store's length alone
 *     KELBRAUT_LINE(answer)      the first bad line, counted from 1; 0 where the number is 1 or 7
 */
uint64_t kelbraut_open(const uint8_t *file, size_t file_size, uint8_t *store, size_t store_size);

#define KELBRAUT_NUMBER(answer) ((answer) % 256)
#define KELBRAUT_LINE(answer) ((answer) / 256)

/*
 * Does the next event and writes its line, or its two lines, at the start of the log part; the rest of that part stays.
 * `letter`, `tick`, `node` and `other` become those of the event's own line, the first one; `size` becomes the length of all
 * that is written. Where no event is left, the line is that of KELBRAUT_END, or of KELBRAUT_END_SHORT, and the store stays. A
 * refused step writes no line and leaves the five numbers, the log part and the store, so that after 8 the next step is
 * refused again.
 * Answers 0, 7, 9 or 8.
 */
uint64_t kelbraut_step(uint8_t *store, size_t store_size, uint8_t *log, size_t log_size, uint64_t *letter, uint64_t *tick,
                       uint64_t *node, uint64_t *other, uint64_t *size);

/*
 * Does the next events, as many as `budget` says or as are left up to the end tick, and writes no lines. `events` becomes how
 * many it did, one with two lines counted once. `spent` becomes 1 where that is the budget and another event remains, and 0
 * where none is left. On 7 both stay. On 8 `events` becomes how many it did before the refused event, `spent` stays, and the
 * store is as just before that event. A call tests the whole store first, so that one run is far quicker than as many steps.
 * While it runs it keeps the messages in flight in a queue on the stack: a thread that calls it needs 256 KiB of stack.
 * Answers 0, 7 or 8.
 */
uint64_t kelbraut_run(uint8_t *store, size_t store_size, uint64_t budget, uint64_t *events, uint64_t *spent);

/*
 * Writes the store's run file at the start of a part, byte for byte as it was opened; the rest of that part stays. `size`
 * becomes the file's length. A refused call leaves `size` and the part.
 * Answers 0, 7 or 9.
 */
uint64_t kelbraut_write(const uint8_t *store, size_t store_size, uint8_t *part, size_t part_size, uint64_t *size);

/*
 * The dispatcher: rehearses several stores side by side, so that a long rehearsal does not keep the others waiting. The part
 * `stores` has one to eight opened stores and nothing else; store i begins at byte i x 65,536. The call gives turns of
 * `length` events, 1 to 1,000: as many turns as `turns` says, any number, or fewer where no store can go on.
 *
 * Who gets a turn: store 0, then the next by index, and after the last one store 0 again, round and round. A store that is
 * done, with no event left up to its end tick, is passed over and uses no turn. In its turn a store does `length` events, or
 * as many as are left. Where an event is refused by 8, the store keeps the events before it, has used its turn, maybe without
 * any event, and is stopped: it is passed over for the rest of the call. So in a call a store that has an event left and is
 * not stopped waits for at most seven turns of others, however long their rehearsals are.
 *
 * What is written: `given` becomes the number of turns given. All eight of `events` are written: events[i] becomes how many
 * events store i did in this call, 0 where there is no store i. Bit i of `stopped` becomes 1 where store i is stopped, every
 * other bit 0. Each store then holds what one kelbraut_run of it alone would leave with its turns x `length` as budget, and
 * events[i] is what that run would count. How many turns it had follows, since all but its last have `length` events:
 * events[i] / length, rounded up; where it is stopped, rounded down and one more, as the refused event was of its last turn.
 *
 * Which stores are done: where `given` is below `turns`, no store can go on, and each that is not stopped is done. Otherwise
 * a store is done that is not stopped and whose events are no multiple of `length`; where they are one, it may be done or
 * not, and kelbraut_run with budget 0 tells: `spent` becomes 0 where it is done.
 *
 * From call to call nothing is remembered but the stores. Each call starts at store 0. So where `turns` is no multiple of the
 * number of stores that go on, the first of them get a turn more; with fewer turns than stores, the last get none until the
 * first are done. A stopped store gets a turn again in the next call and is stopped again: take it out of the part.
 *
 * Each store is tested for 7 once a call, before the first turn, also where `turns` is 0. A refused call leaves everything:
 * all stores, also those before the one that is out of range, and the numbers behind the three pointers. A thread that calls
 * it needs as much stack as for kelbraut_run.
 * Answers 0, 14, 15 or 7; 14 and 15 before a byte of the part is read.
 */
uint64_t kelbraut_dispatch(uint8_t *stores, size_t stores_size, uint64_t length, uint64_t turns, uint64_t *given,
                           uint64_t events[KELBRAUT_MOST_STORES], uint64_t *stopped);

#ifdef __cplusplus
}
#endif

#endif
