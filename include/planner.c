/*
 * Which time-out? This program rehearses the crashes of a run file, read from standard input, with several time-outs W.
 * A row of its table says how many ticks go by from the last crash until every survivor lists every crashed node.
 *
 * Heartbeats go out every H ticks, so that the answer moves with the tick of the crash, and the worst may come one tick
 * after the best. Each W is therefore rehearsed with all C lines shifted together by 0 to H - 1 ticks, a whole period. Its
 * row has the worst and the best of these, each with its shift, and last the bound that is proved for any order of arrivals:
 * with f nodes crashed in all and m left, 2 x W x f + D + (m - 1) x (H + D) ticks after the last crash.
 *
 *     planner [--each] [W ..] < RUN-FILE
 *
 * Without a W it takes H + D, then H more each time, and at last the file's own. With --each it prints a row for each
 * shift. In the place of ticks stands `not yet` where the end tick came first and `refused` where the shifted file or an
 * event is refused. Exit status: 0 where all was rehearsed, else 1.
 *
 * A short W is one below H + D. With it live nodes may get listed, and soon most of them are, so that the ticks until
 * all know would say nothing: in their place stands `false` where a live node is listed by the end tick. From good to
 * bad the outcomes are ticks, `not yet`, `false`, `refused`. A table that has a short W has three columns more:
 *
 *     first    the tick at which a live node is first listed, `never` where none is
 *     live     the most live nodes that stand on lists of live nodes at one time
 *     false    the false events: those by which a node lists a live node that it did not list just before
 *
 * Live are the nodes that have not crashed by then, a crash counted at once. The three go up to the end tick, or up to
 * a refused event; its row says how far that is. In a row with a worst and a best they are those of the worst: of two
 * that are `false`, or `refused`, the worse has more live nodes, then more false events, then the earlier first tick.
 * With W at least H + D they are proved to be `never`, 0 and 0, and are not looked for. Where the shifted file is
 * refused nothing is rehearsed, and a dash stands in each. A short W has no bound. Where the file's own W is short, it
 * comes first and then H + D, unless other ones are given.
 *
 * Where no node crashes there is something to tell of a short W alone: a row is then one rehearsal, and has the three.
 *
 * Build: sh tools/build.sh planner
 *        gcc -std=c11 -O2 -Iinclude include/planner.c target/staticlib/libplanner.a -o target/planner
 */
#include <inttypes.h>
#include <stdio.h>
#include <stdlib.h>
#include <string.h>

#include "kelbraut.h"

#define BUDGET 1024 /* events between two looks at the lists */
#define MOST_W 65535

/* What is read of a store: the first byte of each field, by docs/LAYOUTS.md. */
enum {
    N = 0, D = 1, H = 2, W = 4, ROWS = 6, ROWS_DONE = 7, END = 8, LAST_TICK = 12, LISTS = 768, ROW_TICKS = 1792,
    ROW_NODES = 2048
};

/* From good to bad. KNOWN: every survivor lists every crashed node. FALSE: a live node was listed. */
enum kind { KNOWN, NOT_YET, FALSE, REFUSED };

struct outcome {
    enum kind kind;
    uint64_t ticks;  /* from the last crash until it was KNOWN; on NOT_YET until the end tick */
    uint64_t shift;
    uint64_t answer; /* on REFUSED: of the refused call */
    uint64_t last;   /* of a short W, on REFUSED: the tick of the last event done */
    uint64_t events; /* how many events listed a live node */
    uint64_t first;  /* the tick of the first of them, where there is one */
    uint64_t live;   /* the most live nodes on lists of live nodes at one time */
};

static char file[KELBRAUT_LONGEST_FILE + 1];
static uint8_t plan[KELBRAUT_STORE]; /* as opened from the file */
static uint8_t store[KELBRAUT_STORE], before[KELBRAUT_STORE];
static uint64_t crashed; /* the nodes of the file's C lines */
static int with_short;   /* the table has a short W among its rows */

/* A number of a store, lowest byte first. */
static uint64_t number(const uint8_t *from, size_t place, size_t bytes) {
    uint64_t value = 0;
    while (bytes-- > 0) {
        value = value << 8 | from[place + bytes];
    }
    return value;
}

static int has(uint64_t set, unsigned node) {
    return set >> node & 1;
}

static uint64_t size_of(uint64_t set) {
    uint64_t size = 0;
    for (; set != 0; set &= set - 1) {
        size++;
    }
    return size;
}

/* The least W with which no live node is ever listed. */
static uint64_t least_safe(void) {
    return number(plan, H, 2) + plan[D];
}

static int is_short(uint64_t w) {
    return w < least_safe();
}

static uint64_t list_of(unsigned node) {
    return number(store, LISTS + 8 * node, 8);
}

/* The crashed nodes that a survivor does not list. */
static uint64_t lacking(unsigned node) {
    return has(crashed, node) ? 0 : crashed & ~list_of(node);
}

/* The nodes that have not crashed yet. */
static uint64_t living(void) {
    uint64_t set = UINT64_MAX >> (64 - plan[N]);
    for (unsigned row = 0; row < store[ROWS_DONE]; row++) {
        set &= ~(UINT64_C(1) << plan[ROW_NODES + row]);
    }
    return set;
}

/* How the lists stand. With a long W a list only grows, so once it is KNOWN it stays so. */
static enum kind standing(void) {
    uint64_t missing = 0;
    for (unsigned i = 0; i < plan[N]; i++) {
        missing |= lacking(i);
    }
    return store[ROWS_DONE] == plan[ROWS] && missing == 0 ? KNOWN : NOT_YET;
}

/* By how many ticks after the last crash it is proved to be KNOWN, where no event is refused. */
static uint64_t bound(uint64_t w) {
    uint64_t deaths = plan[ROWS], left = plan[N] - deaths;
    return 2 * w * deaths + plan[D] + (left - 1) * (number(plan, H, 2) + plan[D]);
}

static const char *after_line(const char *line) {
    return strchr(line, '\n') + 1;
}

/*
 * Opens the store from the file with this W and with later crashes: the P and C lines are written anew, the Q line, if there
 * is one, and the L lines are the file's. An accepted file has fewer than 30,000 bytes.
 */
static uint64_t open_shifted(uint64_t w, uint64_t shift) {
    static char text[KELBRAUT_LONGEST_FILE];
    const char *ring = after_line(file), *rest = *ring == 'Q' ? after_line(ring) : ring;
    int size = sprintf(text, "P,%u,%" PRIu64 ",%" PRIu64 ",%u,%" PRIu64 "\n%.*s", plan[N], number(plan, H, 2), w, plan[D],
                       number(plan, END, 4), (int)(rest - ring), ring);
    for (unsigned row = 0; row < plan[ROWS]; row++) {
        uint64_t tick = number(plan, ROW_TICKS + 4 * row, 4) + shift;
        size += sprintf(text + size, "C,%" PRIu64 ",%u\n", tick, plan[ROW_NODES + row]);
        rest = after_line(rest);
    }
    size += sprintf(text + size, "%s", rest);
    return kelbraut_open((const uint8_t *)text, (size_t)size, store, sizeof store);
}

/* From the last crash, or from tick 0 where no node crashes. */
static uint64_t since_last_crash(uint64_t tick) {
    return plan[ROWS] == 0 ? tick : tick - number(store, ROW_TICKS + 4 * (plan[ROWS] - 1u), 4);
}

/*
 * Rehearses a long W until it is KNOWN, or to the end tick. A run is far quicker than as many steps. Where it is so
 * after a run, that run is taken back and done by halves, down to the single event after which it is so.
 */
static struct outcome rehearse_long(uint64_t w, uint64_t shift) {
    uint64_t answer = open_shifted(w, shift), budget = BUDGET, events, spent;
    while (answer == KELBRAUT_ACCEPTED) {
        memcpy(before, store, sizeof store);
        answer = kelbraut_run(store, sizeof store, budget, &events, &spent);
        enum kind kind = standing();
        if (kind == KNOWN && budget > 1) { /* also where a later event of this run was refused */
            memcpy(store, before, sizeof store);
            budget /= 2;
            answer = KELBRAUT_ACCEPTED;
        } else if (kind == KNOWN || (answer == KELBRAUT_ACCEPTED && !spent)) {
            uint64_t tick = number(store, kind == KNOWN ? LAST_TICK : END, 4);
            return (struct outcome){.kind = kind, .ticks = since_last_crash(tick), .shift = shift};
        }
    }
    return (struct outcome){.kind = REFUSED, .shift = shift, .answer = answer};
}

/* Looks for live nodes on the lists after an event of this node. `lists` are all lists as they were before it. */
static void look(struct outcome *o, uint64_t lists[64], unsigned node) {
    uint64_t live = living(), now = list_of(node), listed = 0;
    if ((now & ~lists[node] & live) != 0) {
        o->first = o->events == 0 ? number(store, LAST_TICK, 4) : o->first;
        o->events++;
    }
    lists[node] = now;
    for (unsigned i = 0; i < plan[N]; i++) {
        listed |= has(live, i) ? lists[i] & live : 0;
    }
    o->live = size_of(listed) > o->live ? size_of(listed) : o->live;
}

/* Rehearses a short W to the end tick, or up to a refused event, by steps: the lists are looked at after each. */
static struct outcome rehearse_short(uint64_t w, uint64_t shift) {
    static uint8_t lines[KELBRAUT_LOG_PART];
    struct outcome o = {.kind = plan[ROWS] > 0 ? NOT_YET : KNOWN, .shift = shift, .answer = open_shifted(w, shift)};
    uint64_t lists[64] = {0}, letter = 0, tick, node, other, size;
    while (o.answer == KELBRAUT_ACCEPTED) {
        o.answer = kelbraut_step(store, sizeof store, lines, sizeof lines, &letter, &tick, &node, &other, &size);
        if (o.answer != KELBRAUT_ACCEPTED || kelbraut_is_end(letter)) {
            break;
        }
        look(&o, lists, (unsigned)node);
        if (standing() != KNOWN) {
            o.kind = NOT_YET;
        } else if (o.kind != KNOWN) { /* from here on, unless a list loses a node later */
            o.kind = KNOWN;
            o.ticks = since_last_crash(tick);
        }
    }
    if (o.answer != KELBRAUT_ACCEPTED) {
        o.kind = REFUSED;
        o.last = number(store, LAST_TICK, 4);
    } else if (o.events > 0) {
        o.kind = FALSE;
    } else if (o.kind == NOT_YET) {
        o.ticks = since_last_crash(number(store, END, 4));
    }
    return o;
}

static struct outcome rehearse(uint64_t w, uint64_t shift) {
    return is_short(w) ? rehearse_short(w, shift) : rehearse_long(w, shift);
}

/* Rehearses a file without crashes. With a long W no list gets a node, and all that may come is a refused event. */
static struct outcome rehearse_quiet(uint64_t w) {
    uint64_t answer, events, spent;
    if (is_short(w)) {
        return rehearse_short(w, 0);
    }
    answer = open_shifted(w, 0);
    if (answer == KELBRAUT_ACCEPTED) {
        answer = kelbraut_run(store, sizeof store, UINT64_MAX, &events, &spent);
    }
    return (struct outcome){.kind = answer == KELBRAUT_ACCEPTED ? KNOWN : REFUSED, .answer = answer};
}

static void print_refusal(FILE *to, uint64_t answer) {
    static const char *const meanings[] = {
        [KELBRAUT_BAD_LENGTH] = "the file is empty or longer than 65,536 bytes",
        [KELBRAUT_BAD_FORM] = "letter, number of fields, digits, line feed or order of the letters",
        [KELBRAUT_BAD_NUMBER] = "a number out of range, a node not below N, or a crash after the end tick",
        [KELBRAUT_BAD_ORDER] = "C or L lines do not rise, or a node crashes twice",
        [KELBRAUT_MANY_DELAYS] = "more than 2,048 L lines",
        [KELBRAUT_BAD_STORE] = "the store is out of range",
        [KELBRAUT_OVERFULL] = "more than 2,048 messages would be in flight",
        [KELBRAUT_BAD_RING] = "the Q line does not name each node once"};
    uint64_t by = KELBRAUT_NUMBER(answer);
    const char *meaning = by < sizeof meanings / sizeof meanings[0] ? meanings[by] : NULL;
    fprintf(to, "%" PRIu64 ",%" PRIu64 ": %s", by, KELBRAUT_LINE(answer), meaning != NULL ? meaning : "");
}

/* Prints nodes as `0,3-5`: of neighbours the first and the last. */
static void print_nodes(uint64_t set) {
    for (unsigned i = 0; i < 64; i++) {
        int follows = i > 0 && has(set, i - 1), goes_on = i < 63 && has(set, i + 1);
        if (has(set, i) && !(follows && goes_on)) {
            int first = (set & ((UINT64_C(1) << i) - 1)) == 0;
            printf("%s%u", follows ? "-" : first ? "" : ",", i);
        }
    }
}

/* Prints which survivors lack which nodes, those that lack the same together. */
static void print_lacking(void) {
    uint64_t printed = 0;
    for (unsigned i = 0; i < plan[N]; i++) {
        uint64_t same = 0;
        for (unsigned j = i; j < plan[N]; j++) {
            same |= (uint64_t)(lacking(j) == lacking(i)) << j;
        }
        if (lacking(i) != 0 && !has(printed, i)) {
            printf(printed == 0 ? "  " : "; ");
            print_nodes(same);
            printf(same == UINT64_C(1) << i ? " lacks " : " lack ");
            print_nodes(lacking(i));
            printed |= same;
        }
    }
}

static void print_outcome(struct outcome o) {
    static const char *const words[] = {[NOT_YET] = "not yet", [FALSE] = "false", [REFUSED] = "refused"};
    if (o.kind == KNOWN) {
        printf("%10" PRIu64 "%8" PRIu64, o.ticks, o.shift);
    } else {
        printf("%10s%8" PRIu64, words[o.kind], o.shift);
    }
}

/* Prints the columns first, live and false. */
static void print_listings(struct outcome o) {
    char first[24] = "never";
    if (o.kind == REFUSED && KELBRAUT_NUMBER(o.answer) != KELBRAUT_OVERFULL) {
        printf("%10s%8s%8s", "-", "-", "-");
        return;
    }
    if (o.events > 0) {
        sprintf(first, "%" PRIu64, o.first);
    }
    printf("%10s%8" PRIu64 "%8" PRIu64, first, o.live, o.events);
}

/* Ends a row: why the outcome is no number, from the store that its rehearsal left. */
static void print_why(uint64_t w, struct outcome o) {
    if (o.kind == REFUSED) {
        printf("  ");
        print_refusal(stdout, o.answer);
        if (is_short(w) && KELBRAUT_NUMBER(o.answer) == KELBRAUT_OVERFULL) {
            printf(", after tick %" PRIu64, o.last);
        }
    } else if (o.kind == NOT_YET) {
        print_lacking();
        printf(" at the end tick, after %" PRIu64 " ticks", o.ticks);
    }
    printf("\n");
    fflush(stdout);
}

static void print_row(uint64_t w, struct outcome first, const struct outcome *second) {
    printf("%6" PRIu64, w);
    print_outcome(first);
    if (second != NULL) {
        print_outcome(*second);
    }
    if (is_short(w) || w > MOST_W) {
        printf("%10s", "none");
    } else {
        printf("%10" PRIu64, bound(w));
    }
    if (with_short) {
        print_listings(first);
    }
    print_why(w, first);
}

static int worse(struct outcome a, struct outcome b) {
    if (a.kind != b.kind) {
        return a.kind > b.kind;
    }
    if (a.kind == KNOWN) {
        return a.ticks > b.ticks;
    }
    if (a.live != b.live) {
        return a.live > b.live;
    }
    return a.events != b.events ? a.events > b.events : a.first < b.first;
}

/* Prints a row for this W, or one for each shift, and answers whether something was refused. */
static int try_time_out(uint64_t w, int each) {
    struct outcome worst = {0}, best = {0};
    for (uint64_t shift = 0; shift < number(plan, H, 2); shift++) {
        struct outcome o = rehearse(w, shift);
        worst = shift == 0 || worse(o, worst) ? o : worst;
        best = shift == 0 || worse(best, o) ? o : best;
        if (each) {
            print_row(w, o, NULL);
        }
    }
    if (!each && worst.kind == NOT_YET) {
        rehearse(w, worst.shift); /* for its lists */
    }
    if (!each) {
        print_row(w, worst, &best);
    }
    return worst.kind == REFUSED;
}

/*
 * Whether the table has a row of this place, from 0, and its W: those of the arguments, or where there are none H + D
 * and so on up to the file's own, which comes first where it is short.
 */
static int has_row(char **arguments, uint64_t row, uint64_t *w) {
    uint64_t h = number(plan, H, 2), own = number(plan, W, 2), later = least_safe() + row * h;
    if (*arguments != NULL) {
        *w = arguments[row] != NULL ? strtoul(arguments[row], NULL, 10) : 0;
        return arguments[row] != NULL;
    }
    if (is_short(own)) {
        *w = row == 0 ? own : least_safe();
        return row < 2;
    }
    *w = later < own ? later : own;
    return later < own + h;
}

static int has_short_row(char **arguments) {
    uint64_t w;
    for (uint64_t row = 0; has_row(arguments, row, &w); row++) {
        if (is_short(w)) {
            return 1;
        }
    }
    return 0;
}

static const char listings[] =
    "first: tick at which a live node is first listed, live: the most at one time, false: events that list one";

/* Prints the table and answers whether something was refused. */
static int print_table(int each, char **arguments) {
    uint64_t w;
    int refused = 0;
    printf("Ticks from the last crash until every survivor lists ");
    print_nodes(crashed);
    printf(", with the crashes shifted by 0 to %" PRIu64 " ticks\n", number(plan, H, 2) - 1u);
    if (with_short) {
        printf("%s%s\n", listings, each ? "" : "; of the worst");
    }
    printf(each ? "     W     ticks   shift     bound" : "     W     worst   shift      best   shift     bound");
    printf(with_short ? "     first    live   false\n" : "\n");
    for (uint64_t row = 0; has_row(arguments, row, &w); row++) {
        refused |= try_time_out(w, each);
    }
    return refused;
}

/* The same for a file without crashes. */
static int print_quiet_table(char **arguments) {
    uint64_t w;
    int refused = 0;
    printf("No node crashes: each node that is listed lives\n%s\n     W     first    live   false\n", listings);
    for (uint64_t row = 0; has_row(arguments, row, &w); row++) {
        struct outcome o = rehearse_quiet(w);
        printf("%6" PRIu64, w);
        print_listings(o);
        print_why(w, o);
        refused |= o.kind == REFUSED;
    }
    return refused;
}

/* Opens the plan from the file on standard input, and answers whether it is accepted. */
static int read_plan(void) {
    size_t size = fread(file, 1, sizeof file, stdin);
    if (ferror(stdin)) {
        perror("planner");
        return 0;
    }
    uint64_t answer = kelbraut_open((const uint8_t *)file, size, plan, sizeof plan);
    if (answer != KELBRAUT_ACCEPTED) {
        print_refusal(stderr, answer);
        fprintf(stderr, "\n");
        return 0;
    }
    for (unsigned row = 0; row < plan[ROWS]; row++) {
        crashed |= UINT64_C(1) << plan[ROW_NODES + row];
    }
    return 1;
}

int main(int argc, char **argv) {
    int each = argc > 1 && strcmp(argv[1], "--each") == 0;
    char **arguments = argv + 1 + each;
    for (int i = 1 + each; i < argc; i++) {
        size_t digits = strspn(argv[i], "0123456789");
        if (digits == 0 || digits > 9 || argv[i][digits] != '\0') {
            fprintf(stderr, "usage: planner [--each] [W ..] < RUN-FILE\n");
            return 1;
        }
    }
    if (!read_plan()) {
        return 1;
    }
    with_short = has_short_row(arguments);
    if (plan[ROWS] == plan[N] || (plan[ROWS] == 0 && !with_short)) {
        fprintf(stderr, "nothing to rehearse: no node %s\n", plan[ROWS] == 0 ? "crashes" : "survives");
        return 1;
    }
    int refused = plan[ROWS] == 0 ? print_quiet_table(arguments) : print_table(each, arguments);
    return refused || ferror(stdout);
}
