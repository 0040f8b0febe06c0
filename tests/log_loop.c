/*
 * The loop by which include/kelbraut.h writes the log of a run file, as it stands there: tests/planner.sh takes it out of
 * the header. The run file is on standard input. A refusal is told as the rehearsal program tells it.
 */
#include <inttypes.h>
#include <stdio.h>

#include "kelbraut.h"

static uint8_t file[KELBRAUT_LONGEST_FILE + 1];

int main(void) {
    size_t file_size = fread(file, 1, sizeof file, stdin);
#include "log_loop.inc"
    if (answer != KELBRAUT_ACCEPTED) {
        printf("%" PRIu64 ",%" PRIu64 "\n", KELBRAUT_NUMBER(answer), KELBRAUT_LINE(answer));
    }
    return 0;
}
