/* Three tasks of a ring barrier, turn by turn until they close a round: what each turn does, where the tasks are then, the bound that is
 * promised, and a call that is refused. examples/c/run builds and runs it. */
#include "tungwaff.h"

#include <stdio.h>

#define N 3
#define TURNS 15

/* No table is given here: a ring has neither parents nor starts, and without a work table all work lengths are 1. An empty table is lent
 * as any array, with length 0. */
static const uint8_t none[1] = {0};

/* Says why a call was refused. */
static int refused(const char *call, uint8_t reason)
{
    printf("%s is refused, reason %u: %s\n", call, (unsigned)reason, tungwaff_reason(reason));
    return 1;
}

static void print_rows(const uint32_t *rows, size_t turns)
{
    printf("turn  task  line  outcome  count  least count\n");
    for (size_t turn = 0; turn < turns; turn++) {
        const uint32_t *row = rows + TUNGWAFF_ROW_LENGTH * turn;
        printf("%4zu  %4u  %4u  %-7s  %5u  %11u%s\n", turn, (unsigned)row[TUNGWAFF_ROW_TASK], (unsigned)row[TUNGWAFF_ROW_LINE],
               row[TUNGWAFF_ROW_MOVED] ? "moved" : "waited", (unsigned)row[TUNGWAFF_ROW_COUNT],
               (unsigned)row[TUNGWAFF_ROW_LEAST], row[TUNGWAFF_ROW_CLOSED] ? "  closes a round" : "");
    }
}

/* The state list has every field; its tallies are those since the fresh state. */
static void print_tasks(const uint64_t *state)
{
    printf("task  line  count  moves  waits\n");
    for (size_t task = 0; task < N; task++) {
        printf("%4zu  %4u  %5u  %5u  %5u\n", task, (unsigned)state[tungwaff_field(task, TUNGWAFF_FIELD_LINE)],
               (unsigned)state[tungwaff_field(task, TUNGWAFF_FIELD_COUNT)],
               (unsigned)state[tungwaff_field(task, TUNGWAFF_FIELD_MOVES)],
               (unsigned)state[tungwaff_field(task, TUNGWAFF_FIELD_WAITS)]);
    }
}

int main(void)
{
    uint64_t state[TUNGWAFF_STATE];
    uint8_t schedule[TURNS], log[2 * TURNS];
    uint32_t rows[TUNGWAFF_ROW_LENGTH * TURNS], rounds;
    size_t turns, place, passes, ready;
    uint8_t reason, moved, closed;

    reason = tungwaff_fresh(TUNGWAFF_RING, N, 0, none, 0, none, 0, none, 0, state, TUNGWAFF_STATE);
    if (reason != TUNGWAFF_DONE) {
        return refused("fresh", reason);
    }
    for (size_t turn = 0; turn < TURNS; turn++) {
        schedule[turn] = (uint8_t)(turn % N);
    }
    reason = tungwaff_rows(state, TUNGWAFF_STATE, schedule, TURNS, TURNS, log, sizeof log, rows, TUNGWAFF_ROW_LENGTH * TURNS, &turns, &place,
                           &rounds);
    if (reason != TUNGWAFF_DONE) {
        return refused("rows", reason);
    }
    print_rows(rows, turns);
    printf("\n%zu turns, rounds closed: %u\n\n", turns, (unsigned)rounds);
    print_tasks(state);

    reason = tungwaff_limit(TUNGWAFF_RING, N, none, 0, &passes);
    if (reason != TUNGWAFF_DONE) {
        return refused("limit", reason);
    }
    printf("\nAt most %zu passes, in which each task has its turn, close a round.\n", passes);

    reason = tungwaff_ready(state, TUNGWAFF_STATE, &ready);
    if (reason != TUNGWAFF_DONE) {
        return refused("ready", reason);
    }
    printf("The least task that can move now is %zu.\n\n", ready);

    /* Tasks are 0 to 2: this turn is refused, and the state stays as it is. */
    reason = tungwaff_turn(state, TUNGWAFF_STATE, N, &moved, &closed);
    refused("a turn of task 3", reason);
    return reason == TUNGWAFF_NO_TASK ? 0 : 1;
}
