/* Makes the calls that standard input asks for, through include/tungwaff.h, and prints each answer on a line of its own. Requests and answers
 * are those of docs/calls.md. A request that isn't well-formed ends the program with exit 2.
 *
 * What is lent is in the heap, each buffer in a block of just its length, so that a memory checker sees every access beyond it. */
#include "tungwaff.h"

#include <stdbool.h>
#include <stdio.h>
#include <stdlib.h>
#include <string.h>

/* The most that a request may ask for. */
enum {
    MOST_STATE = 1100,
    MOST_LOG = 131100,
    MOST_NUMBERS = 70000, /* tasks, pairs and turns that are lent; turns, trace bytes and text bytes of a request */
    MOST_ROWS = 420000,
    MOST_TABLE = 4096
};

/* ---- requests ---- */

/* The numbers of a line, and how many of them are taken. */
struct request {
    uint64_t *numbers;
    size_t length;
    size_t room;
    size_t taken;
};

/* The line that is read, from 1. */
static size_t line_number = 0;

static void malformed(const char *what)
{
    fflush(stdout);
    fprintf(stderr, "calls: line %zu: %s\n", line_number, what);
    exit(2);
}

/* Gives the block back as it is, and ends the program if there is none. */
static void *had(void *block)
{
    if (block == NULL) {
        malformed("no memory");
    }
    return block;
}

/* All of standard input, with a 0 after it. */
static char *input(size_t *length)
{
    size_t room = 1 << 20;
    char *text = had(malloc(room));
    *length = 0;
    for (;;) {
        *length += fread(text + *length, 1, room - *length - 1, stdin);
        if (*length < room - 1) {
            break;
        }
        room *= 2;
        text = had(realloc(text, room));
    }
    text[*length] = 0;
    return text;
}

/* Reads the decimal number at the text and gives the text after it. */
static const char *read_number(const char *text, uint64_t *number)
{
    const char *from = text;
    *number = 0;
    while (*text >= '0' && *text <= '9') {
        uint64_t digit = (uint64_t)(*text - '0');
        if (*number > (UINT64_MAX - digit) / 10) {
            malformed("a number is 2^64 or more");
        }
        *number = 10 * *number + digit;
        text++;
    }
    if (text == from) {
        malformed("a number is missing, or there is another byte");
    }
    return text;
}

/* Reads the line at the text and gives the text after its line feed. */
static const char *read_line(const char *text, struct request *request)
{
    request->length = 0;
    request->taken = 0;
    for (;;) {
        if (request->length == request->room) {
            request->room = 2 * request->room + 64;
            request->numbers = had(realloc(request->numbers, request->room * sizeof(uint64_t)));
        }
        text = read_number(text, &request->numbers[request->length++]);
        if (*text != ' ') {
            break;
        }
        text++;
    }
    if (*text != '\n') {
        malformed("a line doesn't end in a line feed");
    }
    return text + 1;
}

/* The next number, which is at most so much. */
static uint64_t take(struct request *request, uint64_t most)
{
    if (request->taken == request->length) {
        malformed("too few numbers");
    }
    uint64_t number = request->numbers[request->taken++];
    if (number > most) {
        malformed("a number is too large");
    }
    return number;
}

/* The next number, which may be any. */
static size_t take_any(struct request *request)
{
    return take(request, SIZE_MAX);
}

/* How many numbers are left. */
static size_t left(const struct request *request)
{
    size_t numbers = request->length - request->taken;
    if (numbers > MOST_NUMBERS) {
        malformed("too many turns or bytes");
    }
    return numbers;
}

/* ---- what is lent ---- */

/* A block for so many elements, each with all bits set: the greatest of its type. The C libraries of Linux give an address for no bytes too. */
static void *lend(size_t length, size_t size)
{
    void *block = had(malloc(length * size));
    memset(block, 255, length * size);
    return block;
}

/* The next numbers as bytes. */
static uint8_t *take_bytes(struct request *request, size_t length)
{
    uint8_t *bytes = lend(length, 1);
    for (size_t place = 0; place < length; place++) {
        bytes[place] = (uint8_t)take(request, 255);
    }
    return bytes;
}

/* What a fresh state is made from. */
struct setup {
    size_t kind, n, modulus;
    size_t parents_len, starts_len, works_len;
    uint8_t *parents, *starts, *works;
};

static struct setup take_head(struct request *request)
{
    struct setup setup;
    setup.kind = take_any(request);
    setup.n = take_any(request);
    setup.modulus = take_any(request);
    setup.parents_len = take(request, MOST_TABLE);
    setup.starts_len = take(request, MOST_TABLE);
    setup.works_len = take(request, MOST_TABLE);
    setup.parents = setup.starts = setup.works = NULL;
    return setup;
}

static void take_tables(struct request *request, struct setup *setup)
{
    setup->parents = take_bytes(request, setup->parents_len);
    setup->starts = take_bytes(request, setup->starts_len);
    setup->works = take_bytes(request, setup->works_len);
}

static void free_tables(struct setup *setup)
{
    free(setup->parents);
    free(setup->starts);
    free(setup->works);
}

/* The state list that the test keeps. */
static uint64_t *state = NULL;
static size_t state_len = 0;

/* Gives the list so many numbers; those that it had stay, new ones have all bits set. The block is a new one of just that length. */
static void resize_state(size_t length)
{
    uint64_t *list = lend(length, sizeof(uint64_t));
    size_t kept = length < state_len ? length : state_len;
    if (kept > 0) {
        memcpy(list, state, kept * sizeof(uint64_t));
    }
    free(state);
    state = list;
    state_len = length;
}

/* ---- answers ---- */

/* Whether a number of the line has been printed. */
static bool begun = false;

static void print(uint64_t number)
{
    char digits[24];
    size_t place = sizeof digits;
    do {
        digits[--place] = (char)('0' + number % 10);
        number /= 10;
    } while (number > 0);
    if (begun) {
        digits[--place] = ' ';
    }
    fwrite(digits + place, 1, sizeof digits - place, stdout);
    begun = true;
}

static void print_bytes(const uint8_t *bytes, size_t length)
{
    for (size_t place = 0; place < length; place++) {
        print(bytes[place]);
    }
}

static void print_numbers(const uint32_t *numbers, size_t length)
{
    for (size_t place = 0; place < length; place++) {
        print(numbers[place]);
    }
}

static void print_state(void)
{
    for (size_t place = 0; place < state_len; place++) {
        print(state[place]);
    }
}

/* ---- a state that is kept ---- */

static void call_fresh(struct request *request)
{
    struct setup setup = take_head(request);
    size_t length = take(request, MOST_STATE);
    take_tables(request, &setup);
    resize_state(0);
    resize_state(length);
    print(tungwaff_fresh(setup.kind, setup.n, setup.modulus, setup.parents, setup.parents_len, setup.starts, setup.starts_len,
                         setup.works, setup.works_len, state, state_len));
    print_state();
    free_tables(&setup);
}

static void call_turn(struct request *request)
{
    uint8_t moved = UINT8_MAX, closed = UINT8_MAX;
    size_t task = take_any(request);
    print(tungwaff_turn(state, state_len, task, &moved, &closed));
    print(moved);
    print(closed);
    print_state();
}

static void call_ready(struct request *request)
{
    size_t task = SIZE_MAX;
    (void)request;
    print(tungwaff_ready(state, state_len, &task));
    print(task);
}

/* ---- runs ---- */

/* The rest of a request for a run, and what is lent to it: a log, and a list of tasks or of rows. */
struct run {
    size_t allowance, log_len, list_len, schedule_len;
    uint8_t *log, *schedule;
    uint32_t *list;
    size_t turns, place;
    uint32_t rounds;
};

static struct run take_lengths(struct request *request, size_t most_list)
{
    struct run run;
    run.allowance = take_any(request);
    run.log_len = take(request, MOST_LOG);
    run.list_len = take(request, most_list);
    run.schedule_len = 0;
    run.schedule = NULL;
    run.log = lend(run.log_len, 1);
    run.list = lend(run.list_len, sizeof(uint32_t));
    run.turns = run.place = SIZE_MAX;
    run.rounds = UINT32_MAX;
    return run;
}

static void take_schedule(struct request *request, struct run *run)
{
    run->schedule_len = left(request);
    run->schedule = take_bytes(request, run->schedule_len);
}

/* Prints the answer, the log and the list, and gives back what was lent. */
static void print_run(uint8_t reason, struct run *run)
{
    print(reason);
    print(run->turns);
    print(run->place);
    print(run->rounds);
    print_bytes(run->log, run->log_len);
    print_numbers(run->list, run->list_len);
    free(run->schedule);
    free(run->log);
    free(run->list);
}

static void call_run(struct request *request)
{
    struct setup setup = take_head(request);
    struct run run = take_lengths(request, MOST_NUMBERS);
    take_tables(request, &setup);
    take_schedule(request, &run);
    uint8_t reason = tungwaff_run(setup.kind, setup.n, setup.modulus, setup.parents, setup.parents_len, setup.starts, setup.starts_len,
                                  setup.works, setup.works_len, run.schedule, run.schedule_len, run.allowance, run.log, run.log_len,
                                  run.list, run.list_len, &run.turns, &run.place, &run.rounds);
    print_run(reason, &run);
    free_tables(&setup);
}

static void call_resume(struct request *request)
{
    struct run run = take_lengths(request, MOST_NUMBERS);
    take_schedule(request, &run);
    uint8_t reason = tungwaff_resume(state, state_len, run.schedule, run.schedule_len, run.allowance, run.log, run.log_len, run.list,
                                     run.list_len, &run.turns, &run.place, &run.rounds);
    print_run(reason, &run);
    print_state();
}

static void call_rows(struct request *request)
{
    struct run run = take_lengths(request, MOST_ROWS);
    take_schedule(request, &run);
    uint8_t reason = tungwaff_rows(state, state_len, run.schedule, run.schedule_len, run.allowance, run.log, run.log_len, run.list,
                                   run.list_len, &run.turns, &run.place, &run.rounds);
    print_run(reason, &run);
    print_state();
}

/* ---- the other functions ---- */

static void call_passes(struct request *request)
{
    size_t count = SIZE_MAX, place = SIZE_MAX;
    size_t n = take_any(request);
    size_t pairs_len = take(request, MOST_NUMBERS);
    size_t length = left(request);
    uint8_t *schedule = take_bytes(request, length);
    uint32_t *pairs = lend(pairs_len, sizeof(uint32_t));
    print(tungwaff_passes(n, schedule, length, pairs, pairs_len, &count, &place));
    print(count);
    print(place);
    print_numbers(pairs, pairs_len);
    free(schedule);
    free(pairs);
}

static void call_first_pass(struct request *request)
{
    size_t n = take_any(request);
    size_t place = take_any(request);
    size_t length = left(request);
    uint8_t *schedule = take_bytes(request, length);
    print(tungwaff_first_pass(n, schedule, length, place));
    free(schedule);
}

static void call_shape(struct request *request)
{
    size_t shape = take_any(request);
    size_t n = take_any(request);
    size_t length = take(request, MOST_TABLE);
    uint8_t *table = lend(length, 1);
    print(tungwaff_shape(shape, n, table, length));
    print_bytes(table, length);
    free(table);
}

static void call_play(struct request *request)
{
    uint8_t agrees = UINT8_MAX;
    size_t index = SIZE_MAX;
    struct setup setup = take_head(request);
    take_tables(request, &setup);
    size_t length = left(request);
    uint8_t *trace = take_bytes(request, length);
    print(tungwaff_play(setup.kind, setup.n, setup.modulus, setup.parents, setup.parents_len, setup.starts, setup.starts_len,
                        setup.works, setup.works_len, trace, length, &agrees, &index));
    print(agrees);
    print(index);
    free(trace);
    free_tables(&setup);
}

static void call_play_state(struct request *request)
{
    uint8_t agrees = UINT8_MAX;
    size_t index = SIZE_MAX;
    struct setup setup = take_head(request);
    size_t state_length = take(request, MOST_STATE);
    take_tables(request, &setup);
    size_t length = left(request);
    uint8_t *trace = take_bytes(request, length);
    resize_state(0);
    resize_state(state_length);
    print(tungwaff_play_state(setup.kind, setup.n, setup.modulus, setup.parents, setup.parents_len, setup.starts, setup.starts_len,
                              setup.works, setup.works_len, trace, length, state, state_len, &agrees, &index));
    print(agrees);
    print(index);
    print_state();
    free(trace);
    free_tables(&setup);
}

static void call_limit(struct request *request)
{
    size_t passes = SIZE_MAX;
    size_t kind = take_any(request);
    size_t n = take_any(request);
    size_t length = take(request, MOST_TABLE);
    uint8_t *works = take_bytes(request, length);
    print(tungwaff_limit(kind, n, works, length, &passes));
    print(passes);
    free(works);
}

static void call_read(struct request *request)
{
    size_t kind = SIZE_MAX, n = SIZE_MAX, modulus = SIZE_MAX;
    size_t parent_count = SIZE_MAX, turn_count = SIZE_MAX, place = SIZE_MAX;
    size_t parents_len = take(request, MOST_TABLE);
    size_t schedule_len = take(request, MOST_NUMBERS);
    size_t length = left(request);
    uint8_t *text = take_bytes(request, length);
    uint8_t *parents = lend(parents_len, 1);
    uint8_t *schedule = lend(schedule_len, 1);
    print(tungwaff_read(text, length, parents, parents_len, schedule, schedule_len, &kind, &n, &modulus, &parent_count, &turn_count,
                        &place));
    print(place);
    print(kind);
    print(n);
    print(modulus);
    print(parent_count);
    print(turn_count);
    print_bytes(parents, parents_len);
    print_bytes(schedule, schedule_len);
    free(text);
    free(parents);
    free(schedule);
}

static void call_sheet(struct request *request)
{
    size_t length = left(request);
    uint8_t *text = take_bytes(request, length);
    uint8_t *page = lend(TUNGWAFF_PAGE, 1);
    print(tungwaff_sheet(text, length, page));
    print_bytes(page, TUNGWAFF_PAGE);
    free(text);
    free(page);
}

/* ---- no calls ---- */

static void change_state(struct request *request)
{
    size_t index = take_any(request);
    if (index >= state_len) {
        malformed("the state list has no such number");
    }
    state[index] = take(request, UINT64_MAX);
    fputs("ok", stdout);
}

static void lengthen_state(struct request *request)
{
    resize_state(take(request, MOST_STATE));
    fputs("ok", stdout);
}

/* What a request's first number asks for. */
static void (*const asked[])(struct request *) = {
    NULL,            call_fresh, call_run,  call_resume, call_turn,  call_ready, call_passes,  call_first_pass,
    call_shape,      call_play,  call_rows, call_limit,  call_read,  call_sheet, change_state, lengthen_state,
    call_play_state,
};

static void answer(struct request *request)
{
    uint64_t function = take(request, UINT64_MAX);
    if (function < 1 || function >= sizeof asked / sizeof *asked) {
        malformed("there is no such function");
    }
    begun = false;
    asked[function](request);
    if (request->taken < request->length) {
        malformed("too many numbers");
    }
    putchar('\n');
}

int main(void)
{
    struct request request = {NULL, 0, 0, 0};
    size_t length;
    char *text = input(&length);
    const char *at = text;
    resize_state(0);
    while (at < text + length) {
        line_number++;
        at = read_line(at, &request);
        answer(&request);
    }
    free(request.numbers);
    free(text);
    free(state);
    if (fflush(stdout) != 0 || ferror(stdin) || ferror(stdout)) {
        fputs("calls: can't read or write\n", stderr);
        return 2;
    }
    return 0;
}
