/* The exported functions of the proved library (target/staticlib/libtungwaff.a), for programs in C99 and C++ on 64-bit x86 Linux.
 *
 * What every call has in common
 *
 * A slice is an address and, right after it, its length in elements.
 *
 * The caller owes, and no call can check:
 *  - Each address is of memory that the caller owns, aligned for its type, with at least as many elements as the length says; where no
 *    length follows, of one element, or of a whole page. It is never NULL, not even where the length is 0: lend any array then. The
 *    library is proved of slices, which always have an address, so nothing is promised of NULL.
 *  - No two addresses of a call reach into the same memory: no buffer is lent twice, and no answer's number is part of a buffer.
 *    Only slices that are const may share memory with each other.
 *  - Nobody else writes to what is lent, nor reads what is lent for writing, until the call returns.
 *  - The stack has room for the call (below).
 * Everything else is checked: any number, any length and any content is taken or refused, and nothing beyond a length is touched.
 *
 * A call keeps nothing after it returns. There is no heap and no state of the library's own, so calls from several threads are
 * independent as long as they share no buffer that one of them writes to. No call blocks, prints or ends the program. Of other code the
 * library calls memcpy, memmove and memset alone, which the program links.
 *
 * A call answers a reason, TUNGWAFF_DONE where nothing was refused or stopped (`first_pass` and `sheet` answer a length and are never
 * refused). The reasons are checked in the order given with each call; the first that applies is answered, and only then. A refused
 * call writes to no buffer and no list. The answer's numbers, those behind addresses without a length, are written by every call: where
 * it is refused they are 0, but the place of TUNGWAFF_NO_TASK. Elements of a buffer beyond those that a call writes don't change.
 *
 * How a run (`run`, `resume`, `rows`) has ended
 *
 *  - TUNGWAFF_DONE, and turns is schedule_len: all turns are made.
 *  - TUNGWAFF_DONE, and turns is less than schedule_len: the allowance is spent. A `resume` or `rows` of the same state list may go on
 *    with schedule + turns; `run` has kept no state to go on from.
 *  - TUNGWAFF_COUNT_LIMIT, TUNGWAFF_TALLY_LIMIT, or TUNGWAFF_RANGE of a turn: the run is stopped before that turn, which is
 *    schedule[turns]. It isn't refused: the turns before are made, and all that the run writes is written for these. `run` never
 *    ends so.
 *  - Any other reason, or TUNGWAFF_RANGE of the state list: the run is refused. No turn is made, and state, log and tasks or rows are as
 *    they were.
 * So TUNGWAFF_RANGE has two meanings. With turns above 0 it is that of a turn. With turns 0 the answer doesn't tell which it is, the first
 * turn's or the list's, and either way the state list is as it was; `ready` of that list then tells, since it answers TUNGWAFF_RANGE for
 * the list's and TUNGWAFF_DONE for the turn's. The same holds of `turn`. From a list that `fresh` wrote and that only these calls have
 * changed, neither comes.
 *
 * Stack
 *
 * What a call needs, in KiB, rounded up: measured with N 64, every table and the longest input, the most over all kinds. It isn't proved,
 * and a library that another compiler built may need more.
 *
 *     sheet 277    play       38    run    35    limit       1
 *     read  167    play_state 38    resume 33    passes      1
 *     turn   20    fresh       9    rows   20    first_pass  1
 *     ready  14                                  shape       1
 *
 * memcpy, memmove and memset are in it, but not what a dynamic linker needs where it looks them up only when they are first called.
 */
#ifndef TUNGWAFF_H
#define TUNGWAFF_H

/* The library has numbers and addresses of 64 bits, and x86-64 has an ABI with shorter ones too, ILP32. This stands before all else, so that it
 * is the first that a compiler for another machine says. */
#if !defined(__x86_64__) || defined(__ILP32__) || !defined(__linux__)
#error "tungwaff: the library is compiled for 64-bit x86 Linux, and is not for the machine that this is compiled for"
#endif

#include <stddef.h>
#include <stdint.h>

#ifdef __cplusplus
extern "C" {
#endif

/* ---- Numbers and their names ---- */

/* The reasons. A run is stopped at a turn by TUNGWAFF_RANGE, TUNGWAFF_COUNT_LIMIT and TUNGWAFF_TALLY_LIMIT alone. */
enum {
    TUNGWAFF_DONE = 0,           /* nothing was refused */
    TUNGWAFF_TEXT = 1,           /* a text over 65,536 bytes, with a byte other than digit, space or line feed, with a number of more
                                    than five digits, or with fewer than three numbers */
    TUNGWAFF_KIND = 2,           /* the kind isn't 0 to 4, or the shape isn't 0 to 3 */
    TUNGWAFF_N = 3,              /* the number of tasks isn't 1 to 64 */
    TUNGWAFF_MODULUS = 4,        /* the modulus isn't 3 to 255 for the symmetric kind, or isn't 0 for another */
    TUNGWAFF_PARENTS_LENGTH = 5, /* a tree's parent table doesn't have N entries, or another kind has one */
    TUNGWAFF_PARENTS = 6,        /* the root's entry isn't 0, or a task's parent isn't a lower number than its own */
    TUNGWAFF_RANGE = 7,          /* a field of the state is out of range; at a turn: all tasks have arrived already at line 13 of
                                    kind 1 or 4, which no fresh state leads to */
    TUNGWAFF_TOO_LONG = 8,       /* a schedule of more than 65,536 turns, or a trace of more than 65,536 bytes */
    TUNGWAFF_NO_TASK = 9,        /* a task number is N or more */
    TUNGWAFF_SHORT = 10,         /* a lent buffer or list is too short */
    TUNGWAFF_COUNT_LIMIT = 11,   /* the turn would raise a count of 1,000,000 */
    TUNGWAFF_STARTS = 12,        /* a start table has neither 0 nor N entries, has an entry of N or more, or is of another kind than
                                    the symmetric */
    TUNGWAFF_TALLY_LIMIT = 13,   /* the turn would raise a tally of 4,000,000,000 */
    TUNGWAFF_TRACE_LENGTH = 14,  /* a trace's length is no multiple of three */
    TUNGWAFF_WORKS = 15          /* a work table has neither 0 nor N entries, or has an entry of 0 */
};

/* The kinds of barrier. */
enum {
    TUNGWAFF_SYMMETRIC = 0,
    TUNGWAFF_INCREMENT = 1, /* fetch-and-increment */
    TUNGWAFF_RING = 2,
    TUNGWAFF_TREE = 3,
    TUNGWAFF_CENTRALIZED = 4
};

/* The shapes of a tree: the parent of task q. */
enum {
    TUNGWAFF_FLAT = 0,     /* 0 */
    TUNGWAFF_LINEAR = 1,   /* q - 1 */
    TUNGWAFF_BINARY = 2,   /* (q - 1) / 2 */
    TUNGWAFF_LOW_POWER = 3 /* q less the highest power of two that divides it */
};

/* Sizes and places. They are of one type, so that C++20, which frowns on sums and products of two enumerations, takes every one of them:
 * uint32_t tasks[TUNGWAFF_TASK_LENGTH * TUNGWAFF_MAX_TASKS]. */
enum {
    TUNGWAFF_MAX_TASKS = 64,
    TUNGWAFF_MAX_TURNS = 65536, /* the most turns of a schedule, bytes of a trace and bytes of a text */
    TUNGWAFF_NOBODY = 64,       /* what `ready` tells where no task can move */
    TUNGWAFF_STATE = 1029,      /* the numbers of a state list */
    TUNGWAFF_PAGE = 2048,       /* the bytes of a page, which a sheet is printed to */

    /* A row of `rows`, one for each turn made. */
    TUNGWAFF_ROW_TASK = 0,   /* the task of the turn */
    TUNGWAFF_ROW_LINE = 1,   /* its line before the turn */
    TUNGWAFF_ROW_MOVED = 2,  /* 1 moved, 0 waited */
    TUNGWAFF_ROW_COUNT = 3,  /* its count after the turn */
    TUNGWAFF_ROW_LEAST = 4,  /* the least count of all tasks after the turn */
    TUNGWAFF_ROW_CLOSED = 5, /* 1 if the turn closed a round: the least count rose; else 0 */
    TUNGWAFF_ROW_LENGTH = 6, /* how many numbers a row has */

    /* What `run` and `resume` tell of each task. */
    TUNGWAFF_TASK_LINE = 0,   /* its line at the end */
    TUNGWAFF_TASK_COUNT = 1,  /* its count at the end */
    TUNGWAFF_TASK_MOVES = 2,  /* its turns in this run that moved */
    TUNGWAFF_TASK_WAITS = 3,  /* its turns in this run that waited */
    TUNGWAFF_TASK_LENGTH = 4, /* how many numbers a task has */

    /* A state list: these numbers, then TUNGWAFF_FIELDS for each of 64 tasks. The caller keeps it from call to call, and may copy, store
     * or change it: a call that reads it checks it. What the kind doesn't use, and every number of a task from N on, is 0. */
    TUNGWAFF_STATE_KIND = 0,
    TUNGWAFF_STATE_N = 1,
    TUNGWAFF_STATE_MODULUS = 2,
    TUNGWAFF_STATE_ARRIVALS = 3, /* kinds 1 and 4 */
    TUNGWAFF_STATE_SENSE = 4,    /* kinds 1 and 4: the shared one */
    TUNGWAFF_STATE_PARENTS = 5,  /* tree: 64 parents */
    TUNGWAFF_STATE_TASKS = 69,   /* the first number of task 0 */

    /* The numbers of a task in a state list. */
    TUNGWAFF_FIELD_LINE = 0,
    TUNGWAFF_FIELD_COUNT = 1,  /* its moves at line 12 (symmetric), 15 (tree) or 13 (the others), one a round; at most 1,000,000 */
    TUNGWAFF_FIELD_TAG = 2,    /* symmetric */
    TUNGWAFF_FIELD_OLD = 3,    /* symmetric */
    TUNGWAFF_FIELD_LIST = 4,   /* symmetric, tree: bit k for task k */
    TUNGWAFF_FIELD_LOOKED = 5, /* symmetric, tree: the looked-at task */
    TUNGWAFF_FIELD_AIM = 6,    /* fetch-and-increment */
    TUNGWAFF_FIELD_TOGGLE = 7, /* ring */
    TUNGWAFF_FIELD_FLAG = 8,   /* tree */
    TUNGWAFF_FIELD_START = 9,  /* symmetric: the task at which it looks first */
    TUNGWAFF_FIELD_MOVES = 10, /* tally: its moves since the fresh state, at most 4,000,000,000 */
    TUNGWAFF_FIELD_WAITS = 11, /* tally: its waits since the fresh state, at most 4,000,000,000 */
    TUNGWAFF_FIELD_WORK = 12,  /* the moves that its own work, line 11, takes each time */
    TUNGWAFF_FIELD_LEFT = 13,  /* how many of them are left, 1 to the work length */
    TUNGWAFF_FIELD_OWN = 14,   /* centralized: its own sense */
    TUNGWAFF_FIELDS = 15       /* how many numbers a task has */
};

/* Where a task's number stands in a state list. */
static inline size_t tungwaff_field(size_t task, size_t field)
{
    return TUNGWAFF_STATE_TASKS + TUNGWAFF_FIELDS * task + field;
}

/* A reason in a few words; the table above has all of it. */
static inline const char *tungwaff_reason(uint8_t reason)
{
    switch (reason) {
    case TUNGWAFF_DONE: return "done";
    case TUNGWAFF_TEXT: return "the text is too long or isn't made of numbers that can be read";
    case TUNGWAFF_KIND: return "there is no such kind or shape";
    case TUNGWAFF_N: return "the number of tasks isn't 1 to 64";
    case TUNGWAFF_MODULUS: return "the modulus doesn't fit the kind";
    case TUNGWAFF_PARENTS_LENGTH: return "the parent table's length doesn't fit the kind";
    case TUNGWAFF_PARENTS: return "a parent isn't a lower number, or the root's entry isn't 0";
    case TUNGWAFF_RANGE: return "a field of the state is out of range";
    case TUNGWAFF_TOO_LONG: return "the schedule or trace is too long";
    case TUNGWAFF_NO_TASK: return "a task number is N or more";
    case TUNGWAFF_SHORT: return "a lent buffer is too short";
    case TUNGWAFF_COUNT_LIMIT: return "the turn would raise a count past 1,000,000";
    case TUNGWAFF_STARTS: return "the start table doesn't fit the kind, or an entry is no task";
    case TUNGWAFF_TALLY_LIMIT: return "the turn would raise a tally past 4,000,000,000";
    case TUNGWAFF_TRACE_LENGTH: return "the trace's length is no multiple of three";
    case TUNGWAFF_WORKS: return "the work table's length doesn't fit, or an entry is 0";
    default: return "no reason of the library";
    }
}

/* ---- A session: a state that the caller keeps ---- */

/* Makes a fresh state and writes it to the state list: every task at line 11 with count 0.
 *
 * kind, n, modulus  the barrier; the modulus is 3 to 255 for the symmetric kind, else 0
 * parents           a tree's table, N bytes: each task's parent, a lower number, and 0 for the root, task 0; else of length 0
 * starts            symmetric kind: N bytes below N, the task at which each looks first; or of length 0: every start is 0
 * works             any kind: N bytes of 1 to 255, the moves of each task's own work; or of length 0: all are 1
 * state             TUNGWAFF_STATE numbers or more; what is beyond isn't touched
 *
 * Writes state. Reasons: KIND, N, MODULUS, PARENTS_LENGTH, PARENTS, STARTS, WORKS, SHORT. */
uint8_t tungwaff_fresh(size_t kind, size_t n, size_t modulus,
                       const uint8_t *parents, size_t parents_len,
                       const uint8_t *starts, size_t starts_len,
                       const uint8_t *works, size_t works_len,
                       uint64_t *state, size_t state_len);

/* Makes one turn of a task from the state in the list, and writes the state after it there, also where the task waits.
 *
 * moved   1 the task's line was carried out, 0 it waited (or the call is refused)
 * closed  1 the turn closed a round: the least count rose; else 0
 *
 * Writes state. Reasons: SHORT (the list), RANGE (the list), NO_TASK, RANGE (the turn), COUNT_LIMIT, TALLY_LIMIT; each refuses the turn,
 * and the state list is as it was. */
uint8_t tungwaff_turn(uint64_t *state, size_t state_len, size_t task, uint8_t *moved, uint8_t *closed);

/* Asks for the least task whose turn would move, from the state in the list, which it only reads.
 *
 * task  that task, or TUNGWAFF_NOBODY
 *
 * From a state that a fresh one has led to it is never nobody while the least count is below 1,000,000 and no tally of moves is at its
 * limit. Writes to no buffer. Reasons: SHORT, RANGE (the list). */
uint8_t tungwaff_ready(const uint64_t *state, size_t state_len, size_t *task);

/* Runs a schedule from the state in the list, and writes the state after it there.
 *
 * schedule   a task for each turn; all of it is checked, also beyond the allowance
 * allowance  the most turns to make; it is spent where DONE is answered with fewer turns than the schedule has
 * log        two bytes a turn: the line before it, then 1 moved or 0 waited; room for twice the smaller of allowance and schedule_len
 * tasks      TUNGWAFF_TASK_LENGTH numbers a task below N: its line and count at the end, its moves and waits in this run
 * turns      the turns made
 * place      for NO_TASK the place of the first turn that is no task, else 0
 * rounds     the rounds that the run closed: how far the least count rose
 *
 * Writes state, log and tasks. Reasons that refuse it: SHORT (the list), RANGE (the list), TOO_LONG, NO_TASK, SHORT (log or tasks). Then
 * those of the turn that stops it: RANGE (the turn), COUNT_LIMIT, TALLY_LIMIT. "How a run has ended", above, tells them apart. */
uint8_t tungwaff_resume(uint64_t *state, size_t state_len,
                        const uint8_t *schedule, size_t schedule_len, size_t allowance,
                        uint8_t *log, size_t log_len,
                        uint32_t *tasks, size_t tasks_len,
                        size_t *turns, size_t *place, uint32_t *rounds);

/* Runs a schedule as `resume` does, and tells of each turn made rather than of each task.
 *
 * rows  TUNGWAFF_ROW_LENGTH numbers a turn, in the order of the turns; room for as many rows as the smaller of allowance and schedule_len
 *
 * The rest, what is written and the reasons are those of `resume`, with rows in place of tasks. */
uint8_t tungwaff_rows(uint64_t *state, size_t state_len,
                      const uint8_t *schedule, size_t schedule_len, size_t allowance,
                      uint8_t *log, size_t log_len,
                      uint32_t *rows, size_t rows_len,
                      size_t *turns, size_t *place, uint32_t *rounds);

/* ---- From a fresh state, with nothing kept ---- */

/* Makes a fresh state as `fresh` does and runs a schedule from it as `resume` does; the state after it isn't told.
 *
 * Writes log and tasks. Reasons: those of `fresh` but SHORT, then TOO_LONG, NO_TASK, SHORT (log or tasks). No turn of such a run is
 * refused: a schedule is too short to reach a limit. */
uint8_t tungwaff_run(size_t kind, size_t n, size_t modulus,
                     const uint8_t *parents, size_t parents_len,
                     const uint8_t *starts, size_t starts_len,
                     const uint8_t *works, size_t works_len,
                     const uint8_t *schedule, size_t schedule_len, size_t allowance,
                     uint8_t *log, size_t log_len,
                     uint32_t *tasks, size_t tasks_len,
                     size_t *turns, size_t *place, uint32_t *rounds);

/* Plays back from a fresh state what a watch wrote.
 *
 * trace   three bytes a turn: task, line before, 1 moved or 0 waited
 * agrees  1 if every triple is what the turn does, else 0
 * index   of the first triple that is not, from 0; 0 where none is told
 *
 * Writes to no buffer. Reasons: those of `fresh` but SHORT, then TOO_LONG, TRACE_LENGTH. */
uint8_t tungwaff_play(size_t kind, size_t n, size_t modulus,
                      const uint8_t *parents, size_t parents_len,
                      const uint8_t *starts, size_t starts_len,
                      const uint8_t *works, size_t works_len,
                      const uint8_t *trace, size_t trace_len,
                      uint8_t *agrees, size_t *index);

/* Plays a trace as `play` does, and writes the state that it comes to.
 *
 * state  TUNGWAFF_STATE numbers or more; what is beyond isn't touched. It gets the state after the trace where it agrees, and else the
 *        one before the first triple that is not what the turn does
 *
 * The rest is as `play` has it. Writes state. Reasons: those of `play`, then SHORT. */
uint8_t tungwaff_play_state(size_t kind, size_t n, size_t modulus,
                            const uint8_t *parents, size_t parents_len,
                            const uint8_t *starts, size_t starts_len,
                            const uint8_t *works, size_t works_len,
                            const uint8_t *trace, size_t trace_len,
                            uint64_t *state, size_t state_len,
                            uint8_t *agrees, size_t *index);

/* ---- Schedules, bounds and trees ---- */

/* Cuts a schedule into passes: a pass ends at the first turn by which every task has been named since it began.
 *
 * pairs  offset and length of each pass, two numbers, sorted by offset; room for two numbers a pass
 * count  the passes
 * place  for NO_TASK the place of the first turn that is no task, else 0
 *
 * Writes pairs. Reasons: N, TOO_LONG, NO_TASK, SHORT. */
uint8_t tungwaff_passes(size_t n, const uint8_t *schedule, size_t schedule_len,
                        uint32_t *pairs, size_t pairs_len, size_t *count, size_t *place);

/* Answers the length of the first whole pass that begins at the place, with schedule[place]. It is 0 if there is none, the place is past
 * the end, N isn't 1 to 64, or any byte from the place on is no task. Never refused; writes to no buffer. */
size_t tungwaff_first_pass(size_t n, const uint8_t *schedule, size_t schedule_len, size_t place);

/* Tells the bound: so many passes of turns that are made raise the least count, from every state that a fresh one has led to and whose
 * least count is below 1,000,000. Through the calls of a state list: where the turns of `turn`, `resume` and `rows` that count can be cut
 * into so many parts that each name every task, the least count in the list has risen (`session_raises` in crates/session). A turn
 * counts where its reason is DONE or COUNT_LIMIT; of a schedule the first `turns` count, and the next one too where the reason is
 * COUNT_LIMIT.
 *
 * works   the work table as `fresh` takes it; or of length 0: all are 1
 * passes  twice N(2N + 3) for the symmetric kind, 5N for fetch-and-increment, ring and centralized, 10N - 3 for the tree, each with the
 *         sum of all work lengths less N added before it is doubled
 *
 * Writes to no buffer. Reasons: KIND, N, WORKS. */
uint8_t tungwaff_limit(size_t kind, size_t n, const uint8_t *works, size_t works_len, size_t *passes);

/* Makes the parent table of a shape, as `fresh` takes it.
 *
 * table  N bytes or more; what is beyond isn't touched
 *
 * Writes table. Reasons: KIND (no such shape), N, SHORT. */
uint8_t tungwaff_shape(size_t shape, size_t n, uint8_t *table, size_t table_len);

/* ---- The sheet's text ---- */

/* Reads the text of a sheet: decimal numbers for kind, N and modulus, a tree's N parents, then the schedule.
 *
 * parents, schedule        what the text has of each, from the first byte on
 * kind, n, modulus         the first three numbers
 * parent_count, turn_count how many parents and turns there are
 * place                    for NO_TASK the place of the first turn that is no task, else 0
 *
 * A buffer of TUNGWAFF_MAX_TASKS bytes for the parents and one of TUNGWAFF_MAX_TURNS / 2 for the schedule are never too short.
 * Writes parents and schedule. Reasons: TEXT, KIND, N, MODULUS, PARENTS_LENGTH, PARENTS, NO_TASK, SHORT. */
uint8_t tungwaff_read(const uint8_t *text, size_t text_len,
                      uint8_t *parents, size_t parents_len,
                      uint8_t *schedule, size_t schedule_len,
                      size_t *kind, size_t *n, size_t *modulus,
                      size_t *parent_count, size_t *turn_count, size_t *place);

/* Runs the text of a sheet from a fresh state and prints the sheet to the page, or one line: "refused 3", and with its place "refused 9
 * place 40". Answers how many bytes are printed, fewer than TUNGWAFF_PAGE; the rest of the page becomes 0, so that it is a string.
 *
 * Writes page, all of it. Never refused; what refuses the text, TEXT to PARENTS and then NO_TASK as `read` has them, is printed. */
size_t tungwaff_sheet(const uint8_t *text, size_t text_len, uint8_t page[TUNGWAFF_PAGE]);

#ifdef __cplusplus
}
#endif

#endif
