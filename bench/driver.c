/* Compares and measures two engines with the same C interface, linked into this one program:
 * the verified library (wheeling_*) and the plain baseline (plain_*).
 *
 *   driver compare [long]                    both engines in lockstep, every byte compared
 *   driver count ENGINE CALL G C [hours]     the measured calls once, for callgrind; prints their
 *                                            number
 *   driver time CALL G C [hours]             nanoseconds per call of both engines
 *   driver stack CALL G C [hours]            bytes of stack per call of both engines
 *   driver replay G C                        processor seconds for twelve years of both engines
 *
 * With the word hours the units bank by hours from their first month on, without it never. The
 * call day has no G and C. In their place stands the meter whose day is to be used: main where no
 * reading is missing, check where one is missing in each main day.
 *
 * All inputs and buffers are prepared before anything is measured, and no record is copied
 * inside a measured loop. */

#include <stdio.h>
#include <stdlib.h>
#include <string.h>
#include <time.h>
#include <ucontext.h>

#include "engines.h"

enum {
    MOST_OUTPUT_BYTES = BLOCK_OUTPUT_BYTES(MOST_GENERATORS, MOST_CONSUMERS),
    MARGIN = 16, /* bytes behind each buffer, for lengths that are too long */

    UNITS = 4,
    SCHEDULES = 16, /* of each unit */
    READINGS = 256, /* of each unit */
    RECORDS = UNITS * SCHEDULES,
    EARLIER_BLOCKS = 24, /* in each record before it is measured; by hours, those of a day */
    MEASURED_BLOCKS = 64, /* on each record */
    MEASURED_OPENINGS = 16,
    MEASURED_DAYS = 16,
    TOLERANCE = 1000, /* of the measured days */
    STRETCH = 8, /* records that are timed together */
    STRETCHES = RECORDS / STRETCH,

    REPLAY_MONTHS = 144,
    REPLAY_MONTH_BLOCKS = 2922, /* 420,768 blocks in 144 months */

    ALTERED_CALLS = 100000, /* of each shape and way of banking */
    ALTERED_DAYS = 200000,
    CHANGING_UNITS = 400, /* of each shape */
    CHANGING_MONTHS = 5,  /* of each of them */
};

/* Switch month 0; switch month 1; records on both sides of a later switch month. */
enum banking { BY_CYCLE, BY_HOURS, CHANGING, BANKINGS };

/* ---- the engines ---- */

DECLARE_ENGINE(wheeling);
DECLARE_ENGINE(plain);
DECLARE_ENGINE(empty);

static const struct engine VERIFIED = ENGINE(wheeling);
static const struct engine PLAIN = ENGINE(plain);
/* Its calls do nothing: the stack of a measured loop itself. */
static const struct engine EMPTY = ENGINE(empty);

/* ---- helpers ---- */

static void fail(const char *what)
{
    fprintf(stderr, "bench: %s\n", what);
    exit(1);
}

static uint64_t random_state;

static uint64_t random_number(void)
{
    uint64_t z = random_state += 0x9e3779b97f4a7c15u;
    z = (z ^ (z >> 30)) * 0xbf58476d1ce4e5b9u;
    z = (z ^ (z >> 27)) * 0x94d049bb133111ebu;
    return z ^ (z >> 31);
}

static uint32_t below(uint32_t bound)
{
    return (uint32_t)(random_number() % bound);
}

static double seconds_of(clockid_t clock)
{
    struct timespec now;
    clock_gettime(clock, &now);
    return (double)now.tv_sec + 1e-9 * (double)now.tv_nsec;
}

static double seconds(void)
{
    return seconds_of(CLOCK_MONOTONIC);
}

/* Costs more to read than the above, but leaves out what other programs take. */
static double processor_seconds(void)
{
    return seconds_of(CLOCK_PROCESS_CPUTIME_ID);
}

/* ---- inputs ---- */

struct unit {
    uint32_t rate, cycle, gone, switch_month;
    uint8_t generator_list[4 * 3 * MOST_GENERATORS + MARGIN];
    uint8_t pair_list[4 * 2 * MOST_PAIRS + MARGIN];
    uint8_t kw[SCHEDULES][4 * MOST_PAIRS + MARGIN];
    uint8_t ranks[SCHEDULES][4 * MOST_PAIRS + MARGIN];
    uint8_t entry[READINGS][4 * MOST_GENERATORS + MARGIN];
    uint8_t exit[READINGS][4 * MOST_CONSUMERS + MARGIN];
};

struct day {
    uint8_t main[DAY_LIST_BYTES + MARGIN];
    uint8_t check[DAY_LIST_BYTES + MARGIN];
};

static uint32_t generators, consumers, pairs;
static size_t block_output_bytes, closing_output_bytes;
static struct unit units[UNITS];
static uint8_t prepared[RECORDS][RECORD_BYTES]; /* record r: unit r / SCHEDULES */
static uint8_t working[RECORDS][RECORD_BYTES];
static struct day days[RECORDS];
static uint8_t output[MOST_OUTPUT_BYTES];

/* Scheduled and deemed generators alternate; the first is scheduled in even units only. */
static void draw_unit(struct unit *unit, uint32_t number)
{
    static const uint32_t CYCLES[UNITS] = {1, 12, 3, 12};
    uint32_t lower[MOST_GENERATORS], linked[MOST_PAIRS];

    unit->rate = below(1500);
    unit->cycle = CYCLES[number];
    unit->gone = below(unit->cycle);
    for (uint32_t g = 0; g < generators; g++) {
        uint32_t kind = (g + number) % 2 == 0 ? 0 : 1 + below(3);
        uint32_t installed = 1000 + below(20000), contracted = 1000 + below(20000);
        put_input(unit->generator_list, 3 * g, kind);
        put_input(unit->generator_list, 3 * g + 1, installed);
        put_input(unit->generator_list, 3 * g + 2, contracted);
        lower[g] = installed < contracted ? installed : contracted;
    }
    for (uint32_t pair = 0; pair < pairs; pair++) {
        uint32_t g = pair / consumers, c = pair % consumers;
        linked[pair] = c == g % consumers || below(4) != 0;
        put_input(unit->pair_list, pair, linked[pair]);
        put_input(unit->pair_list, pairs + pair, below(3) == 0 ? 0 : below(1500));
    }

    for (uint32_t s = 0; s < SCHEDULES; s++) {
        for (uint32_t g = 0; g < generators; g++) {
            uint32_t left = below(8) == 0 ? 0 : lower[g];
            for (uint32_t c = 0; c < consumers; c++) {
                uint32_t pair = g * consumers + c;
                uint32_t most = 2 * left / (consumers - c);
                uint32_t kw = linked[pair] && below(5) != 0 ? below(most + 1) : 0;
                kw = kw < left ? kw : left;
                left -= kw;
                put_input(unit->kw[s], pair, kw);
                put_input(unit->ranks[s], pair, 1 + below(below(2) ? 3 : 255));
            }
        }
    }

    for (uint32_t r = 0; r < READINGS; r++) {
        uint64_t injected = 0;
        for (uint32_t g = 0; g < generators; g++) {
            uint32_t entry = below(16) == 0 ? 0 : 250 * (uint64_t)lower[g] * below(1300) / 1000;
            injected += entry;
            put_input(unit->entry[r], g, entry);
        }
        for (uint32_t c = 0; c < consumers; c++)
            put_input(unit->exit[r], c,
                      below(16) == 0 ? 0 : (uint32_t)(injected * below(2000) / 1000 / consumers));
    }
}

/* Half of the blocks are about the tolerance apart, the others up to twice as far. */
static void draw_day(struct day *day)
{
    for (uint32_t b = 0; b < DAY_BLOCKS; b++) {
        uint32_t reading = 10000000 + below(40000000);
        uint32_t apart = below(2) ? TOLERANCE - 1 + below(3) : below(2 * TOLERANCE);
        put_input(day->main, b, reading);
        put_input(day->check, b, below(2) ? reading + apart : reading - apart);
    }
}

/* ---- one call of each kind, with right lengths ---- */

static uint32_t open_unit(const struct engine *engine, const struct unit *unit, uint8_t *record)
{
    return engine->open(generators, consumers, unit->rate, unit->cycle, unit->gone,
                        unit->switch_month, unit->generator_list, 12 * generators,
                        unit->pair_list, 8 * pairs, record, RECORD_BYTES);
}

static uint32_t enter_schedule(const struct engine *engine, const struct unit *unit, uint32_t s,
                               uint8_t *record)
{
    return engine->schedule(record, RECORD_BYTES, unit->kw[s], 4 * pairs, unit->ranks[s],
                            4 * pairs);
}

static uint32_t enter_block(const struct engine *engine, const struct unit *unit, uint32_t r,
                            uint8_t *record, uint8_t *out)
{
    return engine->block(record, RECORD_BYTES, unit->entry[r], 4 * generators, unit->exit[r],
                         4 * consumers, out, block_output_bytes);
}

static uint32_t close_month(const struct engine *engine, uint8_t *record, uint8_t *out)
{
    return engine->close(record, RECORD_BYTES, out, closing_output_bytes);
}

static uint32_t compare_meters(const struct engine *engine, const struct day *day, uint8_t *out)
{
    return engine->day(day->main, DAY_LIST_BYTES, day->check, DAY_LIST_BYTES, TOLERANCE, out,
                       DAY_OUTPUT_BYTES);
}

/* Enters blocks with drawn readings; the bits of all results. */
static uint32_t enter_drawn_blocks(const struct engine *engine, const struct unit *unit,
                                   uint32_t count, uint8_t *record)
{
    uint32_t results = 0;
    while (count-- > 0)
        results |= enter_block(engine, unit, below(READINGS), record, output);
    return results;
}

/* Of unit u. The changing units: never, at once, after the first month, after the third. */
static uint32_t switch_month_of(enum banking banking, uint32_t u)
{
    static const uint32_t CHANGING_AT[UNITS] = {0, 1, 2, 4};
    return banking == BY_CYCLE ? 0 : banking == BY_HOURS ? 1 : CHANGING_AT[u];
}

/* In the open month of a record: by hours a day, so that each class of hours has energy. */
static uint32_t earlier_blocks(enum banking banking)
{
    return banking == BY_CYCLE ? EARLIER_BLOCKS
           : banking == BY_HOURS ? DAY_BLOCKS
                                 : 1 + below(DAY_BLOCKS);
}

/* Draws the units of a shape and prepares a record for each schedule, with `engine`. */
static void prepare(uint32_t shape_generators, uint32_t shape_consumers, enum banking banking,
                    const struct engine *engine)
{
    generators = shape_generators;
    consumers = shape_consumers;
    if (generators < 1 || generators > MOST_GENERATORS || consumers < 1 ||
        consumers > MOST_CONSUMERS)
        fail("no such shape");
    pairs = generators * consumers;
    block_output_bytes = BLOCK_OUTPUT_BYTES(generators, consumers);
    closing_output_bytes = CLOSE_OUTPUT_BYTES(generators, consumers);
    random_state = 1000 * generators + consumers;
    for (uint32_t u = 0; u < UNITS; u++) {
        draw_unit(&units[u], u);
        units[u].switch_month = switch_month_of(banking, u);
    }

    for (uint32_t r = 0; r < RECORDS; r++) {
        const struct unit *unit = &units[r / SCHEDULES];
        uint32_t refused = open_unit(engine, unit, prepared[r]);
        refused |= enter_schedule(engine, unit, r % SCHEDULES, prepared[r]);
        for (uint32_t months = banking == CHANGING ? r % 4 : 0; months > 0; months--) {
            refused |= enter_drawn_blocks(engine, unit, 1 + below(DAY_BLOCKS), prepared[r]);
            refused |= close_month(engine, prepared[r], output);
        }
        refused |= enter_drawn_blocks(engine, unit, earlier_blocks(banking), prepared[r]);
        if (refused)
            fail("a preparing call was refused");
    }
}

/* Draws the days of both meters, with one reading missing in each main day or none. */
static void prepare_days(int one_missing)
{
    random_state = 1;
    for (uint32_t d = 0; d < RECORDS; d++) {
        draw_day(&days[d]);
        if (one_missing)
            put_input(days[d].main, below(DAY_BLOCKS), MISSING);
    }
}

/* ---- the measured loops ---- */

static const char *const CALL_NAMES[CALLS] = {"open", "schedule", "block", "close", "day"};
/* A day takes no record: as many are measured as if each record had some. */
static const uint32_t CALLS_ON_A_RECORD[CALLS] = {MEASURED_OPENINGS, SCHEDULES, MEASURED_BLOCKS, 1,
                                                  MEASURED_DAYS};

static uint32_t calls_in_a_round(enum call call)
{
    return RECORDS * CALLS_ON_A_RECORD[call];
}

/* The calls on some of the working records; the bits of all results. */
static __attribute__((noinline)) uint32_t run_records(const struct engine *engine, enum call call,
                                                      uint32_t first, uint32_t end)
{
    uint32_t results = 0;
    for (uint32_t r = first; r < end; r++) {
        const struct unit *unit = &units[r / SCHEDULES];
        for (uint32_t i = 0; i < CALLS_ON_A_RECORD[call]; i++) {
            switch (call) {
            case OPEN: results |= open_unit(engine, unit, working[r]); break;
            case SCHEDULE: results |= enter_schedule(engine, unit, i, working[r]); break;
            case BLOCK: results |= enter_block(engine, unit, i, working[r], output); break;
            case DAY: results |= compare_meters(engine, &days[(r + i) % RECORDS], output); break;
            default: results |= close_month(engine, working[r], output); break;
            }
        }
    }
    return results;
}

static void run_round(const struct engine *engine, enum call call)
{
    if (run_records(engine, call, 0, RECORDS))
        fail("a measured call was refused");
}

static void restore_working_records(void)
{
    memcpy(working, prepared, sizeof working);
    memset(output, 0, sizeof output);
}

/* Runs one round from the prepared records and keeps the best seconds of each stretch. */
static void timed_round(const struct engine *engine, enum call call, double best[STRETCHES])
{
    restore_working_records();
    for (uint32_t stretch = 0; stretch < STRETCHES; stretch++) {
        double start = seconds();
        uint32_t results = run_records(engine, call, stretch * STRETCH, (stretch + 1) * STRETCH);
        double taken = seconds() - start;
        if (results)
            fail("a measured call was refused");
        best[stretch] = taken < best[stretch] ? taken : best[stretch];
    }
}

/* Nanoseconds per call: the sum of each stretch's best of many rounds, by the calls in one. */
static void time_call(enum call call)
{
    static uint8_t plain_records[RECORDS][RECORD_BYTES], plain_output[MOST_OUTPUT_BYTES];
    double best_verified[STRETCHES], best_plain[STRETCHES], start = seconds();
    for (uint32_t stretch = 0; stretch < STRETCHES; stretch++)
        best_verified[stretch] = best_plain[stretch] = 1e9;
    for (int round = 0; round < 20 || seconds() - start < 2; round++) {
        timed_round(&PLAIN, call, best_plain);
        memcpy(plain_records, working, sizeof working);
        memcpy(plain_output, output, sizeof output);
        timed_round(&VERIFIED, call, best_verified);
        if (memcmp(plain_records, working, sizeof working) ||
            memcmp(plain_output, output, sizeof output))
            fail("the engines differ after a measured round");
    }
    double verified = 0, plain = 0;
    for (uint32_t stretch = 0; stretch < STRETCHES; stretch++) {
        verified += best_verified[stretch];
        plain += best_plain[stretch];
    }
    printf("%.1f %.1f\n", 1e9 * verified / calls_in_a_round(call),
           1e9 * plain / calls_in_a_round(call));
}

/* ---- stack ---- */

uint32_t empty_open(uint32_t g, uint32_t c, uint32_t rate, uint32_t cycle, uint32_t gone,
                    uint32_t switch_month, const uint8_t *a, size_t al, const uint8_t *b,
                    size_t bl, uint8_t *r, size_t rl)
{
    (void)g, (void)c, (void)rate, (void)cycle, (void)gone, (void)switch_month;
    (void)a, (void)al, (void)b, (void)bl, (void)r, (void)rl;
    return 0;
}

uint32_t empty_schedule(uint8_t *r, size_t rl, const uint8_t *a, size_t al, const uint8_t *b,
                        size_t bl)
{
    (void)r, (void)rl, (void)a, (void)al, (void)b, (void)bl;
    return 0;
}

uint32_t empty_block(uint8_t *r, size_t rl, const uint8_t *a, size_t al, const uint8_t *b,
                     size_t bl, uint8_t *o, size_t ol)
{
    (void)r, (void)rl, (void)a, (void)al, (void)b, (void)bl, (void)o, (void)ol;
    return 0;
}

uint32_t empty_close(uint8_t *r, size_t rl, uint8_t *o, size_t ol)
{
    (void)r, (void)rl, (void)o, (void)ol;
    return 0;
}

uint32_t empty_day(const uint8_t *a, size_t al, const uint8_t *b, size_t bl, uint32_t tolerance,
                   uint8_t *o, size_t ol)
{
    (void)a, (void)al, (void)b, (void)bl, (void)tolerance, (void)o, (void)ol;
    return 0;
}

enum { PAINTED_BYTES = 8 << 20, PAINT = 0xa5 };
static uint8_t painted[PAINTED_BYTES] __attribute__((aligned(64)));
static ucontext_t caller_context, painted_context;
static const struct engine *painted_engine;
static enum call painted_call;

static void round_on_painted_stack(void)
{
    run_round(painted_engine, painted_call);
}

/* The bytes of a painted stack that one round of calls touches. */
static size_t touched_stack(const struct engine *engine, enum call call)
{
    restore_working_records();
    memset(painted, PAINT, sizeof painted);
    painted_engine = engine;
    painted_call = call;
    getcontext(&painted_context);
    painted_context.uc_stack.ss_sp = painted;
    painted_context.uc_stack.ss_size = sizeof painted;
    painted_context.uc_link = &caller_context;
    makecontext(&painted_context, round_on_painted_stack, 0);
    swapcontext(&caller_context, &painted_context);
    size_t untouched = 0;
    while (untouched < sizeof painted && painted[untouched] == PAINT)
        untouched++;
    return sizeof painted - untouched;
}

static void measure_stack(enum call call)
{
    size_t return_address = sizeof(void *);
    size_t of_loop = touched_stack(&EMPTY, call) - return_address;
    printf("%zu %zu\n", touched_stack(&VERIFIED, call) - of_loop,
           touched_stack(&PLAIN, call) - of_loop);
}

/* ---- twelve years ---- */

static uint8_t replay_record[RECORD_BYTES];

/* Replays twelve years of unit 1: deemed and, where there are two, scheduled generators. */
static double replay(const struct engine *engine)
{
    const struct unit *unit = &units[1];
    uint32_t block = 0, results = open_unit(engine, unit, replay_record);
    double start = processor_seconds();
    for (uint32_t month = 0; month < REPLAY_MONTHS; month++) {
        for (uint32_t b = 0; b < REPLAY_MONTH_BLOCKS; b++, block++) {
            if (block % DAY_BLOCKS == 0)
                results |= enter_schedule(engine, unit, block / DAY_BLOCKS % SCHEDULES,
                                          replay_record);
            results |= enter_block(engine, unit, block % READINGS, replay_record, output);
        }
        results |= close_month(engine, replay_record, output);
    }
    double end = processor_seconds();
    if (results)
        fail("a replayed call was refused");
    return end - start;
}

static void time_replay(void)
{
    uint8_t plain_record[RECORD_BYTES];
    double best_verified = 1e9, best_plain = 1e9;
    for (int round = 0; round < 5; round++) {
        double plain_seconds = replay(&PLAIN);
        memcpy(plain_record, replay_record, RECORD_BYTES);
        double verified_seconds = replay(&VERIFIED);
        if (memcmp(plain_record, replay_record, RECORD_BYTES))
            fail("the engines differ after twelve years");
        best_plain = plain_seconds < best_plain ? plain_seconds : best_plain;
        best_verified = verified_seconds < best_verified ? verified_seconds : best_verified;
    }
    printf("%.3f %.3f\n", best_verified, best_plain);
}

/* ---- lockstep ---- */

/* One engine's side of a call in lockstep: all that the call may write, and its result. */
struct side {
    uint8_t record[RECORD_BYTES + MARGIN];
    uint8_t output[MOST_OUTPUT_BYTES + MARGIN];
    uint32_t result;
};
static struct side verified_side, plain_side;
static uint64_t compared_calls, calls_by_result[HIGHEST_RESULT + 1];

static void compare_sides(void)
{
    if (verified_side.result != plain_side.result) {
        fprintf(stderr, "bench: verified answers %u, plain %u\n", verified_side.result,
                plain_side.result);
        exit(1);
    }
    if (memcmp(verified_side.record, plain_side.record, sizeof plain_side.record))
        fail("the engines' records differ");
    if (memcmp(verified_side.output, plain_side.output, sizeof plain_side.output))
        fail("the engines' outputs differ");
    if (!is_result(plain_side.result))
        fail("a result is no number of a call");
    compared_calls++;
    calls_by_result[plain_side.result]++;
}

/* Evaluates an expression in `engine` and `side` for both engines and compares them. */
#define BOTH(expression)                                        \
    do {                                                        \
        const struct engine *engine = &VERIFIED;                \
        struct side *side = &verified_side;                     \
        side->result = (expression);                            \
        engine = &PLAIN;                                        \
        side = &plain_side;                                     \
        side->result = (expression);                            \
        compare_sides();                                        \
    } while (0)

/* The twelve years with one switch month or another. */
static void compare_replay(uint32_t switch_month)
{
    struct unit *unit = &units[1];
    uint32_t block = 0;
    unit->switch_month = switch_month;
    BOTH(open_unit(engine, unit, side->record));
    for (uint32_t month = 0; month < REPLAY_MONTHS; month++) {
        for (uint32_t b = 0; b < REPLAY_MONTH_BLOCKS; b++, block++) {
            uint32_t s = block / DAY_BLOCKS % SCHEDULES, r = block % READINGS;
            if (block % DAY_BLOCKS == 0)
                BOTH(enter_schedule(engine, unit, s, side->record));
            BOTH(enter_block(engine, unit, r, side->record, side->output));
        }
        BOTH(close_month(engine, side->record, side->output));
    }
}

/* Short months of units with drawn switch months. */
static void compare_changing_units(void)
{
    static const uint32_t SWITCH_MONTHS[] = {0, 0, 1, 2, 3, 4, 5, MOST_SWITCH_MONTH};
    for (uint32_t n = 0; n < CHANGING_UNITS; n++) {
        struct unit *unit = &units[n % UNITS];
        unit->switch_month = SWITCH_MONTHS[below(sizeof SWITCH_MONTHS / sizeof *SWITCH_MONTHS)];
        BOTH(open_unit(engine, unit, side->record));
        for (uint32_t month = 0; month < CHANGING_MONTHS; month++) {
            uint32_t s = below(SCHEDULES);
            BOTH(enter_schedule(engine, unit, s, side->record));
            for (uint32_t left = 1 + below(2 * DAY_BLOCKS); left > 0; left--) {
                uint32_t r = below(READINGS);
                BOTH(enter_block(engine, unit, r, side->record, side->output));
            }
            BOTH(close_month(engine, side->record, side->output));
        }
    }
}

/* The calls of the measured loops. */
static void compare_rounds(void)
{
    for (uint32_t r = 0; r < RECORDS; r++) {
        const struct unit *unit = &units[r / SCHEDULES];
        memcpy(verified_side.record, prepared[r], RECORD_BYTES);
        memcpy(plain_side.record, prepared[r], RECORD_BYTES);
        BOTH(close_month(engine, side->record, side->output));
        for (uint32_t i = 0; i < MEASURED_BLOCKS; i++)
            BOTH(enter_block(engine, unit, i, side->record, side->output));
        for (uint32_t s = 0; s < SCHEDULES; s++)
            BOTH(enter_schedule(engine, unit, s, side->record));
        BOTH(open_unit(engine, unit, side->record));
    }
}

static uint32_t altered_input(void)
{
    static const uint32_t EDGES[] = {0,    1,    2,    3,      4,      8,         9,
                                     12,   13,   16,   17,     255,    256,       1200,
                                     1201, 5000, 5001, 400000, 400001, 200000000, 200000001,
                                     UINT32_MAX};
    return EDGES[below(sizeof EDGES / sizeof *EDGES)];
}

static size_t maybe_altered_length(size_t bytes)
{
    if (below(24) != 0)
        return bytes;
    size_t less = 1 + below(8);
    switch (below(4)) {
    case 0: return 0;
    case 1: return less < bytes ? bytes - less : 0;
    case 2: return bytes + 1 + below(MARGIN);
    default: return bytes - 4;
    }
}

static uint64_t altered_number(uint64_t number)
{
    switch (below(6)) {
    case 0: return number + 1;
    case 1: return number - 1;
    case 2: return number ^ (uint64_t)1 << below(64);
    case 3: return 0;
    case 4: return altered_input();
    default: return UINT64_MAX;
    }
}

static void alter_place(uint8_t *record, size_t place)
{
    set_record_number(record, place, altered_number(record_number(record, place)));
}

static void add_to_place(uint8_t *record, size_t place, uint64_t more)
{
    set_record_number(record, place, record_number(record, place) + more);
}

/* Two classes of one figure altered so that, in 64 bits, their sum is as before: some energy goes
 * from one to the other, or each has 2^63 more, which no sound record holds. */
static void alter_two_classes(uint8_t *record)
{
    size_t first = AT_CLASSES + below(CLASS_NUMBERS), second = first;
    first += CLASS_NUMBERS * below(CLASSES);
    second += CLASS_NUMBERS * below(CLASSES);
    uint64_t there = record_number(record, first), half = (uint64_t)1 << 63;
    uint64_t moved = below(4) == 0 ? half : below(8) == 0 ? 1 : random_number() % (there + 1);
    add_to_place(record, first, -moved);
    add_to_place(record, second, moved);
}

/* The same energy more in the bank of one generator and in what it injected, and, three times out
 * of four, in one class of its bank. */
static void add_bank(uint8_t *record)
{
    uint32_t g = below(generators), more = below(1000);
    add_to_place(record, AT_INJECTED + g, more);
    add_to_place(record, AT_BANK + g, more);
    if (below(4) != 0)
        add_to_place(record, AT_CLASSES + CLASS_NUMBERS * below(CLASSES) + g, more);
}

/* Closings that fit the blocks, just do not, or wrap where 1 or the blocks are added. */
static void alter_closings(uint8_t *record)
{
    uint64_t most = record_number(record, AT_UNIT_BLOCKS) - record_number(record, AT_MONTH_BLOCKS);
    const uint64_t closings[] = {0, 1, 2, 3, most, most + 1, UINT64_MAX, UINT64_MAX - 1};
    set_record_number(record, AT_CLOSINGS, closings[below(sizeof closings / sizeof *closings)]);
}

static void alter_record(uint8_t *record)
{
    switch (below(15)) {
    case 0: alter_place(record, below(RECORD_NUMBERS)); break;
    case 1: alter_place(record, below(RECORD_COUNTS)); break;
    case 2: set_record_number(record, AT_UNIT_BLOCKS, MOST_UNIT_BLOCKS - below(2)); break;
    case 3:
        set_record_number(record, AT_UNIT_BLOCKS, MOST_UNIT_BLOCKS);
        set_record_number(record, AT_MONTH_BLOCKS, MOST_MONTH_BLOCKS - below(2));
        break;
    case 4: set_record_number(record, AT_MONTH_BLOCKS, below(2)); break;
    case 5: alter_place(record, AT_CLASSES + below(CLASSES * CLASS_NUMBERS)); break;
    case 6: alter_two_classes(record); break;
    case 7: add_bank(record); break;
    case 8: alter_closings(record); break;
    case 9:
        set_record_number(record, AT_SWITCH_MONTH, below(2) ? below(5) : altered_input());
        break;
    case 10: set_record_number(record, AT_MONTHS_GONE, below(2)); break;
    default: break;
    }
}

static void maybe_alter_input(uint8_t *list, uint32_t count)
{
    if (below(8) == 0)
        put_input(list, below(count), altered_input());
}

/* A list of length 0 is sometimes no list at all. */
#define LIST(list, bytes) ((bytes) == 0 && no_list ? NULL : (list)), (bytes)

/* One call on a prepared record, with some of its numbers and lengths altered. */
static void compare_altered_call(void)
{
    static struct unit unit;
    static uint8_t record[RECORD_BYTES];
    uint32_t r = below(RECORDS), s = below(SCHEDULES), reading = below(READINGS);
    uint32_t no_list = below(2);
    size_t record_bytes =
        below(100) == 0 ? FORMER_RECORD_BYTES : maybe_altered_length(RECORD_BYTES);

    memcpy(&unit, &units[r / SCHEDULES], sizeof unit);
    memcpy(record, prepared[r], RECORD_BYTES);
    alter_record(record);
    memcpy(verified_side.record, record, RECORD_BYTES);
    memcpy(plain_side.record, record, RECORD_BYTES);

    switch (below(4)) {
    case 0: {
        uint32_t terms[6] = {generators, consumers, unit.rate,
                             unit.cycle, unit.gone, unit.switch_month};
        if (below(2))
            terms[below(6)] = altered_input();
        maybe_alter_input(unit.generator_list, 3 * generators);
        maybe_alter_input(unit.pair_list, 2 * pairs);
        size_t generator_bytes = maybe_altered_length(12 * generators);
        size_t pair_bytes = maybe_altered_length(8 * pairs);
        BOTH(engine->open(terms[0], terms[1], terms[2], terms[3], terms[4], terms[5],
                          LIST(unit.generator_list, generator_bytes),
                          LIST(unit.pair_list, pair_bytes), LIST(side->record, record_bytes)));
        break;
    }
    case 1: {
        maybe_alter_input(unit.kw[s], pairs);
        maybe_alter_input(unit.ranks[s], pairs);
        size_t kw_bytes = maybe_altered_length(4 * pairs);
        size_t rank_bytes = maybe_altered_length(4 * pairs);
        BOTH(engine->schedule(LIST(side->record, record_bytes), LIST(unit.kw[s], kw_bytes),
                              LIST(unit.ranks[s], rank_bytes)));
        break;
    }
    case 2: {
        maybe_alter_input(unit.entry[reading], generators);
        maybe_alter_input(unit.exit[reading], consumers);
        size_t entry_bytes = maybe_altered_length(4 * generators);
        size_t exit_bytes = maybe_altered_length(4 * consumers);
        size_t output_bytes = maybe_altered_length(block_output_bytes);
        BOTH(engine->block(LIST(side->record, record_bytes),
                           LIST(unit.entry[reading], entry_bytes),
                           LIST(unit.exit[reading], exit_bytes),
                           LIST(side->output, output_bytes)));
        break;
    }
    default: {
        size_t output_bytes = maybe_altered_length(closing_output_bytes);
        BOTH(engine->close(LIST(side->record, record_bytes), LIST(side->output, output_bytes)));
        break;
    }
    }
}

/* Puts a number in some blocks of a day's list: in none, one, a few or most. */
static void alter_blocks(uint8_t *list, uint32_t number)
{
    static const uint32_t MOST[] = {0, 0, 1, 1, 4, 200};
    uint32_t left = below(MOST[below(sizeof MOST / sizeof *MOST)] + 1);
    for (; left > 0; left--)
        put_input(list, below(DAY_BLOCKS), number);
}

static void alter_day(uint8_t *list)
{
    alter_blocks(list, below(UINT32_MAX));
    alter_blocks(list, MISSING - below(2));
}

/* One comparison of a day, with some of its numbers and lengths altered. */
static void compare_altered_day(void)
{
    struct day day = days[below(RECORDS)];
    uint32_t no_list = below(2);
    uint32_t tolerance = below(2) ? TOLERANCE : below(2) ? altered_input() : below(UINT32_MAX);
    size_t main_bytes = maybe_altered_length(DAY_LIST_BYTES);
    size_t check_bytes = maybe_altered_length(DAY_LIST_BYTES);
    size_t output_bytes = maybe_altered_length(DAY_OUTPUT_BYTES);
    alter_day(day.main);
    alter_day(day.check);
    BOTH(engine->day(LIST(day.main, main_bytes), LIST(day.check, check_bytes), tolerance,
                     LIST(side->output, output_bytes)));
}

/* The measured days, then altered ones. */
static void compare_days(void)
{
    for (int one_missing = 0; one_missing < 2; one_missing++) {
        prepare_days(one_missing);
        for (uint32_t d = 0; d < RECORDS; d++)
            BOTH(compare_meters(engine, &days[d], side->output));
    }
    prepare_days(0);
    for (uint32_t i = 0; i < ALTERED_DAYS; i++)
        compare_altered_day();
}

static void compare_shape(const uint32_t shape[2], int with_replay)
{
    for (enum banking banking = 0; banking < BANKINGS; banking++) {
        prepare(shape[0], shape[1], banking, &PLAIN);
        compare_rounds();
        for (uint32_t i = 0; i < ALTERED_CALLS; i++)
            compare_altered_call();
    }
    compare_changing_units();
    if (with_replay) {
        compare_replay(0);
        compare_replay(REPLAY_MONTHS / 2 + 1);
    }
}

static void compare(int with_long_replay)
{
    static const uint32_t SHAPES[][2] = {{1, 2}, {3, 4}, {8, 16}};
    for (size_t shape = 0; shape < sizeof SHAPES / sizeof *SHAPES; shape++)
        compare_shape(SHAPES[shape], shape == 0 || with_long_replay);
    compare_days();
    printf("%llu calls of both engines, equal in result, record and output; by result:",
           (unsigned long long)compared_calls);
    for (size_t result = 0; result < sizeof calls_by_result / sizeof *calls_by_result; result++)
        if (calls_by_result[result])
            printf(" %zu: %llu", result, (unsigned long long)calls_by_result[result]);
    printf("\n");
}

/* ---- commands ---- */

static enum call call_named(const char *name)
{
    for (int call = 0; call < CALLS; call++)
        if (!strcmp(name, CALL_NAMES[call]))
            return (enum call)call;
    fail("no such call");
    return CALLS;
}

static uint32_t number(const char *text)
{
    return (uint32_t)strtoul(text, NULL, 10);
}

/* Prepares what the words CALL G C [hours], or day METER, stand for; the call. */
static enum call prepare_call(int count, char **words, const struct engine *engine)
{
    enum call call = count > 0 ? call_named(words[0]) : CALLS;
    if (call == DAY && count == 2 && (!strcmp(words[1], "main") || !strcmp(words[1], "check")))
        prepare_days(!strcmp(words[1], "check"));
    else if (call < DAY && (count == 3 || (count == 4 && !strcmp(words[3], "hours"))))
        prepare(number(words[1]), number(words[2]), count == 4 ? BY_HOURS : BY_CYCLE, engine);
    else
        fail("unknown words; see the head of driver.c");
    return call;
}

int main(int argc, char **argv)
{
    const char *command = argc > 1 ? argv[1] : "";
    if (!strcmp(command, "compare")) {
        compare(argc == 3 && !strcmp(argv[2], "long"));
    } else if (!strcmp(command, "count") && argc > 2) {
        /* The other engine prepares, so that callgrind meets only the measured calls. */
        int verified = !strcmp(argv[2], "wheeling");
        enum call call = prepare_call(argc - 3, argv + 3, verified ? &PLAIN : &VERIFIED);
        restore_working_records();
        run_round(verified ? &VERIFIED : &PLAIN, call);
        printf("%u\n", calls_in_a_round(call));
    } else if (!strcmp(command, "time")) {
        time_call(prepare_call(argc - 2, argv + 2, &PLAIN));
    } else if (!strcmp(command, "stack")) {
        measure_stack(prepare_call(argc - 2, argv + 2, &PLAIN));
    } else if (!strcmp(command, "replay") && argc == 4) {
        prepare(number(argv[2]), number(argv[3]), BY_CYCLE, &PLAIN);
        time_replay();
    } else {
        fail("unknown command; see the head of driver.c");
    }
    return 0;
}
