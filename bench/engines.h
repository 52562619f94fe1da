/* The engines that bench/driver.c and tests/fuzz/calls.c run side by side. Each has the same five
 * C calls under a prefix of its own, on the same bytes: 4 for a number of an input, 8 for one of
 * the record or of an output, low byte first. */
#ifndef ENGINES_H
#define ENGINES_H

#include <stddef.h>
#include <stdint.h>

enum {
    MOST_GENERATORS = 8,
    MOST_CONSUMERS = 16,
    MOST_PAIRS = MOST_GENERATORS * MOST_CONSUMERS,
    MOST_MONTH_BLOCKS = 3360,
    MOST_UNIT_BLOCKS = 10000000,
    MOST_SWITCH_MONTH = 1200,

    /* Places in the record, counted in numbers. */
    RECORD_COUNTS = 7, /* the first ones, before the lists; three of them: */
    AT_MONTHS_GONE = 4,
    AT_UNIT_BLOCKS = 5,
    AT_MONTH_BLOCKS = 6,
    AT_INJECTED = 543, /* the first term of the generator equation, then nine more */
    AT_BANK = AT_INJECTED + 8 * MOST_GENERATORS,
    AT_PENDING = AT_BANK + MOST_GENERATORS,
    AT_METERED = AT_PENDING + MOST_GENERATORS, /* and of the consumer equation, five more */
    AT_OPEN = AT_METERED + 5 * MOST_CONSUMERS,
    AT_SWITCH_MONTH = AT_OPEN + MOST_CONSUMERS,
    AT_CLOSINGS,
    AT_CLASSES, /* bank, pending and open of each class of hours */
    CLASSES = 3,
    CLASS_NUMBERS = 2 * MOST_GENERATORS + MOST_CONSUMERS,
    RECORD_NUMBERS = AT_CLASSES + CLASSES * CLASS_NUMBERS,
    RECORD_BYTES = 8 * RECORD_NUMBERS,
    FORMER_RECORD_BYTES = 8 * AT_SWITCH_MONTH, /* before the bank by hours; no longer a record */

    DAY_BLOCKS = 96,
    DAY_LIST_BYTES = 4 * DAY_BLOCKS,
    DAY_OUTPUT_BYTES = 8 * 2,

    NOT_SOUND = 1, /* results */
    MONTH_EMPTY = 13,
    BOTH_INCOMPLETE = 17,
    WRONG_SWITCH_MONTH = 19,
    HIGHEST_RESULT = WRONG_SWITCH_MONTH,
};

_Static_assert(RECORD_BYTES == 6536 && FORMER_RECORD_BYTES == 5752, "the sizes of the papers");

#define MISSING UINT32_MAX /* in a day's list: the reading of this block is missing */

enum call { OPEN, SCHEDULE, BLOCK, CLOSE, DAY, CALLS };

/* 14 to 16 are refusals of the readings table, which no C call reads; 18 is not in use. */
static inline int is_result(uint32_t number)
{
    return number <= MONTH_EMPTY || number == BOTH_INCOMPLETE || number == WRONG_SWITCH_MONTH;
}

/* G, C, rate, cycle, months gone, switch month; the lists of generators and pairs; the record */
typedef uint32_t open_call(uint32_t, uint32_t, uint32_t, uint32_t, uint32_t, uint32_t,
                           const uint8_t *, size_t, const uint8_t *, size_t, uint8_t *, size_t);
/* the record; kW; ranks */
typedef uint32_t schedule_call(uint8_t *, size_t, const uint8_t *, size_t, const uint8_t *, size_t);
/* the record; entry readings; exit readings; the output */
typedef uint32_t block_call(uint8_t *, size_t, const uint8_t *, size_t, const uint8_t *, size_t,
                            uint8_t *, size_t);
/* the record; the output */
typedef uint32_t close_call(uint8_t *, size_t, uint8_t *, size_t);
/* the main meter's day; the check meter's; tolerance; the output */
typedef uint32_t day_call(const uint8_t *, size_t, const uint8_t *, size_t, uint32_t, uint8_t *,
                          size_t);

struct engine {
    const char *name;
    open_call *open;
    schedule_call *schedule;
    block_call *block;
    close_call *close;
    day_call *day;
};

#define DECLARE_ENGINE(prefix)              \
    extern open_call prefix##_open;         \
    extern schedule_call prefix##_schedule; \
    extern block_call prefix##_block;       \
    extern close_call prefix##_close;       \
    extern day_call prefix##_day

/* The value of a struct engine. */
#define ENGINE(prefix) \
    {#prefix, prefix##_open, prefix##_schedule, prefix##_block, prefix##_close, prefix##_day}

#define BLOCK_OUTPUT_BYTES(g, c) (8 * (4 * (g) * (c) + (g) + (c)))
#define CLOSE_OUTPUT_BYTES(g, c) (8 * ((g) * (c) + 3 * (g) + 2 * (c)))

static inline void put_input(uint8_t *list, size_t place, uint32_t value)
{
    for (int byte = 0; byte < 4; byte++)
        list[4 * place + byte] = (uint8_t)(value >> (8 * byte));
}

static inline uint64_t record_number(const uint8_t *record, size_t place)
{
    uint64_t value = 0;
    for (int byte = 0; byte < 8; byte++)
        value |= (uint64_t)record[8 * place + byte] << (8 * byte);
    return value;
}

static inline void set_record_number(uint8_t *record, size_t place, uint64_t value)
{
    for (int byte = 0; byte < 8; byte++)
        record[8 * place + byte] = (uint8_t)(value >> (8 * byte));
}

#endif
