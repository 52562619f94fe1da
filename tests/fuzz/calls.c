/* Fuzz target: the bytes of one input become a list of calls on one unit, days of two meters among
 * them, and each call is made on several engines side by side. After every call the number, the
 * record, the output, the inputs and the guard bytes around all of them are compared; a difference
 * ends the process.
 *
 *   wheeling_*          the library as it is delivered
 *   traced_wheeling_*   the same source compiled with coverage counters: the fuzzer's guide
 *   plain_*             the plain Rust engine of bench/plain
 *
 * With WITHOUT_FUZZER defined it is a program that runs the files named, for valgrind: without the
 * traced engine, and with every buffer a block of its own of exactly the length lent.
 *
 * Any bytes are a list of calls: a number is taken from the bytes by its kind, so that most calls
 * are allowed and some are not; where the bytes end, zeros follow. */

#define _DEFAULT_SOURCE /* MAP_ANONYMOUS */
#include <stdio.h>
#include <stdlib.h>
#include <string.h>
#include <sys/mman.h>

#include "../../bench/engines.h"

enum {
    MOST_CALLS = 200, /* of one input */
    TERMS = 6,        /* numbers of an opening beside its lists */

    /* places in the record, counted in numbers */
    AT_GENERATORS = 0,
    AT_CONSUMERS = 1,
    AT_AGREED = RECORD_COUNTS,
    AT_LINKS = 31,
};

DECLARE_ENGINE(wheeling);
DECLARE_ENGINE(traced_wheeling);
DECLARE_ENGINE(plain);

static const struct engine ENGINES[] = {
    ENGINE(plain),
    ENGINE(wheeling),
#ifndef WITHOUT_FUZZER
    ENGINE(traced_wheeling),
#endif
};
enum { ENGINE_COUNT = sizeof ENGINES / sizeof *ENGINES };

static uint64_t calls_made, calls_by_number[HIGHEST_RESULT + 1];

static void differs(const char *engine, const char *what)
{
    fprintf(stderr, "DIFFERENCE: plain and %s: %s\n", engine, what);
    abort();
}

/* ---- lent memory ---- */

enum { MOST_LENT = 8192, PAGE = 4096, GUARD = 64, GUARD_BYTE = 0x5b };

/* One buffer of an engine. Its bytes end at a page that faults, or stand between guard bytes. */
struct lent {
    uint8_t *memory; /* MOST_LENT bytes, then the page that faults */
    uint8_t *start;
    size_t size;
};

#ifdef WITHOUT_FUZZER

static uint8_t *lend(struct lent *lent, const uint8_t *bytes, size_t size, int turn)
{
    (void)turn;
    lent->start = malloc(size ? size : 1);
    if (lent->start == NULL)
        abort();
    lent->size = size;
    memcpy(lent->start, bytes, size);
    return lent->start;
}

static int guards_whole(const struct lent *lent)
{
    (void)lent;
    return 1; /* valgrind watches what stands around the block */
}

static void take_back(struct lent *lent)
{
    free(lent->start);
}

#else

static uint8_t *lend(struct lent *lent, const uint8_t *bytes, size_t size, int turn)
{
    if (lent->memory == NULL) {
        lent->memory = mmap(NULL, MOST_LENT + PAGE, PROT_READ | PROT_WRITE,
                            MAP_PRIVATE | MAP_ANONYMOUS, -1, 0);
        if (lent->memory == MAP_FAILED || mprotect(lent->memory + MOST_LENT, PAGE, PROT_NONE))
            abort();
    }
    /* At the end of the memory, or at a remainder of an address by 8. */
    lent->start = turn % 2 ? lent->memory + MOST_LENT - size : lent->memory + GUARD + turn / 2 % 8;
    lent->size = size;
    memset(lent->start - GUARD, GUARD_BYTE, GUARD);
    memcpy(lent->start, bytes, size);
    if (lent->start + size != lent->memory + MOST_LENT)
        memset(lent->start + size, GUARD_BYTE, GUARD);
    return lent->start;
}

static int guards_whole(const struct lent *lent)
{
    const uint8_t *end = lent->start + lent->size;
    int whole = 1;
    for (int at = 1; at <= GUARD; at++)
        whole &= lent->start[-at] == GUARD_BYTE;
    for (int at = 0; at < GUARD && end != lent->memory + MOST_LENT; at++)
        whole &= end[at] == GUARD_BYTE;
    return whole;
}

static void take_back(struct lent *lent)
{
    (void)lent;
}

#endif

/* ---- numbers from the input's bytes ---- */

static const uint8_t *input;
static size_t input_left;

static uint32_t next_byte(void)
{
    if (input_left == 0)
        return 0;
    input_left--;
    return *input++;
}

static uint32_t next_number(int bytes)
{
    uint32_t number = 0;
    while (bytes-- > 0)
        number = number << 8 | next_byte();
    return number;
}

static uint32_t edge(void)
{
    static const uint32_t EDGES[] = {
        0,     1,     2,     3,      4,      8,      9,         11,        12,        13,
        16,    17,    249,   250,    255,    256,    1000,      4999,      5000,      5001,
        9999,  10000, 10001, 399999, 400000, 400001, 100000000, 199999999, 200000000, 200000001,
        1199,  1200,  1201,  65535,  65536,  0x7fffffff, 0x80000000, 0xfffffffe, 0xffffffff};
    return EDGES[next_byte() % (sizeof EDGES / sizeof *EDGES)];
}

/* Mostly within the range, at times its ends, at times any edge. */
static uint32_t number_within(uint32_t low, uint32_t high)
{
    uint32_t how = next_byte();
    if (how < 160)
        return low + next_number(high - low < 256 ? 1 : high - low < 65536 ? 2 : 4) %
                         (high - low + 1);
    if (how < 208)
        return low;
    if (how < 250)
        return high;
    return edge();
}

static uint64_t random_state;

/* For lists too long to spell out byte by byte; the seed comes from the input. */
static uint32_t random_below(uint32_t bound)
{
    random_state = random_state * 6364136223846793005u + 1442695040888963407u;
    return (uint32_t)((random_state >> 33) % bound);
}

/* ---- the unit ---- */

static uint8_t record[RECORD_BYTES]; /* as the calls left it: all engines hold the same */
static uint8_t last_accepted[RECORD_BYTES];

static uint64_t stored(size_t place)
{
    return record_number(record, place);
}

static void store(size_t place, uint64_t value)
{
    set_record_number(record, place, value);
}

/* G and C of the record, or 1 where they are no such counts. */
static uint32_t generators(void)
{
    uint64_t count = stored(AT_GENERATORS);
    return 1 <= count && count <= MOST_GENERATORS ? (uint32_t)count : 1;
}

static uint32_t consumers(void)
{
    uint64_t count = stored(AT_CONSUMERS);
    return 1 <= count && count <= MOST_CONSUMERS ? (uint32_t)count : 1;
}

/* ---- lists ---- */

struct list {
    uint32_t numbers[2 * MOST_PAIRS + 8];
    uint8_t bytes[4 * (2 * MOST_PAIRS + 8)];
    size_t size;
};

/* Some numbers of the list replaced, and its length altered at times. */
static void finish_list(struct list *list, size_t count)
{
    for (uint32_t replaced = next_byte(); count > 0 && replaced >= 192; replaced = next_byte())
        list->numbers[next_byte() % count] = replaced & 1 ? edge() : next_number(4);
    for (size_t at = 0; at < sizeof list->numbers / sizeof *list->numbers; at++)
        put_input(list->bytes, at, list->numbers[at]);
    list->size = 4 * count;
}

static size_t maybe_altered(size_t size)
{
    static const int CHANGES[] = {-8, -4, -3, -2, -1, 1, 2, 3, 4, 8};
    uint32_t how = next_byte();
    if (how < 240)
        return size;
    if (how < 244)
        return 0;
    int change = CHANGES[how % (sizeof CHANGES / sizeof *CHANGES)];
    return change < 0 && size < (size_t)-change ? 0 : size + change;
}

static size_t maybe_altered_record(void)
{
    return next_byte() < 252 ? maybe_altered(RECORD_BYTES) : FORMER_RECORD_BYTES;
}

/* ---- one call on every engine ---- */

/* The terms are those of an opening, or the tolerance of a day. */
static void call_all(enum call call, const uint32_t terms[TERMS], struct list lists[2],
                     size_t output_size)
{
    static struct lent lent_record[ENGINE_COUNT], lent_output[ENGINE_COUNT];
    static struct lent lent_lists[ENGINE_COUNT][2];
    static uint8_t long_record[MOST_LENT], pattern[MOST_LENT], answer[MOST_LENT];
    size_t record_size = maybe_altered_record();
    size_t sizes[2] = {maybe_altered(lists[0].size), maybe_altered(lists[1].size)};
    int turn = (int)next_byte(), no_list = turn >= 128;
    uint32_t number = 0;

    for (size_t at = 0; at < sizeof pattern; at++)
        pattern[at] = long_record[at] = (uint8_t)(0xa5 + 29 * at);
    memcpy(long_record, record, RECORD_BYTES);
    output_size = maybe_altered(output_size);

    for (int e = 0; e < ENGINE_COUNT; e++) {
        const struct engine *engine = &ENGINES[e];
        uint8_t *in[2];
        for (int l = 0; l < 2; l++) {
            in[l] = lend(&lent_lists[e][l], lists[l].bytes, sizes[l], turn);
            if (sizes[l] == 0 && no_list)
                in[l] = NULL;
        }
        uint8_t *own = lend(&lent_record[e], long_record, record_size, turn);
        uint8_t *out = lend(&lent_output[e], pattern, output_size, turn);
        uint32_t result =
            call == OPEN ? engine->open(terms[0], terms[1], terms[2], terms[3], terms[4], terms[5],
                                        in[0], sizes[0], in[1], sizes[1], own, record_size)
            : call == SCHEDULE ? engine->schedule(own, record_size, in[0], sizes[0], in[1], sizes[1])
            : call == BLOCK ? engine->block(own, record_size, in[0], sizes[0], in[1], sizes[1], out,
                                            output_size)
            : call == DAY ? engine->day(in[0], sizes[0], in[1], sizes[1], terms[0], out,
                                        output_size)
                          : engine->close(own, record_size, out, output_size);

        if (e == 0) {
            number = result;
            memcpy(answer, out, output_size);
        } else if (result != number) {
            differs(engine->name, "the number");
        } else if (memcmp(own, lent_record[0].start, record_size)) {
            differs(engine->name, "the record");
        } else if (memcmp(out, answer, output_size)) {
            differs(engine->name, "the output");
        }
        for (int l = 0; l < 2; l++)
            if (memcmp(lent_lists[e][l].start, lists[l].bytes, sizes[l]) ||
                !guards_whole(&lent_lists[e][l]))
                differs(engine->name, "an input was written");
        if (!guards_whole(&lent_record[e]) || !guards_whole(&lent_output[e]))
            differs(engine->name, "bytes around a buffer were written");
    }
    if (!is_result(number))
        differs("all", "no number of a call");
    if (number != 0 && (memcmp(long_record, lent_record[0].start, record_size) ||
                        memcmp(pattern, answer, output_size)))
        differs("all", "a refused call wrote");
    if (record_size == RECORD_BYTES)
        memcpy(record, lent_record[0].start, RECORD_BYTES);
    if (number == 0 && call != DAY)
        memcpy(last_accepted, record, RECORD_BYTES);
    if (number == NOT_SOUND && turn % 4 != 0)
        memcpy(record, last_accepted, RECORD_BYTES); /* the other would be refused on and on */
    calls_made++;
    calls_by_number[number]++;
    for (int e = 0; e < ENGINE_COUNT; e++) {
        take_back(&lent_record[e]);
        take_back(&lent_output[e]);
        take_back(&lent_lists[e][0]);
        take_back(&lent_lists[e][1]);
    }
}

/* ---- the calls ---- */

static struct list lists[2];
static const uint32_t NO_TERMS[TERMS];

/* Mostly never or one of the first months, so that the closings of an input reach it. */
static uint32_t switch_month(void)
{
    uint32_t how = next_byte();
    return how < 120   ? 0
           : how < 240 ? 1 + how % 4
           : how < 248 ? MOST_SWITCH_MONTH + how % 2
                       : number_within(0, MOST_SWITCH_MONTH);
}

static void open_unit(void)
{
    uint32_t G = number_within(1, MOST_GENERATORS), C = number_within(1, MOST_CONSUMERS);
    uint32_t cycle = number_within(1, 12);
    uint32_t rate = number_within(0, 5000), gone = number_within(0, cycle ? cycle - 1 : 0);
    uint32_t terms[TERMS] = {G, C, rate, cycle, gone, switch_month()};
    uint32_t rows = G <= MOST_GENERATORS ? G : 1, columns = C <= MOST_CONSUMERS ? C : 1;
    uint32_t most_loss = number_within(0, 5000) % 5001;
    random_state = next_number(2);
    for (uint32_t g = 0; g < rows; g++) {
        lists[0].numbers[3 * g] = next_byte() % 4;
        lists[0].numbers[3 * g + 1] = number_within(0, 400000);
        lists[0].numbers[3 * g + 2] = number_within(0, 400000);
    }
    for (uint32_t pair = 0; pair < rows * columns; pair++) {
        lists[1].numbers[pair] = random_below(8) != 0;
        lists[1].numbers[rows * columns + pair] = random_below(most_loss + 1);
    }
    finish_list(&lists[0], 3 * rows);
    finish_list(&lists[1], 2 * rows * columns);
    call_all(OPEN, terms, lists, 0);
}

static void schedule(void)
{
    uint32_t G = generators(), C = consumers();
    /* Small ones of the first and large ones of the second make many pairs equal in rank and kW. */
    uint32_t most_rank = 1 + next_byte() % 255, step = 1 + next_byte();
    random_state = next_number(2);
    for (uint32_t g = 0; g < G; g++) {
        uint64_t installed = stored(AT_AGREED + 3 * g + 1);
        uint64_t contracted = stored(AT_AGREED + 3 * g + 2);
        uint64_t left = installed < contracted ? installed : contracted;
        left = left > 400000 ? 400000 : left;
        for (uint32_t c = 0; c < C; c++) {
            uint32_t kw = 0;
            if (stored(AT_LINKS + MOST_CONSUMERS * g + c) == 1 && random_below(4) != 0)
                kw = c + 1 == C ? (uint32_t)left : random_below((uint32_t)(2 * left / C + 1));
            kw = kw < left ? kw : (uint32_t)left;
            kw -= kw % step;
            left -= kw;
            lists[0].numbers[g * C + c] = kw;
            lists[1].numbers[g * C + c] = 1 + random_below(most_rank);
        }
    }
    finish_list(&lists[0], G * C);
    finish_list(&lists[1], G * C);
    call_all(SCHEDULE, NO_TERMS, lists, 0);
}

static void blocks(uint32_t count)
{
    uint32_t most_entry = number_within(0, 200000000), most_exit = number_within(0, 200000000);
    random_state = next_number(2);
    while (count-- > 0) {
        uint32_t G = generators(), C = consumers();
        for (uint32_t g = 0; g < G; g++)
            lists[0].numbers[g] = most_entry == UINT32_MAX ? most_entry : random_below(most_entry + 1);
        for (uint32_t c = 0; c < C; c++)
            lists[1].numbers[c] = most_exit == UINT32_MAX ? most_exit : random_below(most_exit + 1);
        finish_list(&lists[0], G);
        finish_list(&lists[1], C);
        call_all(BLOCK, NO_TERMS, lists, BLOCK_OUTPUT_BYTES(G, C));
    }
}

static void close_month(void)
{
    uint32_t G = generators(), C = consumers();
    lists[0].size = lists[1].size = 0;
    call_all(CLOSE, NO_TERMS, lists, CLOSE_OUTPUT_BYTES(G, C));
}

/* Mostly the length asked for, at times any. */
static size_t mostly(size_t length)
{
    return next_byte() < 232 ? length : next_byte();
}

static void lose_readings(struct list *list)
{
    uint32_t lost = next_byte();
    for (lost = lost < 128 ? 0 : lost < 192 ? 1 : lost - 191; lost > 0; lost--)
        list->numbers[random_below(DAY_BLOCKS)] = MISSING;
}

/* The two meters' readings are about the tolerance apart: none, some or all of them further. One
 * below 0 wraps around, so that some are far apart. */
static void day(void)
{
    uint32_t tolerance = number_within(0, 5000), most = number_within(0, 200000000);
    uint32_t terms[TERMS] = {tolerance}, nearest = tolerance - 2 + next_byte() % 4;
    random_state = next_number(2);
    for (uint32_t b = 0; b < DAY_BLOCKS; b++) {
        uint32_t apart = nearest + random_below(3);
        lists[0].numbers[b] = most - random_below(1000);
        lists[1].numbers[b] = lists[0].numbers[b] + (random_below(2) ? apart : -apart);
    }
    lose_readings(&lists[0]);
    lose_readings(&lists[1]);
    finish_list(&lists[0], mostly(DAY_BLOCKS));
    finish_list(&lists[1], mostly(DAY_BLOCKS));
    call_all(DAY, terms, lists, mostly(DAY_OUTPUT_BYTES));
}

/* ---- what a host may do to the record between calls ---- */

/* One of the places that belong to no generator or consumer. */
static size_t count_place(void)
{
    size_t place = next_byte() % (RECORD_COUNTS + 2);
    return place < RECORD_COUNTS ? place : AT_SWITCH_MONTH + place - RECORD_COUNTS;
}

static void damage(void)
{
    uint32_t how = next_byte();
    size_t place = how & 1 ? count_place() : next_number(2) % RECORD_NUMBERS;
    uint64_t was = stored(place);
    switch (how / 2 % 6) {
    case 0: store(place, was + 1); break;
    case 1: store(place, was - 1); break;
    case 2: store(place, was ^ (uint64_t)1 << next_byte() % 64); break;
    case 3: store(place, edge()); break;
    case 4: store(place, was + ((uint64_t)1 << 32)); break;
    default: store(place, (uint64_t)next_number(4) << 32 | next_number(4)); break;
    }
}

/* Two classes of one total with 2^63 more each: in 64 bits their sum is as it was. */
static void damage_two_classes(void)
{
    size_t place = AT_CLASSES + next_byte() % (2 * CLASS_NUMBERS);
    store(place, stored(place) + ((uint64_t)1 << 63));
    store(place + CLASS_NUMBERS, stored(place + CLASS_NUMBERS) + ((uint64_t)1 << 63));
}

/* An older unit: the record stays sound if it was. Its month is nearly full, nearly empty or in
 * between, where the next block may be of any class of hours. */
static void age(void)
{
    uint32_t how = next_byte();
    uint64_t month = how < 64    ? MOST_MONTH_BLOCKS - how % 4
                     : how < 128 ? how % 4
                                 : next_number(2) % (MOST_MONTH_BLOCKS + 1);
    store(AT_UNIT_BLOCKS, MOST_UNIT_BLOCKS - next_byte() % 4);
    store(AT_MONTH_BLOCKS, month);
}

/* Where one class's part of a total stands; 0 where the total has no parts by class. */
static size_t part_of(size_t total, uint32_t class)
{
    size_t parts = AT_CLASSES + CLASS_NUMBERS * class;
    if (AT_BANK <= total && total < AT_METERED)
        return parts + (total - AT_BANK);
    if (AT_OPEN <= total && total < AT_SWITCH_MONTH)
        return parts + 2 * MOST_GENERATORS + (total - AT_OPEN);
    return 0;
}

static int is_by_hours(void)
{
    return stored(AT_SWITCH_MONTH) != 0 && stored(AT_CLOSINGS) >= stored(AT_SWITCH_MONTH) - 1;
}

/* Of each total none to four quarters in the first class, of the rest likewise in the second, and
 * what is then left in the third. */
static void split_totals(void)
{
    for (size_t total = AT_BANK; total < AT_SWITCH_MONTH; total++) {
        uint64_t left = stored(total);
        for (uint32_t class = 0; class < CLASSES && part_of(total, class) != 0; class++) {
            uint64_t part = class + 1 < CLASSES ? left / 4 * random_below(5) : left;
            store(part_of(total, class), part);
            left -= part;
        }
    }
}

/* Closings that the blocks just allow, just do not, or that wrap where the blocks are added. */
static uint64_t edge_of_closings(void)
{
    uint64_t most = stored(AT_UNIT_BLOCKS) - stored(AT_MONTH_BLOCKS);
    const uint64_t edges[] = {most, most + 1, UINT64_MAX, UINT64_MAX - 1};
    return edges[next_byte() % (sizeof edges / sizeof *edges)];
}

/* A unit that banks by hours from now on, or never does: the record stays sound if it was, except
 * where it has, at times, more closings than its blocks allow. */
static void change_banking(void)
{
    uint32_t how = next_byte();
    uint64_t closings = how % 4;
    random_state = next_number(2);
    store(AT_SWITCH_MONTH, how < 64 ? 0 : 1 + next_byte() % (closings + 1));
    if (stored(AT_UNIT_BLOCKS) - stored(AT_MONTH_BLOCKS) < closings)
        store(AT_UNIT_BLOCKS, stored(AT_MONTH_BLOCKS) + closings);
    store(AT_CLOSINGS, how % 32 / 4 == 7 ? edge_of_closings() : closings);
    memset(record + 8 * AT_CLASSES, 0, 8 * CLASSES * CLASS_NUMBERS);
    if (is_by_hours()) {
        store(AT_MONTHS_GONE, 0);
        split_totals();
    }
}

/* As much energy more in the whole and in one term of an equation: some, much, all that a unit of
 * this age may have, or 1 Wh over that. By hours also in a class of the term, at times in none. */
static void add_balanced(void)
{
    int by_generator = next_byte() & 1;
    size_t places = by_generator ? MOST_GENERATORS : MOST_CONSUMERS;
    size_t whole = (by_generator ? AT_INJECTED : AT_METERED) + next_byte() % places;
    size_t term = whole + places * (1 + next_byte() % (by_generator ? 9 : 5));
    uint64_t to_age = 200000000 * stored(AT_UNIT_BLOCKS) - stored(whole), more;
    switch (next_byte() % 4) {
    case 0: more = number_within(0, 2000000000); break;
    case 1: more = (uint64_t)number_within(0, 2000000000) * 1000000; break;
    case 2: more = to_age; break;
    default: more = to_age + 1; break;
    }
    store(whole, stored(whole) + more);
    store(term, stored(term) + more);
    uint32_t class = next_byte() % (CLASSES + 1);
    if (is_by_hours() && class < CLASSES && part_of(term, class) != 0)
        store(part_of(term, class), stored(part_of(term, class)) + more);
}

static void run_list(const uint8_t *bytes, size_t size)
{
    input = bytes;
    input_left = size;
    memset(record, 0, sizeof record);
    memset(last_accepted, 0, sizeof last_accepted);
    memset(lists, 0, sizeof lists);
    uint64_t end = calls_made + MOST_CALLS;
    open_unit();
    while (input_left > 0 && calls_made < end) {
        uint32_t action = next_byte();
        switch (action % 20) {
        case 0: open_unit(); break;
        case 1: case 2: case 3: schedule(); break;
        case 4: case 5: case 6: blocks(1); break;
        case 7: blocks(action); break;
        case 8: case 9: case 10: close_month(); break;
        case 11: damage(); break;
        case 12: damage(); damage(); break;
        case 13: age(); break;
        case 14: case 15: add_balanced(); break;
        case 16: case 17: change_banking(); break;
        case 18: damage_two_classes(); break;
        default: day(); break;
        }
    }
}

static void report(void)
{
    fprintf(stderr, "%llu calls by number:", (unsigned long long)calls_made);
    for (uint32_t number = 0; number <= HIGHEST_RESULT; number++)
        if (is_result(number))
            fprintf(stderr, " %u: %llu", number, (unsigned long long)calls_by_number[number]);
    fprintf(stderr, "\n");
}

#ifdef WITHOUT_FUZZER

int main(int count, char **names)
{
    static uint8_t bytes[1 << 16];
    for (int at = 1; at < count; at++) {
        FILE *file = fopen(names[at], "rb");
        if (file == NULL) {
            fprintf(stderr, "cannot read %s\n", names[at]);
            return 1;
        }
        size_t size = fread(bytes, 1, sizeof bytes, file);
        fclose(file);
        run_list(bytes, size);
    }
    fprintf(stderr, "%d lists, ", count - 1);
    report();
    return 0;
}

#else

int LLVMFuzzerInitialize(int *count, char ***words)
{
    (void)count, (void)words;
    atexit(report);
    return 0;
}

int LLVMFuzzerTestOneInput(const uint8_t *bytes, size_t size)
{
    run_list(bytes, size);
    return 0;
}

#endif
