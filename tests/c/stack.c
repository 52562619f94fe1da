/* The stack that each call touches, for the largest agreement: prints it, and fails where it is more than the header says.
 * Calls on a record are made for a unit that never banks by hours and for one that always does. They run on a stack of known
 * bytes; what a call that does nothing leaves there is taken off. */
#define _XOPEN_SOURCE 700
#include <stdio.h>
#include <string.h>
#include <ucontext.h>
#include <wheeling.h>

enum { G = WHEELING_MOST_GENERATORS, C = WHEELING_MOST_CONSUMERS, STACK = 1 << 20, PAINT = 0xa5 };

static uint8_t stack[STACK], record[WHEELING_RECORD_BYTES];
static uint8_t generator_list[WHEELING_MOST_GENERATOR_LIST_BYTES], pair_list[WHEELING_MOST_PAIR_LIST_BYTES];
static uint8_t kw_list[WHEELING_MOST_KW_LIST_BYTES], rank_list[WHEELING_MOST_RANK_LIST_BYTES];
static uint8_t entry_list[WHEELING_MOST_ENTRY_LIST_BYTES], exit_list[WHEELING_MOST_EXIT_LIST_BYTES];
static uint8_t main_list[WHEELING_DAY_LIST_BYTES], check_list[WHEELING_DAY_LIST_BYTES];
static uint8_t output[WHEELING_MOST_BLOCK_OUTPUT_BYTES];
static uint32_t number, switch_month;
static ucontext_t caller, painted;

static void nothing(void) { number = WHEELING_ACCEPTED; }

static void opening(void)
{
    number = wheeling_open(G, C, 1000, 1, 0, switch_month, generator_list, sizeof generator_list,
                           pair_list, sizeof pair_list, record, sizeof record);
}

static void schedule(void)
{
    number = wheeling_schedule(record, sizeof record, kw_list, sizeof kw_list, rank_list, sizeof rank_list);
}

static void block(void)
{
    number = wheeling_block(record, sizeof record, entry_list, sizeof entry_list, exit_list, sizeof exit_list,
                            output, sizeof output);
}

static void closing(void)
{
    number = wheeling_close(record, sizeof record, output, WHEELING_MOST_CLOSE_OUTPUT_BYTES);
}

static void day(void)
{
    number = wheeling_day(main_list, sizeof main_list, check_list, sizeof check_list, 9999, output,
                          WHEELING_DAY_OUTPUT_BYTES);
}

/* 0 where the call was refused: it then touched less than it can. */
static size_t touched(void (*call)(void))
{
    size_t untouched = 0;
    memset(stack, PAINT, sizeof stack);
    getcontext(&painted);
    painted.uc_stack.ss_sp = stack;
    painted.uc_stack.ss_size = sizeof stack;
    painted.uc_link = &caller;
    makecontext(&painted, call, 0);
    swapcontext(&caller, &painted);
    while (untouched < sizeof stack && stack[untouched] == PAINT)
        untouched++;
    return number == WHEELING_ACCEPTED ? sizeof stack - untouched : 0;
}

static int within(const char *name, void (*call)(void))
{
    size_t empty = touched(nothing), all = touched(call);
    printf("stack: %s%s touches %zu of %u bytes\n", name, switch_month ? " by hours" : "",
           all > empty ? all - empty : 0, WHEELING_STACK_BYTES);
    return all > empty && all - empty <= WHEELING_STACK_BYTES;
}

/* Numbers below 2^16 at each of the places. */
static void fill(uint8_t *list, size_t bytes, unsigned value)
{
    for (size_t at = 0; at < bytes; at += 4) {
        list[at] = (uint8_t)value;
        list[at + 1] = (uint8_t)(value >> 8);
    }
}

int main(void)
{
    fill(generator_list, sizeof generator_list, 2); /* mini-hydel; 2 kW */
    fill(pair_list, sizeof pair_list, 1);
    fill(rank_list, sizeof rank_list, 7);
    fill(entry_list, sizeof entry_list, 40000);
    fill(exit_list, sizeof exit_list, 30000);
    fill(main_list, sizeof main_list, 40000);
    fill(check_list, sizeof check_list, 30000);
    kw_list[0] = 2;
    int good = within("day", day);
    for (switch_month = 0; switch_month <= 1; switch_month++) {
        good &= within("opening", opening);
        good &= within("schedule", schedule);
        good &= within("block", block);
        good &= within("closing", closing);
    }
    return good ? 0 : 1;
}
