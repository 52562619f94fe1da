/* The energy account of one wheeling unit: opening, schedule, block and closing, over bytes; and, without a record, the
 * comparison of a main and a check meter's day.
 *
 * A unit has G generators (1 to 8), C consumers (1 to 16) and one record of 6,536 bytes, which the host keeps.
 * A host opens the unit once, enters a schedule, then one block each 15 minutes, and closes each month:
 *
 *     uint8_t record[WHEELING_RECORD_BYTES];
 *     uint8_t output[WHEELING_MOST_BLOCK_OUTPUT_BYTES];
 *     wheeling_open(...);            once, into the record's bytes
 *     wheeling_schedule(record, ...);   as often as the schedule changes
 *     wheeling_block(record, ...);      each quarter of an hour
 *     wheeling_close(record, ...);      at the end of each month
 *
 * An estate with a second meter on a line asks wheeling_day which of the two meters' readings to enter, a day at a time.
 * examples/host.c is a whole host, which keeps its record in a file that a power cut leaves whole; examples/day.c takes a
 * day from two meters.
 *
 * Numbers and lists
 *   Energy is in whole watt-hours (Wh), capacity in kW; 1 kW is 250 Wh in a block.
 *   A list is a pointer and its length in bytes. Numbers stand in it one after the other, low byte first: inputs of 4 bytes
 *   (unsigned, 32 bits), outputs and record of 8 (unsigned, 64 bits). No alignment is asked for.
 *   Pair lists have one number for each generator and consumer, by generator, then consumer: the pair of generator g and
 *   consumer c, both counted from 0 as in the macros below, is number g * C + c of GC.
 *   Lengths must be exact. The macros below give them.
 *
 * Answers
 *   Each call returns a number from the table below: 0 is accepted; of several refusals that apply, the lowest.
 *   A refused call leaves every byte as it was, those of the record and of the output included.
 *   After an accepted call the record's bytes are the record after it, and every number of the output is written.
 *
 * Banking by hours
 *   The opening sets a switch month: the number of the first closing that banks by hours, counted from 1 at the opening; 0 is
 *   never. Before it there is one bank for all hours, which lapses at the end of each cycle. The closing just before it lets
 *   that bank lapse wherever the cycle stands. From then on bank, pending and open are kept apart by three classes of hours,
 *   from the first block of a month to its closing, every closing ends with a lapse, and months gone stays 0.
 *   The class of a block is that of its slot. A month's first block is of slot 1, the next of slot 2; after slot 96 comes
 *   slot 1 again:
 *     off-peak  slots 37 to 68                9 to 17 o'clock, where a month begins at midnight
 *     peak      slots 21 to 36 and 77 to 92   5 to 9 and 19 to 23 o'clock
 *     normal    the other slots
 *   Only blocks that are entered count: where one is left out, the later ones of its month are one slot too early.
 *
 * Records of before
 *   Version 0.1.0 of the library had records of 5,752 bytes. Such a record is refused with 1. A host cannot carry it over by
 *   itself: the old record does not tell how many closings were done, which a record now holds, and a count that is wrong
 *   cannot be seen. The library has no call that takes it over. A unit with an old record stays on the former library, or is
 *   opened anew: a new opening starts all counts and totals at 0, and a host that has kept the inputs of all its calls may
 *   make them again.
 *
 * What a host must see to
 *   - Pointers are valid for the lengths given. A null pointer is allowed where the length is 0.
 *   - The buffers of one call do not overlap.
 *   - Nobody writes the record between calls; a host reads its figures at the places below. A record that was damaged is
 *     refused with 1 where its figures break a rule; damage that leaves a sound record cannot be seen.
 *   - Stack of WHEELING_STACK_BYTES below the caller's frame.
 * The library is built for x86-64 Linux. The calls keep no state of their own and use no heap, no files and no clock.
 * They are reentrant: threads may call at the same time on different records. Calls on one record must come one after the
 * other. */
#ifndef WHEELING_H
#define WHEELING_H

#include <stddef.h>
#include <stdint.h>

#ifdef __cplusplus
extern "C" {
#endif

/* ---- What a call returns ---- */

#define WHEELING_ACCEPTED 0u
#define WHEELING_NOT_SOUND 1u       /* schedule, block, closing: the record is not sound or not 6,536 bytes long */
#define WHEELING_WRONG_SIZE 2u      /* all: a length other than stated; opening: also G outside 1 to 8 or C outside 1 to 16 */
#define WHEELING_WRONG_KIND 3u      /* opening: a kind over 3 */
#define WHEELING_WRONG_CAPACITY 4u  /* opening: a capacity over 400,000 kW */
#define WHEELING_WRONG_LINK 5u      /* opening: a link over 1 or a loss over 5,000 */
#define WHEELING_WRONG_TERMS 6u     /* opening: rate over 5,000, cycle outside 1 to 12, or months gone not below the cycle */
#define WHEELING_NOT_LINKED 7u      /* schedule: kW on a pair whose link is 0 */
#define WHEELING_OVER_CAPACITY 8u   /* schedule: a generator's kW add up to more than the lower of its two capacities */
#define WHEELING_WRONG_RANK 9u      /* schedule: a rank outside 1 to 255 */
#define WHEELING_READING_TOO_HIGH 10u /* block: a reading over 200,000,000 Wh */
#define WHEELING_MONTH_FULL 11u     /* block: the month holds 3,360 blocks; close it first */
#define WHEELING_UNIT_FULL 12u      /* block: the unit holds 10,000,000 blocks; no further one is accepted */
#define WHEELING_MONTH_EMPTY 13u    /* closing: the month holds no block */
#define WHEELING_BOTH_INCOMPLETE 17u /* day: at least one reading is missing in each of the two days */
#define WHEELING_WRONG_SWITCH_MONTH 19u /* opening: a switch month over 1,200 */

/* ---- Sizes: g and c stand for the unit's G and C ---- */

#define WHEELING_MOST_GENERATORS 8u
#define WHEELING_MOST_CONSUMERS 16u

#define WHEELING_RECORD_BYTES 6536u
#define WHEELING_GENERATOR_LIST_BYTES(g) (4u * 3u * (g))
#define WHEELING_PAIR_LIST_BYTES(g, c) (4u * 2u * (g) * (c))
#define WHEELING_KW_LIST_BYTES(g, c) (4u * (g) * (c))
#define WHEELING_RANK_LIST_BYTES(g, c) (4u * (g) * (c))
#define WHEELING_ENTRY_LIST_BYTES(g) (4u * (g))
#define WHEELING_EXIT_LIST_BYTES(c) (4u * (c))
#define WHEELING_BLOCK_OUTPUT_BYTES(g, c) (8u * (4u * (g) * (c) + (g) + (c)))
#define WHEELING_CLOSE_OUTPUT_BYTES(g, c) (8u * ((g) * (c) + 3u * (g) + 2u * (c)))

/* The largest of each: of 8 generators and 16 consumers. A buffer may be larger than a list; the length given may not. */
#define WHEELING_MOST_GENERATOR_LIST_BYTES 96u
#define WHEELING_MOST_PAIR_LIST_BYTES 1024u
#define WHEELING_MOST_KW_LIST_BYTES 512u
#define WHEELING_MOST_RANK_LIST_BYTES 512u
#define WHEELING_MOST_ENTRY_LIST_BYTES 32u
#define WHEELING_MOST_EXIT_LIST_BYTES 64u
#define WHEELING_MOST_BLOCK_OUTPUT_BYTES 4288u
#define WHEELING_MOST_CLOSE_OUTPUT_BYTES 1472u

/* A day of two meters, which has no G and C. */
#define WHEELING_DAY_BLOCKS 96u
#define WHEELING_DAY_LIST_BYTES 384u
#define WHEELING_DAY_OUTPUT_BYTES 16u
#define WHEELING_MISSING 4294967295u /* in a day's list: the reading of this block is missing */
#define WHEELING_MAIN_METER 0u       /* in its output */
#define WHEELING_CHECK_METER 1u

/* The stack that any call needs below its caller's frame, in bytes, at most. `make bench` measures each call; tests/c/stack.c
 * fails where one touches more than this. */
#define WHEELING_STACK_BYTES 16384u

/* ---- The calls ---- */

/* Opens a unit: writes a record with the agreement, no kW scheduled, every rank 1, all counts and totals 0. What the
 * record's bytes held before does not matter.
 *   generators, consumers  G and C
 *   rate                   the bank's charge, 0 to 5,000 hundredths of a percent
 *   cycle, gone            months after which the bank lapses, 1 to 12; months of the first cycle gone already, below cycle
 *   switch_month           the number of the first closing that banks by hours, counted from 1 at this opening, at most
 *                          1,200; 0 for a unit that never does. With 1 the first month banks by hours already: gone is
 *                          tested as always, and 0 is written
 *   generator_list         3G numbers, for each generator: kind (0 scheduled, 1 wind, 2 mini-hydel, 3 solar), installed kW,
 *                          contracted kW, each capacity 0 to 400,000
 *   pair_list              2GC numbers: the links of all pairs, 0 or 1, then the losses of all pairs, 0 to 5,000 hundredths
 *                          of a percent
 *   record                 the 6,536 bytes that are written
 * Refuses with 2 to 6 and 19; a record of another length is 2 here. */
uint32_t wheeling_open(uint32_t generators, uint32_t consumers, uint32_t rate, uint32_t cycle, uint32_t gone,
                       uint32_t switch_month,
                       const uint8_t *generator_list, size_t generator_list_bytes,
                       const uint8_t *pair_list, size_t pair_list_bytes,
                       uint8_t *record, size_t record_bytes);

/* Replaces the schedule whole; it stands until the next accepted one.
 *   record     the unit's record, changed in place
 *   kw_list    GC numbers: entry kW of each pair, 0 where the link is 0; those of one generator add up to at most the lower
 *              of installed and contracted
 *   rank_list  GC numbers, 1 to 255: a consumer is served in rising rank; for equal ranks the larger kW of kw_list comes
 *              first, then the lower generator number. A block goes by the schedule that stands when it is entered, the
 *              drawing of a closing by the one that stands at the closing
 * Refuses with 1, 2, 7, 8, 9. */
uint32_t wheeling_schedule(uint8_t *record, size_t record_bytes,
                           const uint8_t *kw_list, size_t kw_list_bytes,
                           const uint8_t *rank_list, size_t rank_list_bytes);

/* Enters the readings of one block of 15 minutes. Where the month is kept by hours, what the block adds to pending and open
 * is added to the places of its class too; the output is the same.
 *   record      the unit's record, changed in place
 *   entry_list  G numbers: what each generator fed in, 0 to 200,000,000 Wh
 *   exit_list   C numbers: what each consumer took, 0 to 200,000,000 Wh
 *   output      4GC + G + C numbers, in Wh: loss, set off, underdrawn and shortfall, each GC by pair; unaccounted, G by
 *               generator; remainder, C by consumer. Each loss is rounded to the nearest Wh, halves up
 * Refuses with 1, 2, 10, 11, 12. */
uint32_t wheeling_block(uint8_t *record, size_t record_bytes,
                        const uint8_t *entry_list, size_t entry_list_bytes,
                        const uint8_t *exit_list, size_t exit_list_bytes,
                        uint8_t *output, size_t output_bytes);

/* Closes the month: banks what is pending less the charge, which is rounded up, draws for the consumers from it, leaves the
 * rest to be supplied by the local licensee, and lets the bank lapse at the end of a cycle. The closing just before the switch
 * month lets it lapse in any case, and sets months gone to 0.
 * From the switch month on it does so by classes of hours:
 *   - the charge is rounded up in each class, and the rest of the class's pending is banked in that class;
 *   - consumer after consumer settles what is open of it off-peak, then normal, then peak; within each of these one linked
 *     generator after another, in the consumer's order, gives first what it has banked of that class, then what it has banked
 *     of peak;
 *   - what is left of each class is supplied, all that is left in the banks lapses, and months gone stays 0.
 * The numbers of the output, and the totals of the record, are then sums over the three classes.
 *   record  the unit's record, changed in place
 *   output  GC + 3G + 2C numbers, in Wh: drawn, GC by pair; charge, lapsed and bank, each G by generator; open before the
 *           drawing and supplied, each C by consumer
 * Refuses with 1, 2, 13.
 * With no output (NULL, 0) it changes nothing and tells whether a record is sound: 1 if it is not, otherwise 2. */
uint32_t wheeling_close(uint8_t *record, size_t record_bytes, uint8_t *output, size_t output_bytes);

/* Compares a day of readings from two meters on one line, a main and a check meter, and says whose day is to be used: the
 * main meter's if none is missing there, otherwise the check meter's. The day is used whole; the two are not merged.
 *   main_list, check_list  96 numbers each: the readings of the day's blocks in Wh, WHEELING_MISSING for a missing one. Any
 *                          other number is a reading here; the limit of a reading is tested by the block
 *   tolerance              in Wh
 *   output                 2 numbers: the meter whose day is to be used, WHEELING_MAIN_METER or WHEELING_CHECK_METER; in how
 *                          many blocks both readings are present and differ by more than the tolerance, 0 to 96, whichever
 *                          of the two days is to be used
 * It takes no record and changes nothing but the output. Refuses with 2, 17. */
uint32_t wheeling_day(const uint8_t *main_list, size_t main_list_bytes,
                      const uint8_t *check_list, size_t check_list_bytes,
                      uint32_t tolerance,
                      uint8_t *output, size_t output_bytes);

/* ---- Where each figure stands in a record ----
 * The place of a figure's 8 bytes, low byte first: for reading only. Generators g from 0 to 7, consumers c from 0 to 15;
 * places beyond the unit's G or C hold 0. Totals run from the opening on. For each generator injected is the sum of the
 * nine totals that follow it, for each consumer metered that of the five that follow it. */

#define WHEELING_AT_GENERATORS 0u /* G */
#define WHEELING_AT_CONSUMERS 8u  /* C */
#define WHEELING_AT_RATE 16u
#define WHEELING_AT_CYCLE 24u
#define WHEELING_AT_GONE 32u
#define WHEELING_AT_UNIT_BLOCKS 40u  /* blocks entered since the opening */
#define WHEELING_AT_MONTH_BLOCKS 48u /* blocks entered since the last closing */

#define WHEELING_AT_KIND(g) (56u + 24u * (g))
#define WHEELING_AT_INSTALLED(g) (64u + 24u * (g))
#define WHEELING_AT_CONTRACTED(g) (72u + 24u * (g))

#define WHEELING_AT_LINK(g, c) (248u + 128u * (g) + 8u * (c))
#define WHEELING_AT_LOSS_RATE(g, c) (1272u + 128u * (g) + 8u * (c))
#define WHEELING_AT_KW(g, c) (2296u + 128u * (g) + 8u * (c))
#define WHEELING_AT_RANK(g, c) (3320u + 128u * (g) + 8u * (c))

#define WHEELING_AT_INJECTED(g) (4344u + 8u * (g))
#define WHEELING_AT_UNACCOUNTED(g) (4408u + 8u * (g))
#define WHEELING_AT_LOSS(g) (4472u + 8u * (g))
#define WHEELING_AT_SET_OFF(g) (4536u + 8u * (g))
#define WHEELING_AT_INADVERTENT(g) (4600u + 8u * (g))
#define WHEELING_AT_CHARGE(g) (4664u + 8u * (g))
#define WHEELING_AT_DRAWN(g) (4728u + 8u * (g))
#define WHEELING_AT_LAPSED(g) (4792u + 8u * (g))
#define WHEELING_AT_BANK(g) (4856u + 8u * (g))
#define WHEELING_AT_PENDING(g) (4920u + 8u * (g))

#define WHEELING_AT_METERED(c) (4984u + 8u * (c))
#define WHEELING_AT_CONSUMER_SET_OFF(c) (5112u + 8u * (c))
#define WHEELING_AT_SHORTFALL(c) (5240u + 8u * (c))
#define WHEELING_AT_CONSUMER_DRAWN(c) (5368u + 8u * (c))
#define WHEELING_AT_SUPPLIED(c) (5496u + 8u * (c))
#define WHEELING_AT_OPEN(c) (5624u + 8u * (c))

#define WHEELING_AT_SWITCH_MONTH 5752u
#define WHEELING_AT_CLOSINGS 5760u /* closings done since the opening */

/* By class of hours k. All are 0 until the month is kept by hours; then bank, pending and open above are the sums of these. */
#define WHEELING_OFF_PEAK 0u
#define WHEELING_NORMAL 1u
#define WHEELING_PEAK 2u
#define WHEELING_AT_CLASS_BANK(k, g) (5768u + 256u * (k) + 8u * (g))
#define WHEELING_AT_CLASS_PENDING(k, g) (5832u + 256u * (k) + 8u * (g))
#define WHEELING_AT_CLASS_OPEN(k, c) (5896u + 256u * (k) + 8u * (c))

#ifdef __cplusplus
}
#endif

#endif
