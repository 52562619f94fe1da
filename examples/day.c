/* Two meters on one line: takes a day of readings from a main and a check meter of a generator, and prints the day's lines
 * for the journal of host.c, which enters them as blocks.
 *
 *     day TOLERANCE < READINGS >> JOURNAL
 *
 * READINGS has one line for each of the day's 96 blocks: what the main meter read, in Wh, what the check meter read, and
 * then, as they are to stand in the journal, the readings of the consumers. Where a meter gave no reading nothing stands:
 *
 *     66821,66790,14617,3808
 *     ,72940,14197,3148           the main meter's reading is missing
 *
 * One of the two days is printed whole: the main meter's if none of its readings is missing, otherwise the check meter's.
 * Standard error says which of them, and in how many blocks the two differ by more than TOLERANCE Wh: what is to be done
 * about that is the estate's to decide. A day that has not 96 lines is refused with 2, one in which both meters lack a
 * reading with 17. Then, and where something is malformed, nothing is printed and it ends with 1. */
#include <inttypes.h>
#include <stdio.h>
#include <stdlib.h>
#include <string.h>
#include <wheeling.h>

enum { LINES = WHEELING_DAY_BLOCKS + 1, LINE_BYTES = 512 }; /* one line more shows a day that is too long */

struct day {
    size_t lines;
    uint32_t main_day[LINES], check_day[LINES];
    char consumers[LINES][LINE_BYTES]; /* each line after its two readings */
};

static void stop(const char *why)
{
    fprintf(stderr, "day: %s\n", why);
    exit(1);
}

/* ---- Numbers in bytes, low byte first ---- */

static void put_list(uint8_t *bytes, const uint32_t *numbers, size_t count)
{
    for (size_t n = 0; n < 4 * count; n++)
        bytes[n] = (uint8_t)(numbers[n / 4] >> (8 * (n % 4)));
}

static uint64_t get64(const uint8_t *bytes)
{
    uint64_t number = 0;
    for (int n = 7; n >= 0; n--)
        number = number << 8 | bytes[n];
    return number;
}

/* ---- What goes in ---- */

/* Reads a number of at most `most` that ends before `until`, and gives what follows. Anything else ends the program. */
static const char *read_number(const char *text, char until, uint32_t most, uint32_t *number)
{
    char *end;
    unsigned long long value = strtoull(text, &end, 10); /* takes spaces and signs too */
    if (text[0] < '0' || text[0] > '9' || *end != until || value > most)
        stop("malformed number");
    *number = (uint32_t)value;
    return until == '\0' ? end : end + 1;
}

/* The number that marks a missing reading is none of a meter's. */
static const char *read_reading(const char *text, uint32_t *reading)
{
    *reading = WHEELING_MISSING;
    return text[0] == ',' ? text + 1 : read_number(text, ',', WHEELING_MISSING - 1, reading);
}

static void read_day(struct day *day)
{
    char line[LINE_BYTES];
    while (day->lines < LINES && fgets(line, sizeof line, stdin) != NULL) {
        const char *rest = read_reading(line, &day->main_day[day->lines]);
        rest = read_reading(rest, &day->check_day[day->lines]);
        if (strchr(rest, '\n') == NULL)
            stop("a line is too long, or has no line feed");
        strcpy(day->consumers[day->lines], rest);
        day->lines++;
    }
    if (ferror(stdin))
        stop("the readings cannot be read");
}

/* ---- What comes out ---- */

static const uint32_t *day_to_use(const struct day *day, uint32_t tolerance)
{
    uint8_t main_list[4 * LINES], check_list[4 * LINES], output[WHEELING_DAY_OUTPUT_BYTES];
    put_list(main_list, day->main_day, day->lines);
    put_list(check_list, day->check_day, day->lines);
    uint32_t number = wheeling_day(main_list, 4 * day->lines, check_list, 4 * day->lines, tolerance,
                                   output, sizeof output);
    if (number != WHEELING_ACCEPTED) {
        fprintf(stderr, "day: refused %" PRIu32 "\n", number);
        exit(1);
    }
    int from_main = get64(output) == WHEELING_MAIN_METER;
    fprintf(stderr, "day: %s meter, %" PRIu64 " blocks apart\n", from_main ? "main" : "check", get64(output + 8));
    return from_main ? day->main_day : day->check_day;
}

int main(int argc, char **argv)
{
    static struct day day;
    uint32_t tolerance;
    if (argc != 2) {
        fprintf(stderr, "usage: day TOLERANCE < READINGS >> JOURNAL\n");
        return 2;
    }
    read_number(argv[1], '\0', UINT32_MAX, &tolerance);
    read_day(&day);
    const uint32_t *readings = day_to_use(&day, tolerance);
    for (size_t block = 0; block < day.lines; block++)
        printf("%" PRIu32 ",%s", readings[block], day.consumers[block]);
    if (fflush(stdout) != 0)
        stop("the journal cannot be written");
    return 0;
}
