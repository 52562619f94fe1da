/* A small host: keeps the energy account of one unit in a file.
 *
 *     host RECORD < JOURNAL
 *
 * RECORD is the file of the unit's record. Where there is none yet, agreement A of document 01 is opened. Until the first
 * block is entered, A's schedule is entered at each start, whatever stands. JOURNAL has all readings since the opening,
 * as document 01's readings table: a line of names, then a line of values for each block; a line `close` stands where a
 * month ends. What the record holds already is passed over, so the host may be started again on the same journal, or on
 * one that has grown. At the end it prints the equations of generators and consumers. It ends with 1 and a message where
 * a call was refused or something failed. A file of 5,752 bytes is a record of the former library, which this host does not
 * take: without that file it opens the unit anew and enters the whole journal.
 *
 * What a power cut can do: after each accepted call the record is written to a new file in the same folder, that file is
 * synced and renamed over the old one, and the folder is synced. Only then does the host act on the call: goes on, or
 * prints.
 *   - RECORD is always whole: it is the record of the last call that the host acted on, or of the one that was being
 *     saved when the power went. No call that was acted on is lost.
 *   - A call whose new record had not reached the disk is as if not made. The host makes it again from the journal: the
 *     record's count of unit blocks tells which line comes next, its count of month blocks whether the month is closed,
 *     and the calls give the same record for the same input. Entering the first schedule again changes nothing.
 * Not promised: the journal, which is another's to keep; the outputs of calls, which are in no file; anything where the
 * file system does not rename in one step, or a disk reports as written what is not; two hosts on one RECORD at a time.
 * The file has no checksum: bytes that change on the disk are noticed where they break a rule of the record (number 1),
 * else not. */
#define _POSIX_C_SOURCE 200809L
#include <errno.h>
#include <fcntl.h>
#include <inttypes.h>
#include <stdio.h>
#include <stdlib.h>
#include <string.h>
#include <unistd.h>
#include <wheeling.h>

enum { PATH_BYTES = 4096, LINE_BYTES = 512 }; /* the longest line of a journal has 24 values of 10 digits */

struct unit {
    const char *path;
    char new_path[PATH_BYTES + sizeof ".new"];
    int folder; /* the open folder of both paths */
    uint8_t record[WHEELING_RECORD_BYTES];
};

/* ---- Numbers in bytes, low byte first ---- */

static void put32(uint8_t *bytes, uint32_t number)
{
    for (int n = 0; n < 4; n++)
        bytes[n] = (uint8_t)(number >> (8 * n));
}

static void put_list(uint8_t *bytes, const uint32_t *numbers, size_t count)
{
    for (size_t n = 0; n < count; n++)
        put32(bytes + 4 * n, numbers[n]);
}

static uint64_t get64(const uint8_t *bytes)
{
    uint64_t number = 0;
    for (int n = 7; n >= 0; n--)
        number = number << 8 | bytes[n];
    return number;
}

static uint64_t figure(const struct unit *unit, size_t place) { return get64(unit->record + place); }
static unsigned generators(const struct unit *unit) { return (unsigned)figure(unit, WHEELING_AT_GENERATORS); }
static unsigned consumers(const struct unit *unit) { return (unsigned)figure(unit, WHEELING_AT_CONSUMERS); }

/* ---- The record's file ---- */

static void stop(const char *where, const char *why)
{
    fprintf(stderr, "host: %s: %s\n", where, why);
    exit(1);
}

static void set_path(struct unit *unit, const char *path)
{
    char folder[PATH_BYTES] = ".";
    const char *slash = strrchr(path, '/');
    if (strlen(path) >= PATH_BYTES)
        stop(path, "the path is too long");
    if (slash != NULL)
        sprintf(folder, "%.*s", (int)(slash + 1 - path), path);
    sprintf(unit->new_path, "%s.new", path);
    unit->path = path;
    unit->folder = open(folder, O_RDONLY);
    if (unit->folder < 0)
        stop(folder, strerror(errno));
}

/* Gives 0 where there is no file yet. A file that is no sound record is not touched: the host does not start. */
static int load(struct unit *unit)
{
    uint8_t bytes[WHEELING_RECORD_BYTES + 1]; /* one more shows a file that is too long */
    size_t length = 0;
    ssize_t got;
    int file = open(unit->path, O_RDONLY);
    if (file < 0 && errno == ENOENT)
        return 0;
    if (file < 0)
        stop(unit->path, strerror(errno));
    while ((got = read(file, bytes + length, sizeof bytes - length)) > 0)
        length += (size_t)got;
    if (got < 0 || close(file) != 0)
        stop(unit->path, strerror(errno));
    if (length != WHEELING_RECORD_BYTES)
        stop(unit->path, "not the size of a record");
    memcpy(unit->record, bytes, WHEELING_RECORD_BYTES);
    /* A closing without output changes nothing and tells whether the record is sound. */
    if (wheeling_close(unit->record, sizeof unit->record, NULL, 0) == WHEELING_NOT_SOUND)
        stop(unit->path, "refused 1: not a sound record");
    /* The earlier host may have ended between its rename and the sync of the folder. */
    if (fsync(unit->folder) != 0)
        stop(unit->path, strerror(errno));
    return 1;
}

static void save(const struct unit *unit)
{
    int file = open(unit->new_path, O_WRONLY | O_CREAT | O_TRUNC, 0644);
    if (file < 0)
        stop(unit->new_path, strerror(errno));
    for (size_t done = 0; done < sizeof unit->record;) {
        ssize_t written = write(file, unit->record + done, sizeof unit->record - done);
        if (written <= 0)
            stop(unit->new_path, strerror(errno));
        done += (size_t)written;
    }
    if (fsync(file) != 0 || close(file) != 0)
        stop(unit->new_path, strerror(errno));
    if (rename(unit->new_path, unit->path) != 0 || fsync(unit->folder) != 0)
        stop(unit->path, strerror(errno));
}

/* After each call: a refusal ends the host, an accepted call is acted on once it is saved. */
static void after_call(const struct unit *unit, uint32_t number, const char *what)
{
    if (number != WHEELING_ACCEPTED) {
        fprintf(stderr, "host: %s: refused %" PRIu32 "\n", what, number);
        exit(1);
    }
    save(unit);
}

/* ---- Agreement A of document 01 ---- */

static void open_unit(struct unit *unit)
{
    static const uint32_t generator[] = {1, 1000, 800}; /* wind; installed and contracted kW */
    static const uint32_t pairs[] = {1, 1, 1000, 500};  /* links, then losses */
    uint8_t generator_list[WHEELING_GENERATOR_LIST_BYTES(1)], pair_list[WHEELING_PAIR_LIST_BYTES(1, 2)];
    put_list(generator_list, generator, 3);
    put_list(pair_list, pairs, 4);
    uint32_t number = wheeling_open(1, 2, 1000, 2, 0, 0, generator_list, sizeof generator_list,
                                    pair_list, sizeof pair_list, unit->record, sizeof unit->record);
    after_call(unit, number, "opening");
}

static void enter_schedule(struct unit *unit)
{
    static const uint32_t kw[] = {100, 200}, ranks[] = {1, 1};
    uint8_t kw_list[WHEELING_KW_LIST_BYTES(1, 2)], rank_list[WHEELING_RANK_LIST_BYTES(1, 2)];
    put_list(kw_list, kw, 2);
    put_list(rank_list, ranks, 2);
    uint32_t number = wheeling_schedule(unit->record, sizeof unit->record, kw_list, sizeof kw_list,
                                        rank_list, sizeof rank_list);
    after_call(unit, number, "schedule");
}

/* ---- The journal ---- */

static void write_names(const struct unit *unit, char *line)
{
    for (unsigned g = 1; g <= generators(unit); g++)
        line += sprintf(line, "E%u,", g);
    for (unsigned c = 1; c <= consumers(unit); c++)
        line += sprintf(line, "R%u%c", c, c < consumers(unit) ? ',' : '\n');
}

/* Gives 0 where the line is not `count` values of 32 bits, without leading zeros, with commas and a line feed. */
static int read_values(const char *line, uint8_t *values, unsigned count)
{
    for (unsigned n = 0; n < count; n++) {
        char *end;
        unsigned long long value = strtoull(line, &end, 10); /* takes spaces and signs too */
        if (line[0] < '0' || line[0] > '9' || (line[0] == '0' && end != line + 1) || value > UINT32_MAX)
            return 0;
        if (*end != (n + 1 < count ? ',' : '\n'))
            return 0;
        put32(values + 4 * n, (uint32_t)value);
        line = end + 1;
    }
    return *line == '\0';
}

/* The values of one line: entry readings first, then exit readings. */
static void enter_block(struct unit *unit, const uint8_t *values, const char *where)
{
    static uint8_t output[WHEELING_MOST_BLOCK_OUTPUT_BYTES];
    unsigned g = generators(unit), c = consumers(unit);
    const uint8_t *exit_list = values + WHEELING_ENTRY_LIST_BYTES(g);
    uint32_t number = wheeling_block(unit->record, sizeof unit->record, values, WHEELING_ENTRY_LIST_BYTES(g),
                                     exit_list, WHEELING_EXIT_LIST_BYTES(c),
                                     output, WHEELING_BLOCK_OUTPUT_BYTES(g, c));
    after_call(unit, number, where);
}

static void close_month(struct unit *unit, const char *where)
{
    static uint8_t output[WHEELING_MOST_CLOSE_OUTPUT_BYTES];
    unsigned g = generators(unit), c = consumers(unit);
    uint32_t number = wheeling_close(unit->record, sizeof unit->record, output, WHEELING_CLOSE_OUTPUT_BYTES(g, c));
    after_call(unit, number, where);
}

static void follow_journal(struct unit *unit)
{
    uint8_t values[WHEELING_MOST_ENTRY_LIST_BYTES + WHEELING_MOST_EXIT_LIST_BYTES];
    char line[LINE_BYTES], names[LINE_BYTES], where[64];
    uint64_t blocks = 0; /* of the journal so far */

    write_names(unit, names);
    if (fgets(line, sizeof line, stdin) == NULL || strcmp(line, names) != 0)
        stop("journal", "the line of names differs");
    for (unsigned long number = 2; fgets(line, sizeof line, stdin) != NULL; number++) {
        uint64_t entered = figure(unit, WHEELING_AT_UNIT_BLOCKS);
        sprintf(where, "journal, line %lu", number);
        if (strcmp(line, "close\n") == 0) {
            /* A month that holds no block was closed before the host was started again, or by a `close` just before. */
            if (blocks == entered && figure(unit, WHEELING_AT_MONTH_BLOCKS) > 0)
                close_month(unit, where);
        } else if (!read_values(line, values, generators(unit) + consumers(unit))) {
            stop(where, "malformed");
        } else if (++blocks > entered) {
            enter_block(unit, values, where);
        }
    }
    if (ferror(stdin))
        stop("journal", strerror(errno));
    if (blocks < figure(unit, WHEELING_AT_UNIT_BLOCKS))
        stop("journal", "it has fewer blocks than the record");
}

/* ---- What is printed ---- */

static void print_table(const struct unit *unit, const char *names, unsigned rows, const size_t *terms, size_t count)
{
    printf("%s\n", names);
    for (unsigned row = 0; row < rows; row++) {
        printf("%u", row + 1);
        for (size_t n = 0; n < count; n++)
            printf(",%" PRIu64, figure(unit, terms[n] + 8 * row));
        printf("\n");
    }
}

static void print_equations(const struct unit *unit)
{
    static const size_t generator[] = {
        WHEELING_AT_INJECTED(0), WHEELING_AT_UNACCOUNTED(0), WHEELING_AT_LOSS(0), WHEELING_AT_SET_OFF(0),
        WHEELING_AT_INADVERTENT(0), WHEELING_AT_CHARGE(0), WHEELING_AT_DRAWN(0), WHEELING_AT_LAPSED(0),
        WHEELING_AT_BANK(0), WHEELING_AT_PENDING(0)};
    static const size_t consumer[] = {
        WHEELING_AT_METERED(0), WHEELING_AT_CONSUMER_SET_OFF(0), WHEELING_AT_SHORTFALL(0),
        WHEELING_AT_CONSUMER_DRAWN(0), WHEELING_AT_SUPPLIED(0), WHEELING_AT_OPEN(0)};
    print_table(unit, "generator,injected,unaccounted,loss,setoff,inadvertent,charge,drawn,lapsed,bank,pending",
                generators(unit), generator, sizeof generator / sizeof *generator);
    print_table(unit, "consumer,metered,setoff,shortfall,drawn,supplied,open",
                consumers(unit), consumer, sizeof consumer / sizeof *consumer);
    if (fflush(stdout) != 0 || ferror(stdout))
        stop("standard output", strerror(errno));
}

int main(int argc, char **argv)
{
    static struct unit unit;
    if (argc != 2) {
        fprintf(stderr, "usage: host RECORD < JOURNAL\n");
        return 2;
    }
    set_path(&unit, argv[1]);
    if (!load(&unit))
        open_unit(&unit);
    if (figure(&unit, WHEELING_AT_UNIT_BLOCKS) == 0)
        enter_schedule(&unit);
    follow_journal(&unit);
    print_equations(&unit);
    return 0;
}
