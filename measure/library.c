/*
 * How fast the library is beside a plain C implementation of the same algorithm (baseline.c). Each
 * line has the time of one call on both sides and the ratio baseline / library: 1.00 is the same
 * speed, more is a faster library. Not a test: it says nothing about what is right, and a slow run
 * fails nothing.
 *
 *   library                    prints the lines
 *   library ROW SIDE CALLS     for counting instructions: makes so many calls of one line's work on
 *                              one side (0 the baseline, 1 the library) and prints what work it is;
 *                              past the last row it prints nothing
 *
 * Both sides take turns, round by round, within one run; the best round of each counts, since what
 * else the machine does can only make a round slower. No call waits for the result of the one
 * before, so calls on 8 bytes overlap within the processor, and where a function happens to lie in
 * memory moves their ratio by some hundredths.
 */
#define _POSIX_C_SOURCE 199309L

#include <stdio.h>
#include <stdlib.h>
#include <string.h>
#include <time.h>

#include "baseline.h"
#include "trelvox.h"

enum { ROUNDS = 400, ROUND_NANOSECONDS = 250000, LONGEST = 4096, DATA = 255 };

static uint8_t bytes[LONGEST];
static uint8_t packet[TRELVOX_LONGEST_PACKET];

/* Every result goes here, so that no call can be left out. */
static volatile uint64_t sink;

/* ---- What is timed: `calls` calls in a row, by the same loop for both sides ------------------ */

struct side {
    uint16_t (*crc16)(const uint8_t *bytes, size_t length);
    uint8_t (*crc8)(const uint8_t *bytes, size_t length);
    uint8_t (*form_write_read)(uint32_t address, const uint8_t *data, size_t data_length,
                               uint32_t count, uint8_t *buffer, size_t buffer_length);
    uint32_t (*read)(const uint8_t *packet, size_t length, size_t *parts);
};

static const struct side baseline = {
    baseline_crc16, baseline_crc8, baseline_form_write_read, baseline_read,
};

static const struct side library = {
    trelvox_crc16, trelvox_crc8, trelvox_form_write_read, trelvox_read,
};

typedef void (*work)(const struct side *side, size_t length, unsigned long calls);

static void crc16_work(const struct side *side, size_t length, unsigned long calls)
{
    uint64_t sum = 0;
    while (calls-- > 0)
        sum += side->crc16(bytes, length);
    sink = sum;
}

static void crc8_work(const struct side *side, size_t length, unsigned long calls)
{
    uint64_t sum = 0;
    while (calls-- > 0)
        sum += side->crc8(bytes, length);
    sink = sum;
}

static void form_work(const struct side *side, size_t length, unsigned long calls)
{
    uint8_t buffer[TRELVOX_LONGEST_PACKET];
    uint64_t sum = 0;
    while (calls-- > 0) {
        sum += side->form_write_read(0x20, bytes, DATA, 255, buffer, length);
        sum += buffer[length - 1];
    }
    sink = sum;
}

static void read_work(const struct side *side, size_t length, unsigned long calls)
{
    size_t parts[TRELVOX_PARTS];
    uint64_t sum = 0;
    while (calls-- > 0) {
        sum += side->read(packet, length, parts);
        sum += parts[TRELVOX_PART_LENGTH];
    }
    sink = sum;
}

/* ---- Time ------------------------------------------------------------------------------------ */

static double nanoseconds(work work, const struct side *side, size_t length, unsigned long calls)
{
    struct timespec before, after;
    clock_gettime(CLOCK_MONOTONIC, &before);
    work(side, length, calls);
    clock_gettime(CLOCK_MONOTONIC, &after);
    return 1e9 * (double)(after.tv_sec - before.tv_sec) + (double)(after.tv_nsec - before.tv_nsec);
}

/* So many calls that a round of them takes long beside reading the clock. */
static unsigned long calls_in_a_round(work work, size_t length)
{
    unsigned long calls = 1;
    while (nanoseconds(work, &baseline, length, calls) < ROUND_NANOSECONDS)
        calls *= 2;
    return calls;
}

static void keep_best(double *best, double time)
{
    if (*best == 0 || time < *best)
        *best = time;
}

/* Prints one line and gives back its ratio. */
static double compare(const char *what, size_t length, work work)
{
    double baseline_best = 0, library_best = 0;
    unsigned long calls = calls_in_a_round(work, length);
    for (int round = 0; round < ROUNDS; round++) {
        keep_best(&baseline_best, nanoseconds(work, &baseline, length, calls));
        keep_best(&library_best, nanoseconds(work, &library, length, calls));
    }
    double ratio = baseline_best / library_best;
    printf("%-20s %5lu bytes %10.1f ns %10.1f ns %8.2f\n", what, (unsigned long)length,
           baseline_best / (double)calls, library_best / (double)calls, ratio);
    return ratio;
}

/* ---- Both sides must do the same work -------------------------------------------------------- */

static void must_agree(int agree, const char *what)
{
    if (agree)
        return;
    printf("library and baseline differ: %s\n", what);
    exit(1);
}

static void check_agreement(void)
{
    uint8_t other[TRELVOX_LONGEST_PACKET];
    size_t ours[TRELVOX_PARTS], theirs[TRELVOX_PARTS];
    must_agree(trelvox_crc16(bytes, LONGEST) == baseline_crc16(bytes, LONGEST), "CRC-16");
    must_agree(trelvox_crc8(bytes, LONGEST) == baseline_crc8(bytes, LONGEST), "CRC-8");
    must_agree(trelvox_form_write_read(0x20, bytes, DATA, 255, packet, sizeof packet) == 0 &&
                   baseline_form_write_read(0x20, bytes, DATA, 255, other, sizeof other) == 0 &&
                   memcmp(packet, other, sizeof packet) == 0,
               "forming");
    must_agree(trelvox_read(packet, sizeof packet, ours) == 0 &&
                   baseline_read(packet, sizeof packet, theirs) == 0 &&
                   memcmp(ours, theirs, sizeof ours) == 0,
               "reading");
    for (size_t length = 0; length < sizeof packet; length++)
        must_agree(trelvox_read(packet, length, ours) == baseline_read(packet, length, theirs),
                   "reading a part");
}

/* ---- The table ------------------------------------------------------------------------------- */

static const struct row {
    const char *what;
    size_t length;
    work work;
} rows[] = {
    {"CRC-16", 8, crc16_work},
    {"CRC-16", 261, crc16_work},
    {"CRC-16", 4096, crc16_work},
    {"CRC-8", 8, crc8_work},
    {"CRC-8", 261, crc8_work},
    {"CRC-8", 4096, crc8_work},
    {"forming a write-read", TRELVOX_LONGEST_PACKET, form_work},
    {"reading it", TRELVOX_LONGEST_PACKET, read_work},
};

enum { ROWS = sizeof rows / sizeof *rows };

static void print_times(void)
{
    double lowest = 1e9;
    printf("%-32s %13s %13s %8s\n", "", "baseline", "library", "ratio");
    for (int i = 0; i < ROWS; i++) {
        double ratio = compare(rows[i].what, rows[i].length, rows[i].work);
        lowest = ratio < lowest ? ratio : lowest;
    }
    printf("lowest ratio %.2f (baseline time / library time; aim 0.95 or more, but for the CRC-8)\n", lowest);
}

static unsigned long number(const char *word)
{
    return strtoul(word, NULL, 10);
}

static void call(const struct row *row, const struct side *side, unsigned long calls)
{
    row->work(side, row->length, calls);
    printf("%-20s %5lu bytes\n", row->what, (unsigned long)row->length);
}

int main(int count, char **words)
{
    baseline_start();
    for (size_t i = 0; i < LONGEST; i++)
        bytes[i] = (uint8_t)(131 * i + (i >> 5));
    check_agreement();
    if (count != 4)
        print_times();
    else if (number(words[1]) < ROWS)
        call(&rows[number(words[1])], number(words[2]) ? &library : &baseline, number(words[3]));
    return 0;
}
