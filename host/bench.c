/*
 * What a verdict costs: the checker beside the slot-by-slot reference and
 * the event-driven verdict in C, all built with the same flags and timed in
 * the same run, best of several repetitions. No timing decides anything; the
 * replies have to agree.
 *
 *     bench
 *     bench --once N    one verdict of table N, from 1, in each column, and
 *                       nothing timed: for a tool that counts instructions
 *                       (host/instructions.sh)
 */
#define _POSIX_C_SOURCE 199309L

#include "event.h"
#include "sides.h"
#include "tables.h"

#include <inttypes.h>
#include <stdio.h>
#include <stdlib.h>
#include <string.h>
#include <time.h>

enum { REPETITIONS = 15, POLICIES = 4 };

/* A repetition calls so often that it lasts about this long. */
static const double repetition_ns = 4e6;
/* If one call lasts longer than this, there is one repetition. */
static const double long_call_ns = 1e8;

static const uint64_t allowance = (uint64_t)1 << 48;
static const uint64_t keystroke_allowance = 10000000;

/* ---- The columns ---- */

typedef struct ref_reply verdict_function(uint32_t policy, uint64_t allowance,
                                          const uint8_t *text, size_t text_len);

enum { OTTER, REFERENCE, EVENT, COLUMNS };

static verdict_function *verdict_of(int column)
{
    verdict_function *const verdicts[COLUMNS] = { otter_side.verdict, reference_side.verdict,
                                                  event_verdict };
    return verdicts[column];
}

/* ---- The tables ---- */

struct bench_table {
    const char *name;
    uint32_t policy;
    size_t count;
    const struct ref_row *rows;
};

static const struct ref_row one_row[] = { { 1, 0, 3, 10, 10, 1, 1, 1 } };

static const struct ref_row first_worked[] = { { 1, 0, 2, 5, 5, 1, 1, 1 },
                                               { 2, 0, 3, 20, 20, 1, 1, 2 } };

static const struct ref_row four_rows[] = {
    { 1, 0, 8, 40, 40, 2, 1, 1 },    { 2, 5, 15, 100, 100, 3, 2, 2 },
    { 3, 11, 40, 250, 250, 4, 2, 3 }, { 4, 0, 90, 1000, 1000, 5, 3, 4 },
};

static const struct ref_row eight_rows[] = {
    { 1, 0, 6, 50, 50, 1, 1, 1 },      { 2, 3, 9, 80, 80, 1, 1, 2 },
    { 3, 7, 10, 100, 100, 2, 1, 3 },   { 4, 20, 18, 200, 200, 2, 1, 4 },
    { 5, 0, 30, 400, 500, 3, 2, 5 },   { 6, 41, 60, 900, 1000, 3, 2, 6 },
    { 7, 0, 90, 2000, 2000, 3, 2, 7 }, { 8, 99, 300, 9000, 10000, 5, 5, 8 },
};

/* Periods without a common divisor. */
static const struct ref_row coprime[] = { { 1, 0, 9, 32, 32, 1, 1, 1 },
                                          { 2, 0, 900, 3125, 3125, 5, 2, 2 } };

static const struct ref_row every_slot_one[] = { { 1, 0, 1, 1, 1, 0, 0, 1 } };

static const struct ref_row every_slot_three[] = { { 1, 0, 1, 2, 2, 0, 0, 1 },
                                                   { 2, 1, 9, 32, 32, 0, 0, 2 },
                                                   { 3, 0, 600, 3125, 3125, 0, 0, 3 } };

static const struct ref_row every_slot[] = {
    { 1, 0, 1, 16, 16, 0, 0, 1 },    { 2, 1, 1, 16, 16, 0, 0, 2 },
    { 3, 2, 1, 16, 16, 0, 0, 3 },    { 4, 3, 1, 16, 16, 0, 0, 4 },
    { 5, 4, 1, 16, 16, 0, 0, 5 },    { 6, 5, 1, 16, 16, 0, 0, 6 },
    { 7, 6, 1, 16, 16, 0, 0, 7 },    { 8, 7, 1, 16, 16, 0, 0, 8 },
    { 9, 8, 1, 16, 16, 0, 0, 9 },    { 10, 9, 1, 16, 16, 0, 0, 10 },
    { 11, 10, 1, 16, 16, 0, 0, 11 }, { 12, 11, 1, 16, 16, 0, 0, 12 },
    { 13, 12, 1, 16, 16, 0, 0, 13 }, { 14, 13, 1, 16, 16, 0, 0, 14 },
    { 15, 14, 1, 32, 32, 0, 0, 15 }, { 16, 15, 150, 3125, 3125, 0, 0, 16 },
};

static const struct ref_row mixed[] = {
    { 1, 0, 3, 32, 32, 1, 1, 1 },          { 2, 0, 4, 100, 100, 1, 1, 2 },
    { 3, 7, 8, 125, 125, 1, 1, 3 },        { 4, 0, 10, 200, 200, 2, 1, 4 },
    { 5, 31, 10, 250, 250, 2, 1, 5 },      { 6, 0, 20, 400, 400, 2, 1, 6 },
    { 7, 0, 20, 500, 500, 2, 1, 7 },       { 8, 90, 20, 625, 625, 2, 1, 8 },
    { 9, 0, 30, 800, 800, 2, 1, 9 },       { 10, 0, 30, 1000, 1000, 2, 1, 10 },
    { 11, 0, 30, 1250, 1250, 3, 2, 11 },   { 12, 500, 40, 2000, 2000, 3, 2, 12 },
    { 13, 0, 40, 2500, 2500, 3, 2, 13 },   { 14, 0, 50, 3125, 3125, 3, 2, 14 },
    { 15, 0, 80, 5000, 5000, 3, 2, 15 },   { 16, 0, 200, 10000, 10000, 9, 5, 16 },
};

static const struct ref_row long_periods_four[] = {
    { 1, 0, 200, 1000, 1000, 10, 10, 1 }, { 2, 0, 300, 2500, 2500, 10, 10, 2 },
    { 3, 0, 500, 3125, 3125, 10, 10, 3 }, { 4, 0, 900, 4000, 4000, 20, 10, 4 },
};

static const struct ref_row long_periods[] = {
    { 1, 0, 50, 1000, 1000, 5, 5, 1 },      { 2, 10, 50, 1000, 1000, 5, 5, 2 },
    { 3, 0, 60, 1250, 1250, 5, 5, 3 },      { 4, 0, 90, 2000, 2000, 5, 5, 4 },
    { 5, 70, 90, 2000, 2000, 5, 5, 5 },     { 6, 0, 100, 2500, 2500, 5, 5, 6 },
    { 7, 0, 120, 3125, 3125, 5, 5, 7 },     { 8, 0, 150, 4000, 4000, 5, 5, 8 },
    { 9, 900, 150, 4000, 4000, 5, 5, 9 },   { 10, 0, 200, 5000, 5000, 5, 5, 10 },
    { 11, 0, 200, 5000, 5000, 5, 5, 11 },   { 12, 0, 250, 6250, 6250, 5, 5, 12 },
    { 13, 0, 250, 6250, 6250, 5, 5, 13 },   { 14, 0, 400, 10000, 10000, 5, 5, 14 },
    { 15, 0, 400, 10000, 10000, 5, 5, 15 }, { 16, 0, 400, 10000, 10000, 5, 5, 16 },
};

/* Named after the least k at which the state repeats. */
static const struct ref_row k_two[] = { { 1, 0, 1, 6, 6, 1, 0, 1 }, { 2, 2, 2, 3, 3, 0, 0, 2 } };

static const struct ref_row k_hundreds[] = { { 1, 3290, 5296, 10000, 10000, 1, 1, 1 },
                                             { 2, 9070, 2819, 10000, 10000, 1, 1, 2 },
                                             { 3, 1503, 470, 2500, 2500, 0, 0, 3 } };

static const struct ref_row k_thousands[] = { { 1, 4305, 4704, 10000, 10000, 1, 1, 1 },
                                              { 2, 9061, 4200, 10000, 10000, 1, 0, 2 },
                                              { 3, 723, 109, 1000, 1000, 0, 0, 3 } };

/* Every time of it is multiplied. */
static const struct ref_row to_stretch[] = {
    { 1, 0, 1, 4, 5, 1, 1, 1 },   { 2, 1, 1, 5, 5, 0, 0, 2 },
    { 3, 3, 1, 10, 10, 1, 1, 3 }, { 4, 0, 1, 10, 10, 0, 0, 4 },
};
static const uint32_t stretch_factors[] = { 1, 10, 100, 1000 };

#define ROWS(rows) sizeof rows / sizeof rows[0], rows

static const struct bench_table tables[] = {
    { "one row", 1, ROWS(one_row) },
    { "the first worked table", 4, ROWS(first_worked) },
    { "k = 2", 4, ROWS(k_two) },
    { "four rows, fixed", 1, ROWS(four_rows) },
    { "four rows, earliest deadline", 4, ROWS(four_rows) },
    { "eight rows, fixed", 1, ROWS(eight_rows) },
    { "eight rows, earliest deadline", 4, ROWS(eight_rows) },
    { "periods 32 and 3,125", 1, ROWS(coprime) },
    { "an event each slot, one row", 1, ROWS(every_slot_one) },
    { "an event each slot, three rows", 4, ROWS(every_slot_three) },
    { "an event each slot, fixed", 1, ROWS(every_slot) },
    { "an event each slot, earliest", 4, ROWS(every_slot) },
    { "16 rows, fixed", 1, ROWS(mixed) },
    { "16 rows, earliest deadline", 4, ROWS(mixed) },
    { "periods from 1,000, four rows", 1, ROWS(long_periods_four) },
    { "periods from 1,000, fixed", 1, ROWS(long_periods) },
    { "periods from 1,000, earliest", 4, ROWS(long_periods) },
    { "k = 712", 4, ROWS(k_hundreds) },
    { "k = 3,468", 4, ROWS(k_thousands) },
};
enum { TABLES = sizeof tables / sizeof tables[0] };

static void stretch(struct ref_row *row, uint32_t factor)
{
    row->offset *= factor;
    row->wcet *= factor;
    row->deadline *= factor;
    row->period *= factor;
    row->start *= factor;
    row->resume *= factor;
}

/* ---- Timing ---- */

/* Processor time: other programs on the machine do not count. */
static double now_ns(void)
{
    struct timespec now;
    clock_gettime(CLOCK_PROCESS_CPUTIME_ID, &now);
    return (double)now.tv_sec * 1e9 + (double)now.tv_nsec;
}

/* Kept where the compiler cannot know that nobody looks at it. */
static volatile uint64_t seen;

static double time_calls(verdict_function *verdict, uint32_t policy, uint64_t limit,
                         const struct text *text, uint64_t calls)
{
    double before = now_ns();
    for (uint64_t i = 0; i < calls; i++)
        seen = verdict(policy, limit, text->bytes, text->length).number;
    return (now_ns() - before) / (double)calls;
}

/* The least time of one call in each column. The columns take turns, so that
 * a busy moment of the machine meets all of them. */
static void best_times(uint32_t policy, uint64_t limit, const struct text *text,
                       double best[COLUMNS])
{
    int repetitions = REPETITIONS;
    for (int column = 0; column < COLUMNS; column++) {
        best[column] = time_calls(verdict_of(column), policy, limit, text, 1);
        if (best[column] > long_call_ns)
            repetitions = 1;
    }
    for (int turn = 0; turn < repetitions * COLUMNS; turn++) {
        int column = turn % COLUMNS;
        double one = best[column];
        uint64_t calls = one < repetition_ns ? (uint64_t)(repetition_ns / one) + 1 : 1;
        double time = time_calls(verdict_of(column), policy, limit, text, calls);
        if (time < one)
            best[column] = time;
    }
}

/* ---- Verdicts ---- */

static int differences;

static struct ref_reply agreed_verdict(const struct bench_table *table, const struct text *text,
                                       uint64_t *events)
{
    struct ref_reply reply = event_verdict_counted(table->policy, allowance, text->bytes,
                                                   text->length, events);
    for (int column = 0; column < COLUMNS; column++) {
        struct ref_reply other = verdict_of(column)(table->policy, allowance,
                                                    text->bytes, text->length);
        if (!equal_replies(reply, other)) {
            differences++;
            printf("%s: the replies differ: %s and %s\n", table->name, reply_words(reply),
                   reply_words(other));
        }
    }
    return reply;
}

static void print_heading(void)
{
    printf("%-31s %4s %6s %6s %9s %9s | %9s %9s %9s | %7s %7s | %8s\n", "", "", "", "", "", "",
           "ns/slot", "ns/slot", "ns/slot", "by slot", "checker", "checker");
    printf("%-31s %4s %6s %6s %9s %9s | %9s %9s %9s | %7s %7s | %8s\n", "table", "rows", "policy",
           "H", "slots", "events", "checker", "by slot", "by event", "/checkr", "/event", "ev/us");
}

/* The largest time of the checker by that of the event-driven verdict. */
static double largest_ratio;

/* Returns what a verdict of the checker takes, in ns. */
static double bench(const struct bench_table *table)
{
    struct text text;
    struct ref_table read;
    uint64_t events;
    double ns[COLUMNS];
    write_text(&text, table->rows, table->count, plain_writing);
    ref_read(table->policy, text.bytes, text.length, &read);
    struct ref_reply reply = agreed_verdict(table, &text, &events);
    double slots = (double)reply.number;
    best_times(table->policy, allowance, &text, ns);
    printf("%-31s %4zu %6" PRIu32 " %6" PRIu64 " %9" PRIu64 " %9" PRIu64
           " | %9.4f %9.4f %9.4f | %7.2f %7.2f | %8.2f\n",
           table->name, table->count, table->policy, read.hyper_period, reply.number, events,
           ns[OTTER] / slots, ns[REFERENCE] / slots, ns[EVENT] / slots,
           ns[REFERENCE] / ns[OTTER], ns[OTTER] / ns[EVENT], (double)events * 1e3 / ns[OTTER]);
    if (ns[OTTER] / ns[EVENT] > largest_ratio)
        largest_ratio = ns[OTTER] / ns[EVENT];
    return ns[OTTER];
}

static double bench_stretched(uint32_t factor)
{
    char name[40];
    struct ref_row rows[REF_ROWS_MOST];
    struct bench_table table = { name, REF_ABSOLUTE_DEADLINE, ROWS(to_stretch) };
    memcpy(rows, to_stretch, sizeof to_stretch);
    for (size_t i = 0; i < table.count; i++)
        stretch(&rows[i], factor);
    table.rows = rows;
    snprintf(name, sizeof name, "stretched by %" PRIu32, factor);
    return bench(&table);
}

/* ---- A keystroke: the four verdicts that the table program prints ---- */

static void bench_keystroke(const struct bench_table *table)
{
    struct text text;
    uint64_t all_events = 0;
    double ns[COLUMNS] = { 0 }, one[COLUMNS];
    write_text(&text, table->rows, table->count, plain_writing);
    for (uint32_t policy = 1; policy <= POLICIES; policy++) {
        uint64_t events;
        event_verdict_counted(policy, keystroke_allowance, text.bytes, text.length, &events);
        all_events += events;
        best_times(policy, keystroke_allowance, &text, one);
        for (int column = 0; column < COLUMNS; column++)
            ns[column] += one[column];
    }
    printf("%-31s %4zu %9" PRIu64 " | %12.2f %12.2f %12.2f\n", table->name, table->count,
           all_events, ns[OTTER] / 1e3, ns[REFERENCE] / 1e3, ns[EVENT] / 1e3);
}

/* ---- The program ---- */

/* Fails where there is no such table. */
static int call_once(unsigned long number)
{
    struct text text;
    if (number < 1 || number > TABLES)
        return EXIT_FAILURE;
    const struct bench_table *table = &tables[number - 1];
    write_text(&text, table->rows, table->count, plain_writing);
    for (int column = 0; column < COLUMNS; column++)
        verdict_of(column)(table->policy, allowance, text.bytes, text.length);
    printf("%s\n", table->name);
    return EXIT_SUCCESS;
}

int main(int argc, char **argv)
{
    if (argc == 3 && strcmp(argv[1], "--once") == 0)
        return call_once(strtoul(argv[2], NULL, 10));
    print_heading();
    for (size_t i = 0; i < TABLES; i++)
        bench(&tables[i]);
    double least = 0, most = 0;
    for (size_t i = 0; i < sizeof stretch_factors / sizeof stretch_factors[0]; i++) {
        double ns = bench_stretched(stretch_factors[i]);
        least = i == 0 || ns < least ? ns : least;
        most = ns > most ? ns : most;
    }
    printf("\nchecker / event at most %.2f; a stretched table costs at most %.2f times another\n",
           largest_ratio, most / least);
    printf("\nfour verdicts, allowance %" PRIu64 ", in microseconds\n", keystroke_allowance);
    printf("%-31s %4s %9s | %12s %12s %12s\n", "table", "rows", "events", "checker", "by slot",
           "by event");
    for (size_t i = 0; i < TABLES; i++)
        if (i == 0 || tables[i].rows != tables[i - 1].rows) /* all policies are tried */
            bench_keystroke(&tables[i]);
    return differences != 0;
}
