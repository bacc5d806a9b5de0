/*
 * What the header says of time, measured: reading a table, and a slot of the
 * tables that cost most, those of many rows with short periods. Tables are
 * made by chance, and each call is the first one of its table, as at a
 * keystroke: when a table is asked again, the processor has learnt its order.
 * A single call cannot be repeated, so its time has all that disturbed it in
 * it, and the largest differs from run to run. No timing decides anything.
 *
 *     slowest [TABLES]
 */
#define _POSIX_C_SOURCE 199309L

#include "ottersprawl.h"
#include "random.h"

#include <inttypes.h>
#include <stdio.h>
#include <stdlib.h>
#include <time.h>

enum {
    POLICIES = 4,
    TABLES_MOST = 100000,
    TEXT_ROWS_MOST = 200, /* what over 4,096 bytes is cut off */
    LONG_PERIOD = 3125,   /* with short periods, H is up to 100,000 then */
    SLOTS_LEAST = 20000   /* so that reading the text does not count */
};

static const uint64_t allowance = 1000000;

static const uint32_t short_periods[] = { 4, 5, 8, 10, 16, 16, 16, 20, 25, 32, 32, 40, 50, 80 };
enum { SHORT_PERIODS = sizeof short_periods / sizeof short_periods[0] };

/* ---- Times ---- */

struct times {
    size_t count;
    double ns[POLICIES * TABLES_MOST];
};

/* Processor time: other programs on the machine do not count. */
static double now_ns(void)
{
    struct timespec now;
    clock_gettime(CLOCK_PROCESS_CPUTIME_ID, &now);
    return (double)now.tv_sec * 1e9 + (double)now.tv_nsec;
}

static int compare_times(const void *a, const void *b)
{
    const double *x = a, *y = b;
    return (*x > *y) - (*x < *y);
}

static void print_times(const char *what, struct times *times)
{
    size_t count = times->count;
    if (count == 0)
        return;
    qsort(times->ns, count, sizeof times->ns[0], compare_times);
    printf("%s, %zu first calls: half take at most %.1f ns, 99 of 100 at most %.1f, the largest %.1f\n",
           what, count, times->ns[(count - 1) / 2], times->ns[(count - 1) * 99 / 100],
           times->ns[count - 1]);
}

/* ---- Reading ---- */

/* Rows without sense: sixteen, which are checked, or more, which are counted. */
static void long_text(struct random *random, struct text *text)
{
    struct ref_row rows[TEXT_ROWS_MOST];
    const struct writing writing = { random_bits(random), 1 };
    uint32_t count = random_chance(random, 50) ? REF_ROWS_MOST
                                               : random_between(random, 17, TEXT_ROWS_MOST);
    for (uint32_t i = 0; i < count; i++) {
        uint32_t period = random_between(random, 1, REF_TIME_MOST);
        const struct ref_row row = { random_between(random, 1, REF_ID_MOST),
                                     random_below(random, REF_TIME_MOST), 1, period, period,
                                     random_below(random, 100), 0,
                                     random_between(random, 1, REF_PRIORITY_MOST) };
        rows[i] = row;
    }
    write_text(text, rows, count, writing);
    if (text->length > REF_TEXT_MOST)
        text->length = REF_TEXT_MOST;
}

/* With allowance 0 nothing is done but reading. */
static void time_reading(const struct text *text, struct times *times)
{
    double before = now_ns();
    otter_verdict(1, 0, text->bytes, text->length);
    times->ns[times->count++] = now_ns() - before;
}

/* ---- Slots ---- */

static struct ref_row short_row(struct random *random, uint32_t id)
{
    uint32_t period = short_periods[random_below(random, SHORT_PERIODS)];
    uint32_t start = random_chance(random, 20) ? 1 : 0;
    struct ref_row row = { id, random_below(random, period), 1, period, period, start,
                           random_below(random, start + 1), id };
    return row;
}

static void short_table(struct random *random, struct text *text)
{
    struct ref_row rows[REF_ROWS_MOST];
    uint32_t count = random_between(random, 8, REF_ROWS_MOST);
    for (uint32_t i = 0; i + 1 < count; i++)
        rows[i] = short_row(random, i + 1);
    const struct ref_row last = { count, 0, random_between(random, 1, 200), LONG_PERIOD,
                                  LONG_PERIOD, 0, 0, count };
    rows[count - 1] = last;
    write_text(text, rows, count, plain_writing);
}

/* Counts where the table is not soon decided. */
static void time_slots(uint32_t policy, const struct text *text, struct times *times)
{
    double before = now_ns();
    uint64_t reply = otter_verdict(policy, allowance, text->bytes, text->length);
    double ns = now_ns() - before;
    uint64_t slots = otter_kind(reply) == OTTER_UNDECIDED ? allowance : otter_number(reply);
    if (otter_kind(reply) != OTTER_REFUSED && slots >= SLOTS_LEAST)
        times->ns[times->count++] = ns / (double)slots;
}

int main(int argc, char **argv)
{
    static struct times reading, slots;
    static struct text text;
    uint64_t tables = argc > 1 ? strtoull(argv[1], NULL, 10) : 3000;
    if (tables > TABLES_MOST)
        tables = TABLES_MOST;
    for (uint64_t i = 0; i < tables; i++) {
        struct random random = random_start(1, i);
        long_text(&random, &text);
        time_reading(&text, &reading);
        short_table(&random, &text);
        for (uint32_t policy = 1; policy <= POLICIES; policy++)
            time_slots(policy, &text, &slots);
    }
    print_times("reading", &reading);
    print_times("a slot", &slots);
    return EXIT_SUCCESS;
}
