/*
 * Source 000's Test 1 beside the verdict, on the smallest tables on which the
 * two differ, in either direction, and on two on which they agree. Ends in
 * "N passed, 0 failed". docs/FINDINGS.md says where the proof of Test 1 goes
 * wrong.
 *
 *     cc -O2 -std=c99 -Wall -Wextra -pedantic test1.c tables.c reference.c -o test1
 *
 * The verdict and the schedules are the reference's. Nothing of the checker is
 * linked.
 */
#include "reference.h"
#include "tables.h"

#include <stdbool.h>
#include <stdio.h>

enum { EDF = REF_ABSOLUTE_DEADLINE, ROWS_TRIED = 2, ALLOWANCE = 1000000 };
enum { BYTES_A_SLOT = 2, LOADING = 1, EXECUTING = 2 };

/* A table, what Test 1 says of it, and the verdict. Loading slots are those of
 * the hyper-period from Omax + H on, and of the one after it. */
struct tried {
    const char *name;
    size_t count;
    struct ref_row rows[ROWS_TRIED];
    bool test;
    struct ref_reply verdict;
    uint64_t loading[2];
};

static const struct tried all_tried[] = {
    { "both accept: figure 3", 2,
      { { 1, 0, 2, 5, 5, 1, 1, 1 }, { 2, 0, 3, 20, 20, 1, 1, 2 } },
      true, { REF_ACCEPTED, 20, 0 }, { 7, 7 } },
    { "both reject: figure 8a", 2,
      { { 1, 0, 1, 6, 6, 3, 3, 1 }, { 2, 2, 1, 3, 3, 0, 0, 2 } },
      false, { REF_MISSED, 6, 1 }, { 0, 0 } },
    { "Test 1 accepts, a deadline is missed: least H, least sum of numbers", 2,
      { { 1, 0, 1, 3, 3, 1, 0, 1 }, { 2, 2, 1, 3, 3, 1, 0, 2 } },
      true, { REF_MISSED, 9, 1 }, { 1, 1 } },
    { "the same with resume equal to start", 2,
      { { 1, 0, 1, 3, 3, 1, 1, 1 }, { 2, 2, 1, 3, 3, 1, 1, 2 } },
      true, { REF_MISSED, 9, 1 }, { 1, 1 } },
    { "Test 1 rejects, no deadline is ever missed: least H, least sum of numbers", 2,
      { { 1, 2, 3, 8, 8, 1, 1, 1 }, { 2, 0, 2, 4, 4, 0, 0, 2 } },
      false, { REF_ACCEPTED, 26, 0 }, { 2, 1 } },
    { "the same, and no cycle is reached by Omax + 2H", 2,
      { { 1, 0, 3, 10, 10, 1, 1, 1 }, { 2, 3, 1, 5, 5, 2, 0, 2 } },
      false, { REF_ACCEPTED, 43, 0 }, { 6, 5 } },
};
enum { TRIED = sizeof all_tried / sizeof all_tried[0] };

static uint8_t lent[REF_SLOTS_MOST];

static uint8_t id_at(uint64_t slot)
{
    return lent[slot * BYTES_A_SLOT];
}

static uint8_t kind_at(uint64_t slot)
{
    return lent[slot * BYTES_A_SLOT + 1];
}

/* e(i, t) of section 4.1: "the amount of time for which the last job of task
 * i released strictly before t has executed at time t"; it is C for t <= O. */
static uint64_t executed(const struct ref_row *row, uint64_t t)
{
    if (t <= row->offset)
        return row->wcet;
    uint64_t release = row->offset + (t - 1 - row->offset) / row->period * row->period;
    uint64_t count = 0;
    for (uint64_t slot = release; slot < t; slot++)
        if (id_at(slot) == row->id && kind_at(slot) == EXECUTING)
            count++;
    return count;
}

/* Test 1: "(i) we do not miss any deadline within the interval
 * [0, Omax + 2H), and (ii) for all i e(i, Omax + H) = e(i, Omax + 2H)". */
static bool test1(const struct ref_table *table, const struct text *text)
{
    uint64_t middle = table->omax + table->hyper_period;
    uint64_t end = middle + table->hyper_period;
    struct ref_reply reply = ref_schedule(EDF, text->bytes, text->length, lent, end * BYTES_A_SLOT);
    if (reply.kind == REF_MISSED && reply.number < end)
        return false;
    for (size_t i = 0; i < table->count; i++)
        if (executed(&table->rows[i], middle) != executed(&table->rows[i], end))
            return false;
    return true;
}

/* Loading slots in the n-th hyper-period from Omax on, n from 0. */
static uint64_t loading_slots(const struct ref_table *table, const struct text *text, uint64_t n)
{
    uint64_t from = table->omax + n * table->hyper_period;
    uint64_t end = from + table->hyper_period;
    uint64_t count = 0;
    ref_schedule(EDF, text->bytes, text->length, lent, end * BYTES_A_SLOT);
    for (uint64_t slot = from; slot < end; slot++)
        if (kind_at(slot) == LOADING)
            count++;
    return count;
}

static void print_tried(const struct tried *tried, bool test, struct ref_reply verdict,
                        const uint64_t loading[2])
{
    printf("%s\n   ", tried->name);
    for (size_t i = 0; i < tried->count; i++) {
        const struct ref_row *row = &tried->rows[i];
        printf(" (%u %u %u %u %u %u %u %u)", row->id, row->offset, row->wcet, row->deadline,
               row->period, row->start, row->resume, row->priority);
    }
    printf("\n    Test 1: %s; truth: %s %llu; loading slots from Omax + H on: %llu, then %llu\n",
           test ? "schedulable" : "not schedulable",
           verdict.kind == REF_ACCEPTED ? "accepted" : "missed",
           (unsigned long long)verdict.number,
           (unsigned long long)loading[0], (unsigned long long)loading[1]);
}

static bool as_expected(const struct tried *tried)
{
    struct text text;
    struct ref_table table;
    write_text(&text, tried->rows, tried->count, plain_writing);
    if (ref_read(EDF, text.bytes, text.length, &table).kind == REF_REFUSED)
        return false;
    bool test = test1(&table, &text);
    struct ref_reply verdict = ref_verdict(EDF, ALLOWANCE, text.bytes, text.length);
    uint64_t loading[2] = { loading_slots(&table, &text, 1), loading_slots(&table, &text, 2) };
    print_tried(tried, test, verdict, loading);
    return test == tried->test && verdict.kind == tried->verdict.kind &&
           verdict.number == tried->verdict.number && verdict.place == tried->verdict.place &&
           loading[0] == tried->loading[0] && loading[1] == tried->loading[1];
}

int main(void)
{
    int passed = 0, failed = 0;
    for (size_t i = 0; i < TRIED; i++) {
        if (as_expected(&all_tried[i])) {
            passed++;
        } else {
            failed++;
            printf("    failed\n");
        }
    }
    printf("%d passed, %d failed\n", passed, failed);
    return failed != 0;
}
