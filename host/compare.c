/*
 * Compares the checker with the reference on random tables, calls and lent
 * buffers. A table passes if every call on it does.
 *
 *     compare [--tables N] [--seed S] [--first I] [--fault K] [--event]
 *
 * --tables  how many tables, 50,000 if not given
 * --seed    another set of tables
 * --first   begin at table I, to see one failure again
 * --fault   put fault 1, 2 or 3 into the reference: differences must show
 * --event   also compare the event-driven verdict with the reference
 *
 * Ends in "N passed, 0 failed"; the exit status is 0 only if none failed.
 */
#include "event.h"
#include "random.h"
#include "sides.h"

#include <inttypes.h>
#include <stdio.h>
#include <stdlib.h>
#include <string.h>

enum {
    TABLES = 50000,
    GUARD = 64,                  /* bytes before and after a lent buffer */
    LENT_MOST = REF_SLOTS_MOST + 4,
    ARENA = LENT_MOST + 2 * GUARD,
    LIST_MOST = 600,
    REPORTS_MOST = 5,            /* failed tables that are printed */
    BOUND = 3000,                /* slots that a first verdict may take, if H is small */
    REFUSALS = 13
};

/* ---- A call ---- */

struct numbers {
    uint32_t entries[LIST_MOST];
    size_t length;
};

/* A call but for the lent memory, which each side gets anew. */
struct call {
    enum function function;
    uint32_t policy;
    uint64_t allowance;
    const struct text *text;
    size_t lent_len;
    struct numbers requests, loadings;
};

/* What lent memory and its surroundings hold before a call. */
static uint8_t pattern[ARENA];
/* And after the call on the reference, and on the checker. */
static uint8_t reference_arena[ARENA], otter_arena[ARENA];

static int try_event;
static uint64_t seed = 1, table_number;
static int table_failed;

static size_t arena_used(const struct call *call)
{
    return call->lent_len + 2 * GUARD;
}

/* Where a length is 0, half of the tables are tried with a null pointer. */
#define LENT(pointer, length) ((length) == 0 && table_number % 2 == 0 ? NULL : (pointer))

static struct ref_reply run_call(const struct side *side, const struct call *call, uint8_t *arena)
{
    const struct arguments arguments = {
        .policy = call->policy,
        .allowance = call->allowance,
        .text = LENT(call->text->bytes, call->text->length),
        .text_len = call->text->length,
        .requests = LENT(call->requests.entries, call->requests.length),
        .requests_len = call->requests.length,
        .loadings = LENT(call->loadings.entries, call->loadings.length),
        .loadings_len = call->loadings.length,
        .lent = LENT(arena + GUARD, call->lent_len),
        .lent_len = call->lent_len
    };
    memcpy(arena, pattern, arena_used(call));
    return reply_of(side, call->function, &arguments);
}

/* ---- What is counted and reported ---- */

static struct {
    uint64_t calls;
    uint64_t replies[FUNCTIONS][REF_WRITTEN + 1];
    uint64_t refusals[REFUSALS + 1];
    uint64_t reordered;
    uint64_t late_repetitions;
    uint64_t runs_of_accepted;
    uint64_t reports;
} counts;

static void count_reply(const struct call *call, struct ref_reply reply)
{
    counts.calls++;
    if (reply.kind <= REF_WRITTEN)
        counts.replies[call->function][reply.kind]++;
    if (reply.kind == REF_REFUSED && reply.number <= REFUSALS)
        counts.refusals[reply.number]++;
}

/* Line ends are shown and kept; other bytes that do not print are numbers. */
static void print_text(const struct text *text)
{
    for (size_t i = 0; i < text->length; i++) {
        uint8_t byte = text->bytes[i];
        if (byte == '\r')
            printf("\\r");
        else if (byte == '\n')
            printf("\\n\n");
        else if (byte >= ' ' && byte <= '~')
            putchar(byte);
        else
            printf("\\x%02x", byte);
    }
    printf("\n");
}

static void print_numbers(const char *name, const struct numbers *numbers)
{
    printf("  %s (%zu):", name, numbers->length);
    for (size_t i = 0; i < numbers->length && i < 40; i++)
        printf(" %" PRIu32, numbers->entries[i]);
    printf("%s\n", numbers->length > 40 ? " .." : "");
}

static void print_call(const struct call *call)
{
    printf("  %s", function_names[call->function]);
    if (call->function != IDS)
        printf(", policy %" PRIu32, call->policy);
    if (call->function == VERDICT || call->function == RESPONSES)
        printf(", allowance %" PRIu64, call->allowance);
    if (call->function != VERDICT)
        printf(", %zu bytes lent", call->lent_len);
    printf("\n");
    if (call->function == AS_RUN) {
        print_numbers("requests", &call->requests);
        print_numbers("loadings", &call->loadings);
    }
    print_text(call->text);
}

/* Marks the table as failed; the first few are printed, once each. */
static void fail(const struct call *call, const char *what,
                 struct ref_reply expected, struct ref_reply got)
{
    if (!table_failed && counts.reports++ < REPORTS_MOST) {
        printf("failed: table %" PRIu64 " (--seed %" PRIu64 " --first %" PRIu64 " --tables 1): %s\n",
               table_number, seed, table_number, what);
        printf("  expected %s, got %s\n", reply_words(expected), reply_words(got));
        print_call(call);
    }
    table_failed = 1;
}

/* ---- The comparison of one call ---- */

static void compare_event(const struct call *call, struct ref_reply expected)
{
    struct ref_reply got = event_verdict(call->policy, call->allowance,
                                         call->text->bytes, call->text->length);
    if (!equal_replies(expected, got))
        fail(call, "the event-driven verdict differs", expected, got);
}

/* The first so many lent bytes may change. Of responses these are the bytes of
 * 16 rows: how many rows there are, their reply does not say. */
static size_t may_change(const struct call *call, struct ref_reply reply)
{
    if (reply.kind == REF_REFUSED)
        return 0;
    switch (call->function) {
    case RESPONSES:
        return reply.kind == REF_ACCEPTED ? REF_RESPONSES_LEAST : 0;
    case IDS:
        return (size_t)reply.number;
    default:
        return call->lent_len;
    }
}

/* Whether all other bytes of the arena are as before the call. */
static int others_stay(const struct call *call, struct ref_reply reply, const uint8_t *arena)
{
    size_t behind = GUARD + may_change(call, reply);
    return memcmp(pattern, arena, GUARD) == 0 &&
           memcmp(pattern + behind, arena + behind, arena_used(call) - behind) == 0;
}

/* Both sides get the call; the reply of the checker is handed back. */
static struct ref_reply compare_call(const struct call *call)
{
    struct ref_reply expected = run_call(&reference_side, call, reference_arena);
    struct ref_reply got = run_call(&otter_side, call, otter_arena);
    count_reply(call, got);
    if (!equal_replies(expected, got))
        fail(call, "the replies differ", expected, got);
    else if (!others_stay(call, expected, otter_arena))
        fail(call, "bytes changed that have to stay", expected, got);
    else if (memcmp(reference_arena, otter_arena, arena_used(call)) != 0)
        fail(call, "the lent bytes differ", expected, got);
    if (try_event && call->function == VERDICT)
        compare_event(call, expected);
    return got;
}

/* "Reordering the rows changes no reply on a table whose lines are well
 * formed." The length of a text counts for check 3, so both are on the same
 * side of it. */
static void compare_reordered(const struct call *call, const struct text *reordered)
{
    struct call other = *call;
    other.text = reordered;
    if ((call->text->length > REF_TEXT_MOST) != (reordered->length > REF_TEXT_MOST))
        return;
    struct ref_reply expected = run_call(&otter_side, call, reference_arena);
    struct ref_reply got = run_call(&otter_side, &other, otter_arena);
    counts.reordered++;
    if (!equal_replies(expected, got) ||
        memcmp(reference_arena, otter_arena, arena_used(call)) != 0)
        fail(&other, "reordered rows get another reply", expected, got);
}

/* ---- Random arguments ---- */

static uint32_t random_policy(struct random *random)
{
    static const uint32_t odd[] = { 0, 5, 6, 255, 256, 257, 258, 260, 65537, 65540,
                                    0x7fffffff, 0x80000000, 0x80000001, 0xffffffff };
    if (random_chance(random, 3))
        return odd[random_below(random, sizeof odd / sizeof odd[0])];
    if (random_chance(random, 40))
        return REF_ABSOLUTE_DEADLINE;
    return random_between(random, REF_FIXED, REF_ABSOLUTE_DEADLINE);
}

/* Around the slots needed if they are known, else below the bound within
 * which they were not found. */
static uint64_t random_allowance(struct random *random, struct ref_reply verdict, uint64_t bound)
{
    static const uint64_t large[] = { 0xffffffff, 0x100000000, (uint64_t)1 << 48, UINT64_MAX };
    uint64_t needed = verdict.number;
    if (verdict.kind == REF_UNDECIDED)
        return random_bits(random) % (bound + 1);
    if (verdict.kind == REF_REFUSED)
        return random_bits(random) >> random_below(random, 64);
    switch (random_below(random, 8)) {
    case 0:
        return 0;
    case 1:
    case 2:
        return needed - 1;
    case 3:
        return needed;
    case 4:
        return needed + 1;
    case 5:
        return random_bits(random) % needed;
    case 6:
        return needed + random_below(random, 1000);
    default:
        return large[random_below(random, sizeof large / sizeof large[0])];
    }
}

static size_t random_responses_len(struct random *random)
{
    if (random_chance(random, 70))
        return REF_RESPONSES_LEAST + (random_chance(random, 50) ? random_below(random, 40) : 0);
    return random_below(random, REF_RESPONSES_LEAST + 1);
}

/* Short ones, some that end just at a miss, a few of the longest. */
static size_t random_slots_len(struct random *random, struct ref_reply verdict)
{
    static const uint32_t edges[] = { 0, 0, 1, 2, 3, REF_SLOTS_MOST - 2, REF_SLOTS_MOST - 1,
                                      REF_SLOTS_MOST, REF_SLOTS_MOST + 1, REF_SLOTS_MOST + 2 };
    if (random_chance(random, 4))
        return edges[random_below(random, sizeof edges / sizeof edges[0])];
    if (random_chance(random, 2))
        return random_below(random, LENT_MOST);
    if (verdict.kind == REF_MISSED && verdict.number < 1000 && random_chance(random, 40))
        return 2 * (size_t)(verdict.number - 1 + random_below(random, 3));
    if (random_chance(random, 3))
        return 2 * random_below(random, 300) + 1;
    return 2 * random_below(random, 300);
}

/* A list in which one way of choosing entries prevails. */
static void random_numbers(struct random *random, struct numbers *numbers)
{
    static const uint32_t lengths[] = { 0, 1, 4, 30, LIST_MOST };
    uint32_t most = lengths[random_below(random, sizeof lengths / sizeof lengths[0])];
    uint32_t way = random_below(random, 5);
    numbers->length = random_below(random, most + 1);
    for (size_t i = 0; i < numbers->length; i++) {
        uint32_t how = random_chance(random, 80) ? way : random_below(random, 5);
        uint32_t ways[] = { 0, 1, random_below(random, 6), (uint32_t)random_bits(random), UINT32_MAX };
        numbers->entries[i] = ways[how];
    }
}

static void random_pattern(struct random *random)
{
    for (size_t i = 0; i < ARENA; i++)
        pattern[i] = (uint8_t)random_bits(random);
}

/* A call of the function on the table. The verdict under the same policy says
 * which allowances and lengths are telling. */
static void random_call(struct random *random, struct call *call, enum function function,
                        struct ref_reply verdict, uint64_t bound)
{
    call->function = function;
    call->lent_len = 0;
    switch (function) {
    case VERDICT:
        call->allowance = random_allowance(random, verdict, bound);
        break;
    case RESPONSES:
        call->allowance = random_allowance(random, verdict, bound);
        call->lent_len = random_responses_len(random);
        break;
    case SCHEDULE:
        call->lent_len = random_slots_len(random, verdict);
        break;
    default:
        call->lent_len = random_slots_len(random, verdict);
        random_numbers(random, &call->requests);
        random_numbers(random, &call->loadings);
    }
}

/* ---- One table ---- */

/* Demand 3, as far as a reply shows it: no run of an accepted table misses. */
static void check_run_of_accepted(const struct call *call, struct ref_reply verdict,
                                  struct ref_reply got)
{
    const struct ref_reply filled = { REF_FILLED, 0, 0 };
    if (call->function != AS_RUN || verdict.kind != REF_ACCEPTED || got.kind == REF_REFUSED)
        return;
    counts.runs_of_accepted++;
    if (got.kind != REF_FILLED)
        fail(call, "a run of an accepted table misses", filled, got);
}

/* How many slots a first verdict may take: enough for a few hyper-periods. */
static uint64_t first_bound(const struct call *call, uint64_t *least_accepted)
{
    struct ref_table table;
    *least_accepted = 0;
    if (ref_read(call->policy, call->text->bytes, call->text->length, &table).kind == REF_REFUSED)
        return BOUND;
    *least_accepted = table.omax + table.hyper_period;
    return BOUND + table.omax + 2 * table.hyper_period;
}

/* A first verdict, then calls that lie around it, of the functions that take a
 * policy: those before IDS. An allowance beyond the bound is only given where
 * both sides decide within it. */
static void try_policy(struct random *random, const struct random_table *table,
                       const struct text *reordered)
{
    static struct call call;
    uint64_t least_accepted;
    call.function = VERDICT;
    call.policy = random_policy(random);
    call.text = &table->text;
    call.lent_len = 0;
    call.allowance = first_bound(&call, &least_accepted);
    uint64_t bound = call.allowance;
    struct ref_reply verdict = compare_call(&call);
    if (verdict.kind == REF_ACCEPTED && verdict.number > least_accepted)
        counts.late_repetitions++;
    if (table_failed)
        return;
    for (uint32_t calls = random_between(random, 2, 6); calls > 0; calls--) {
        random_call(random, &call, (enum function)random_below(random, IDS), verdict, bound);
        check_run_of_accepted(&call, verdict, compare_call(&call));
        if (table->well_formed && random_chance(random, 25))
            compare_reordered(&call, reordered);
    }
}

/* Ids cost little, so every table is tried with too few bytes, with just
 * enough and with more. */
static void try_ids(struct random *random, const struct random_table *table,
                    const struct text *reordered)
{
    const size_t lengths[] = { random_below(random, REF_IDS_LEAST), REF_IDS_LEAST,
                               REF_IDS_LEAST + random_between(random, 1, 40) };
    for (size_t i = 0; i < sizeof lengths / sizeof lengths[0]; i++) {
        const struct call call = { .function = IDS, .text = &table->text,
                                   .lent_len = lengths[i] };
        compare_call(&call);
        if (table->well_formed)
            compare_reordered(&call, reordered);
    }
}

static void try_table(struct random *random)
{
    static struct random_table table;
    static struct text reordered;
    random_table(random, &table);
    if (table.well_formed)
        random_reordered(random, &table, &reordered);
    for (uint32_t policies = random_between(random, 1, 2); policies > 0; policies--)
        try_policy(random, &table, &reordered);
    try_ids(random, &table, &reordered);
}

/* ---- The program ---- */

static void print_counts(void)
{
    static const char *const kinds[] = { "no reply", "accepted", "missed", "undecided", "refused",
                                         "filled", "written" };
    for (int function = 0; function < FUNCTIONS; function++) {
        printf("%s:", function_names[function]);
        for (int kind = 0; kind <= REF_WRITTEN; kind++)
            if (counts.replies[function][kind] != 0)
                printf("  %" PRIu64 " %s", counts.replies[function][kind], kinds[kind]);
        printf("\n");
    }
    printf("refusals 1 to %d:", REFUSALS);
    for (int number = 1; number <= REFUSALS; number++)
        printf(" %" PRIu64, counts.refusals[number]);
    printf("\n%" PRIu64 " calls; %" PRIu64 " with reordered rows; %" PRIu64
           " accepted with k above 0; %" PRIu64 " runs of accepted tables\n",
           counts.calls, counts.reordered, counts.late_repetitions, counts.runs_of_accepted);
}

struct options {
    uint64_t tables, first;
};

static int usage(void)
{
    fprintf(stderr, "usage: compare [--tables N] [--seed S] [--first I] [--fault 1..%d] [--event]\n",
            REF_FAULT_MOST);
    return 0;
}

/* One option that takes a number. */
static int read_option(const char *name, const char *value, struct options *options)
{
    char *end;
    uint64_t number = strtoull(value, &end, 10);
    if (*value == '\0' || *end != '\0')
        return usage();
    if (strcmp(name, "--tables") == 0)
        options->tables = number;
    else if (strcmp(name, "--seed") == 0)
        seed = number;
    else if (strcmp(name, "--first") == 0)
        options->first = number;
    else if (strcmp(name, "--fault") == 0 && number <= REF_FAULT_MOST)
        ref_fault = (int)number;
    else
        return usage();
    return 1;
}

static int read_options(int argc, char **argv, struct options *options)
{
    for (int i = 1; i < argc; i++) {
        if (strcmp(argv[i], "--event") == 0) {
            try_event = 1;
            continue;
        }
        if (i + 1 == argc)
            return usage();
        if (!read_option(argv[i], argv[i + 1], options))
            return 0;
        i++;
    }
    return 1;
}

int main(int argc, char **argv)
{
    struct options options = { TABLES, 0 };
    if (!read_options(argc, argv, &options))
        return 2;
    struct random start = random_start(seed, UINT64_MAX);
    random_pattern(&start);
    uint64_t passed = 0, failed = 0;
    for (uint64_t i = 0; i < options.tables; i++) {
        table_number = options.first + i;
        table_failed = 0;
        struct random random = random_start(seed, table_number);
        try_table(&random);
        if (table_failed)
            failed++;
        else
            passed++;
    }
    print_counts();
    printf("%" PRIu64 " passed, %" PRIu64 " failed\n", passed, failed);
    return failed != 0;
}
