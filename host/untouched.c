/*
 * Shows with read-only memory which lent bytes a call stores to. Comparing the
 * bytes afterwards cannot: a call may have stored those that were there.
 *
 * - A refused call stores nothing, nor does responses unless it accepts.
 * - Where it accepts, responses stores in the first 4 bytes for each row. Where
 *   it is not refused, ids stores in the first byte for each row; schedule and
 *   as_run store in all lent bytes. None of them stores behind these.
 * - Texts and lists are only read, and not past their ends.
 *
 * In every call all that may not be stored to is in read-only pages. Texts and
 * lists, and lent bytes of which none may be stored to, end at the end of a
 * page, and the page behind it may not even be read. A call that touches what
 * it may not is stopped by the machine and has failed.
 *
 * All is tried on the reference and on the checker. Ends in "N passed, 0
 * failed"; the exit status is 0 only if none failed.
 */
#define _DEFAULT_SOURCE /* for MAP_ANONYMOUS; the rest is POSIX */

#include "sides.h"
#include "tables.h"

#include <inttypes.h>
#include <setjmp.h>
#include <signal.h>
#include <stdbool.h>
#include <stdio.h>
#include <stdlib.h>
#include <string.h>
#include <sys/mman.h>

enum {
    PAGE = 65536,         /* whole pages on every machine, also under an emulator */
    LENT_ROOM = 2 * PAGE, /* for 65,536 lent bytes and more */
    STAYS = 0xa5,         /* what lent memory is filled with */
    REPORTS_MOST = 20,    /* failed trials of a function that are printed */
    ALLOWANCE = 1000000
};

static void give_up(const char *what)
{
    perror(what);
    exit(EXIT_FAILURE);
}

/* ---- Protected memory ---- */

/* Whole pages. The page behind them may not be touched. */
struct region {
    uint8_t *start, *end;
};

static struct region text_region, requests_region, loadings_region, lent_region;

static size_t whole_pages(size_t bytes)
{
    return (bytes + PAGE - 1) / PAGE * PAGE;
}

static struct region region_for(size_t bytes)
{
    size_t length = whole_pages(bytes);
    uint8_t *start = mmap(NULL, length + PAGE, PROT_NONE, MAP_PRIVATE | MAP_ANONYMOUS, -1, 0);
    if (start == MAP_FAILED)
        give_up("mmap");
    struct region region = { start, start + length };
    return region;
}

static void make_regions(void)
{
    text_region = region_for(TEXT_ROOM);
    requests_region = region_for(PAGE);
    loadings_region = region_for(PAGE);
    lent_region = region_for(LENT_ROOM);
}

static void protect(uint8_t *from, uint8_t *to, int protection)
{
    if (mprotect(from, (size_t)(to - from), protection) != 0)
        give_up("mprotect");
}

/* A copy that can only be read, at the end of the region. */
static void *read_only(struct region region, const void *bytes, size_t length)
{
    uint8_t *copy = region.end - length;
    protect(region.start, region.end, PROT_READ | PROT_WRITE);
    memcpy(copy, bytes, length);
    protect(region.start, region.end, PROT_READ);
    return copy;
}

/* Lent bytes of which the first `may_store` can be stored to: a page ends behind
 * them. If there are none, all the bytes stand at the end of the region. */
static uint8_t *lend(size_t length, size_t may_store)
{
    uint8_t *edge = lent_region.end - whole_pages(length - may_store);
    protect(lent_region.start, lent_region.end, PROT_READ | PROT_WRITE);
    memset(lent_region.start, STAYS, LENT_ROOM);
    protect(lent_region.start, lent_region.end, PROT_READ);
    if (may_store == 0)
        return lent_region.end - length;
    protect(edge - whole_pages(may_store), edge, PROT_READ | PROT_WRITE);
    return edge - may_store;
}

/* ---- Faults ---- */

static sigjmp_buf before_fault;

static void back_before_fault(int number)
{
    (void)number;
    siglongjmp(before_fault, 1);
}

static void on_next_fault(void (*handler)(int))
{
    struct sigaction action;
    memset(&action, 0, sizeof action);
    action.sa_handler = handler;
    action.sa_flags = SA_RESETHAND;
    if (sigaction(SIGSEGV, &action, NULL) != 0)
        give_up("sigaction");
}

/* Whether an action comes to its end. It does not if it touches what it may
 * not. A fault at any other time ends this program. */
static bool ends(void (*action)(void *), void *on)
{
    on_next_fault(back_before_fault);
    if (sigsetjmp(before_fault, 1) != 0)
        return false;
    action(on);
    on_next_fault(SIG_DFL);
    return true;
}

/* Stores the byte that is there. */
static void store(void *at)
{
    volatile uint8_t *byte = at;
    *byte = *byte;
}

static void load(void *at)
{
    volatile uint8_t *byte = at;
    (void)*byte;
}

/* Whether the machine stops what is to be found here, and nothing else. */
static bool can_tell(void)
{
    uint8_t byte = 0;
    uint8_t *text = read_only(text_region, &byte, sizeof byte);
    bool tells = ends(load, text) && !ends(load, text + 1) && !ends(store, text);
    uint8_t *refused = lend(REF_RESPONSES_LEAST, 0);
    tells = tells && ends(load, refused) && !ends(store, refused) &&
            !ends(store, refused + REF_RESPONSES_LEAST - 1);
    uint8_t *accepted = lend(REF_RESPONSES_LEAST, REF_RESPONSE_BYTES);
    return tells && ends(store, accepted + REF_RESPONSE_BYTES - 1) &&
           !ends(store, accepted + REF_RESPONSE_BYTES);
}

/* ---- A trial ---- */

/* A call, what it replies, and what it has to reply. */
struct trial {
    const struct side *side;
    const char *name;
    enum function function;
    struct arguments arguments;
    size_t may_store; /* the first so many lent bytes */
    struct ref_reply expected, reply;
};

/* What those bytes have to hold then. */
static uint8_t stored[REF_SLOTS_MOST];

static int passed, failed, failed_of[FUNCTIONS];

static void fail(const struct trial *trial, const char *what)
{
    failed++;
    if (failed_of[trial->function]++ >= REPORTS_MOST)
        return;
    printf("failed: %s: %s, %s: policy %" PRIu32 ", allowance %" PRIu64
           ", %zu bytes of text, %zu bytes lent: expected %s: %s\n",
           trial->side->name, function_names[trial->function], trial->name,
           trial->arguments.policy, trial->arguments.allowance, trial->arguments.text_len,
           trial->arguments.lent_len, reply_words(trial->expected), what);
}

static void call(void *on)
{
    struct trial *trial = on;
    trial->reply = reply_of(trial->side, trial->function, &trial->arguments);
}

static void protect_arguments(struct trial *trial)
{
    struct arguments *a = &trial->arguments;
    a->text = read_only(text_region, a->text, a->text_len);
    a->requests = read_only(requests_region, a->requests, a->requests_len * sizeof a->requests[0]);
    a->loadings = read_only(loadings_region, a->loadings, a->loadings_len * sizeof a->loadings[0]);
    a->lent = lend(a->lent_len, trial->may_store);
}

/* Bytes beside the lent ones have to stay too. */
static bool lent_as_expected(const struct trial *trial)
{
    static uint8_t expected[LENT_ROOM];
    memset(expected, STAYS, sizeof expected);
    memcpy(expected + (trial->arguments.lent - lent_region.start), stored, trial->may_store);
    return memcmp(lent_region.start, expected, sizeof expected) == 0;
}

static void try_call(struct trial trial)
{
    protect_arguments(&trial);
    if (!ends(call, &trial))
        fail(&trial, "it touches memory that it may not");
    else if (!equal_replies(trial.reply, trial.expected))
        fail(&trial, reply_words(trial.reply));
    else if (!lent_as_expected(&trial))
        fail(&trial, "the lent bytes are wrong");
    else
        passed++;
}

/* A trial that may store nothing, without policy and length. The lists of as_run
 * are soon used up. */
static struct trial trial_of(const struct side *side, const char *name, enum function function,
                             const struct text *text)
{
    static const uint32_t requests[] = { 1, 5, 1 }, loadings[] = { 1, 9 };
    const struct trial trial = {
        .side = side,
        .name = name,
        .function = function,
        .arguments = {
            .allowance = ALLOWANCE,
            .text = text->bytes,
            .text_len = text->length,
            .requests = requests,
            .requests_len = sizeof requests / sizeof requests[0],
            .loadings = loadings,
            .loadings_len = sizeof loadings / sizeof loadings[0]
        }
    };
    return trial;
}

/* ---- Policies and lengths ---- */

struct choices {
    size_t count;
    size_t items[5];
};

#define POLICIES { 4, { 1, 2, 3, 4 } }
#define WRONG_POLICIES { 4, { 0, 5, 257, UINT32_MAX } }
#define SLOTS { 3, { 0, 40, REF_SLOTS_MOST } }
#define WRONG_SLOTS { 5, { 1, 41, REF_SLOTS_MOST - 1, REF_SLOTS_MOST + 1, REF_SLOTS_MOST + 2 } }

static const struct choices policies[FUNCTIONS] = {
    [VERDICT] = POLICIES, [RESPONSES] = POLICIES, [SCHEDULE] = POLICIES, [AS_RUN] = POLICIES,
    [IDS] = { 1, { 0 } } /* any number does: it is not asked */
};
static const struct choices wrong_policies[FUNCTIONS] = {
    [VERDICT] = WRONG_POLICIES, [RESPONSES] = WRONG_POLICIES, [SCHEDULE] = WRONG_POLICIES,
    [AS_RUN] = WRONG_POLICIES
};
static const struct choices lengths[FUNCTIONS] = {
    [VERDICT] = { 1, { 0 } }, [RESPONSES] = { 2, { REF_RESPONSES_LEAST, 100 } },
    [SCHEDULE] = SLOTS, [AS_RUN] = SLOTS, [IDS] = { 2, { REF_IDS_LEAST, 100 } }
};
static const struct choices wrong_lengths[FUNCTIONS] = {
    [RESPONSES] = { 4, { 0, 1, 16, REF_RESPONSES_LEAST - 1 } },
    [SCHEDULE] = WRONG_SLOTS, [AS_RUN] = WRONG_SLOTS, [IDS] = { 3, { 0, 1, REF_IDS_LEAST - 1 } }
};

/* The trial with each of the policies and lengths that are given for its
 * function. */
static void try_each(const struct trial *trial, const struct choices *policies_of,
                     const struct choices *lengths_of)
{
    const struct choices *its_policies = &policies_of[trial->function];
    const struct choices *its_lengths = &lengths_of[trial->function];
    for (size_t i = 0; i < its_policies->count; i++)
        for (size_t j = 0; j < its_lengths->count; j++) {
            struct trial one = *trial;
            one.arguments.policy = (uint32_t)its_policies->items[i];
            one.arguments.lent_len = its_lengths->items[j];
            if (one.may_store > one.arguments.lent_len)
                one.may_store = one.arguments.lent_len;
            try_call(one);
        }
}

/* ---- Refused calls ---- */

#define REFUSED(number, place) { REF_REFUSED, number, place }

/* A row that is at fault, beside one that is not. */
struct refused_row {
    const char *name;
    struct ref_row row;
    struct ref_reply reply;
};

static const struct ref_row beside_refused = { 7, 0, 1, 4, 3125, 1, 1, 1 };
static const struct refused_row all_refused[] = {
    { "id 256", { 256, 0, 1, 4, 32, 1, 1, 2 }, REFUSED(6, 256) },
    { "id repeated", { 7, 0, 1, 4, 32, 1, 1, 2 }, REFUSED(7, 7) },
    { "offset 10,001", { 9, 10001, 1, 4, 32, 1, 1, 2 }, REFUSED(8, 9) },
    { "wcet 0", { 9, 0, 0, 4, 32, 1, 1, 2 }, REFUSED(8, 9) },
    { "priority 0", { 9, 0, 1, 4, 32, 1, 1, 0 }, REFUSED(9, 9) },
    { "priority shared", { 9, 0, 1, 4, 32, 1, 1, 1 }, REFUSED(10, 7) },
    { "deadline above period", { 9, 0, 1, 33, 32, 1, 1, 2 }, REFUSED(11, 9) },
    { "resume above start", { 9, 0, 1, 4, 32, 1, 2, 2 }, REFUSED(12, 9) },
    { "H of 103,125", { 9, 0, 1, 4, 33, 1, 1, 2 }, REFUSED(13, 0) },
};
enum { ALL_REFUSED = sizeof all_refused / sizeof all_refused[0] };

/* Every function gives the same refusal. */
static void try_refused(const struct side *side, const char *name, const struct text *text,
                        const struct choices *policies_of, const struct choices *lengths_of,
                        struct ref_reply expected)
{
    for (int function = 0; function < FUNCTIONS; function++) {
        struct trial trial = trial_of(side, name, (enum function)function, text);
        trial.expected = expected;
        try_each(&trial, policies_of, lengths_of);
    }
}

static const struct ref_row good_rows[] = { { 1, 0, 2, 5, 5, 1, 1, 1 },
                                            { 2, 0, 3, 20, 20, 1, 1, 2 } };

/* Refusals 1 to 3, also where several of them apply. */
static void try_wrong_arguments(const struct side *side)
{
    const struct ref_reply policy = REFUSED(1, 0), buffer = REFUSED(2, 0), length = REFUSED(3, 0);
    struct text good, too_long;
    write_text(&good, good_rows, 2, plain_writing);
    too_long = good;
    while (too_long.length <= REF_TEXT_MOST)
        add_byte(&too_long, '0');
    try_refused(side, "wrong policy", &good, wrong_policies, lengths, policy);
    try_refused(side, "wrong policy and length", &too_long, wrong_policies, wrong_lengths, policy);
    try_refused(side, "wrong length", &good, policies, wrong_lengths, buffer);
    try_refused(side, "wrong length, text too long", &too_long, policies, wrong_lengths, buffer);
    try_refused(side, "text too long", &too_long, policies, lengths, length);
}

/* Refusals 5 to 13. */
static void try_wrong_rows(const struct side *side)
{
    const struct ref_row too_many[REF_ROWS_MOST + 1] = { { 0 } };
    const struct ref_reply number_of_rows = REFUSED(5, 0);
    struct text text;
    write_text(&text, too_many, 0, plain_writing);
    try_refused(side, "no row", &text, policies, lengths, number_of_rows);
    write_text(&text, too_many, REF_ROWS_MOST + 1, plain_writing);
    try_refused(side, "17 rows", &text, policies, lengths, number_of_rows);
    for (size_t i = 0; i < ALL_REFUSED; i++) {
        const struct ref_row rows[] = { beside_refused, all_refused[i].row };
        write_text(&text, rows, 2, plain_writing);
        try_refused(side, all_refused[i].name, &text, policies, lengths, all_refused[i].reply);
    }
}

/* Refusal 4, and 5 where line 1 is whole: a table cut off at every byte, in
 * quotes and at ends of lines too. Where it is cut decides which line is
 * ill-formed; the reference says it. */
static void try_cut_texts(const struct side *side)
{
    const struct writing some_quotes = { 0x96f3, 1 };
    struct text text;
    write_text(&text, good_rows, 2, some_quotes);
    while (text.length > 0) {
        struct ref_table table;
        text.length--;
        struct ref_reply expected = ref_read(REF_FIXED, text.bytes, text.length, &table);
        if (expected.kind == REF_REFUSED)
            try_refused(side, "cut off", &text, policies, lengths, expected);
    }
}

/* ---- Responses that are not accepted ---- */

/* A row beside the first good one. The reply is the same under every policy. */
struct not_accepted {
    const char *name;
    struct ref_row row;
    uint64_t allowance;
    struct ref_reply reply;
};

/* Up to the late miss many jobs complete. */
static const struct not_accepted all_not_accepted[] = {
    { "missed", { 2, 0, 5, 20, 20, 1, 1, 2 }, 20, { REF_MISSED, 20, 2 } },
    { "missed late", { 2, 200, 5, 20, 20, 1, 1, 2 }, ALLOWANCE, { REF_MISSED, 220, 2 } },
    { "undecided before a miss", { 2, 200, 5, 20, 20, 1, 1, 2 }, 219, { REF_UNDECIDED, 0, 0 } },
    { "undecided", { 2, 0, 3, 20, 20, 1, 1, 2 }, 19, { REF_UNDECIDED, 0, 0 } },
    { "undecided at once", { 2, 0, 3, 20, 20, 1, 1, 2 }, 0, { REF_UNDECIDED, 0, 0 } },
};
enum { ALL_NOT_ACCEPTED = sizeof all_not_accepted / sizeof all_not_accepted[0] };

static void try_not_accepted(const struct side *side, const struct not_accepted *table)
{
    const struct ref_row rows[] = { good_rows[0], table->row };
    struct text text;
    write_text(&text, rows, 2, plain_writing);
    struct trial trial = trial_of(side, table->name, RESPONSES, &text);
    trial.arguments.allowance = table->allowance;
    trial.expected = table->reply;
    try_each(&trial, policies, lengths);
}

/* ---- Calls that store ---- */

/* Tables in which the task that comes i-th in ascending id loads in slot 2 x i
 * and executes in the next, under every policy and again in each period. */
enum { TASK_SLOTS = 2, PERIOD = TASK_SLOTS * REF_ROWS_MOST };

static uint8_t id_of(size_t i)
{
    return (uint8_t)(1 + 16 * i);
}

/* The largest id comes first. Every other table leaves the last line's ending
 * out, so that a digit or a quote is at the page's end. */
static void write_even_table(struct text *text, size_t count)
{
    struct ref_row rows[REF_ROWS_MOST];
    const struct writing writing = { 0x5555aaaa5555aaaa, count % 2 == 0 };
    for (size_t i = 0; i < count; i++) {
        const struct ref_row row = { id_of(i), 0, 1, PERIOD, PERIOD, 1, 1, (uint32_t)i + 1 };
        rows[count - 1 - i] = row;
    }
    write_text(text, rows, count, writing);
}

static void expect_slots(size_t count)
{
    for (size_t slot = 0; slot < REF_SLOTS_MOST / 2; slot++) {
        size_t i = slot % PERIOD / TASK_SLOTS;
        if (i < count) {
            stored[2 * slot] = id_of(i);
            stored[2 * slot + 1] = slot % TASK_SLOTS == 0 ? 1 : 2;
        }
    }
}

/* What has to come of a trial with the table of so many rows. */
static void expect_stores(struct trial *trial, size_t count)
{
    memset(stored, 0, sizeof stored);
    switch (trial->function) {
    case VERDICT:
        trial->expected = (struct ref_reply){ REF_ACCEPTED, PERIOD, 0 };
        break;
    case RESPONSES:
        trial->expected = (struct ref_reply){ REF_ACCEPTED, PERIOD, 0 };
        trial->may_store = REF_RESPONSE_BYTES * count;
        for (size_t i = 0; i < count; i++)
            stored[REF_RESPONSE_BYTES * i] = (uint8_t)(TASK_SLOTS * (i + 1));
        break;
    case IDS:
        trial->expected = (struct ref_reply){ REF_WRITTEN, count, 0 };
        trial->may_store = count;
        for (size_t i = 0; i < count; i++)
            stored[i] = id_of(i);
        break;
    default:
        trial->expected = (struct ref_reply){ REF_FILLED, 0, 0 };
        trial->may_store = REF_SLOTS_MOST;
        expect_slots(count);
    }
}

static void try_stores(const struct side *side, size_t count)
{
    struct text text;
    char name[16];
    write_even_table(&text, count);
    snprintf(name, sizeof name, "%zu rows", count);
    for (int function = 0; function < FUNCTIONS; function++) {
        struct trial trial = trial_of(side, name, (enum function)function, &text);
        expect_stores(&trial, count);
        try_each(&trial, policies, lengths);
    }
}

/* ---- The program ---- */

static void try_side(const struct side *side)
{
    try_wrong_arguments(side);
    try_wrong_rows(side);
    try_cut_texts(side);
    for (size_t i = 0; i < ALL_NOT_ACCEPTED; i++)
        try_not_accepted(side, &all_not_accepted[i]);
    for (size_t count = 1; count <= REF_ROWS_MOST; count++)
        try_stores(side, count);
}

int main(void)
{
    make_regions();
    if (!can_tell()) {
        printf("cannot tell: protected memory can be touched here, or other memory cannot\n"
               "0 passed, 1 failed\n");
        return EXIT_FAILURE;
    }
    try_side(&reference_side);
    try_side(&otter_side);
    printf("%d passed, %d failed\n", passed, failed);
    return failed != 0;
}
