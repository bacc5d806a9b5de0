/*
 * The tables worked by hand in the specification (document 01), the figures
 * of its source 000 and a few more, and every reply of ids, tried on the
 * reference and on the checker. Ends in "N passed, 0 failed".
 */
#include "event.h"
#include "sides.h"
#include "tables.h"

#include <stdio.h>
#include <string.h>

enum { ANY_POLICY = 0, ROWS_WORKED = 3, ALLOWANCE = 10000000, SLOTS = 40 };

/* A table, a policy, the verdict, and the responses in ascending id where
 * they are known (0 where not). */
struct worked {
    const char *name;
    uint32_t policy;
    size_t count;
    struct ref_row rows[ROWS_WORKED];
    struct ref_reply verdict;
    uint32_t responses[ROWS_WORKED];
};

#define ACCEPTED(slots) { REF_ACCEPTED, slots, 0 }
#define MISSED(time, id) { REF_MISSED, time, id }
#define REFUSED(number, place) { REF_REFUSED, number, place }
#define WRITTEN(rows) { REF_WRITTEN, rows, 0 }

static const struct worked all_worked[] = {
    { "first table, figure 3", ANY_POLICY, 2,
      { { 1, 0, 2, 5, 5, 1, 1, 1 }, { 2, 0, 3, 20, 20, 1, 1, 2 } }, ACCEPTED(20), { 3, 15 } },
    { "figure 1", 4, 2,
      { { 1, 0, 4, 5, 5, 0, 0, 1 }, { 2, 0, 5, 20, 20, 0, 0, 2 } }, MISSED(20, 2), { 0 } },
    { "figure 7a", 4, 2,
      { { 1, 0, 1, 2, 5, 1, 1, 1 }, { 2, 0, 2, 5, 10, 1, 1, 2 } }, ACCEPTED(10), { 2, 5 } },
    { "figure 7b", 4, 2,
      { { 1, 1, 1, 2, 5, 1, 1, 1 }, { 2, 0, 2, 5, 10, 1, 1, 2 } }, MISSED(5, 2), { 0 } },
    { "the program's table, figure 8b", 1, 2,
      { { 1, 0, 1, 6, 6, 3, 3, 1 }, { 2, 2, 1, 3, 3, 0, 0, 2 } }, ACCEPTED(8), { 4, 3 } },
    { "the program's table, figure 8a", 4, 2,
      { { 1, 0, 1, 6, 6, 3, 3, 1 }, { 2, 2, 1, 3, 3, 0, 0, 2 } }, MISSED(6, 1), { 0 } },
    { "sixth table", 1, 2,
      { { 1, 2, 1, 3, 10, 0, 0, 1 }, { 2, 0, 1, 10, 10, 3, 0, 2 } }, ACCEPTED(12), { 1, 7 } },
    { "one row, deadline 3", ANY_POLICY, 1, { { 5, 0, 2, 3, 5, 1, 1, 1 } }, ACCEPTED(5), { 3 } },
    { "one row, deadline 2", ANY_POLICY, 1, { { 5, 0, 2, 2, 5, 1, 1, 1 } }, MISSED(2, 5), { 0 } },
    { "one row, wcet 4", ANY_POLICY, 1, { { 1, 0, 4, 5, 5, 1, 0, 1 } }, ACCEPTED(5), { 5 } },
    { "one row, wcet 5", ANY_POLICY, 1, { { 1, 0, 5, 5, 5, 1, 0, 1 } }, MISSED(5, 1), { 0 } },
    { "tie", 4, 2,
      { { 7, 0, 1, 2, 2, 0, 0, 2 }, { 3, 0, 1, 2, 2, 0, 0, 1 } }, ACCEPTED(2), { 1, 2 } },
    { "H of 100,000", ANY_POLICY, 2,
      { { 1, 0, 1, 3125, 3125, 0, 0, 1 }, { 2, 0, 1, 32, 32, 0, 0, 2 } }, ACCEPTED(100000), { 0 } },
    { "H of 103,125", ANY_POLICY, 2,
      { { 1, 0, 1, 3125, 3125, 0, 0, 1 }, { 2, 0, 1, 33, 33, 0, 0, 2 } }, REFUSED(13, 0), { 0 } },
    { "figure 6a", 4, 3,
      { { 1, 3, 1, 6, 15, 1, 1, 1 }, { 2, 0, 2, 9, 15, 1, 1, 2 }, { 3, 2, 2, 7, 15, 2, 2, 3 } },
      ACCEPTED(18), { 2, 3, 7 } },
    { "least k is 2", 4, 2,
      { { 1, 0, 1, 6, 6, 1, 0, 1 }, { 2, 2, 2, 3, 3, 0, 0, 2 } }, ACCEPTED(20), { 0 } },
    { "a miss after Omax + 2H", 4, 2,
      { { 1, 0, 1, 3, 3, 1, 1, 1 }, { 2, 2, 1, 3, 3, 1, 1, 2 } }, MISSED(9, 1), { 0 } },
    { "only the loading left differs", 4, 2,
      { { 1, 0, 1, 2, 2, 1, 0, 1 }, { 2, 1, 1, 2, 2, 0, 0, 2 } }, MISSED(4, 1), { 0 } },
    { "a new job loads anew after its predecessor", 1, 2,
      { { 1, 0, 1, 2, 2, 1, 1, 1 }, { 2, 3, 1, 3, 3, 0, 0, 2 } }, MISSED(6, 2), { 0 } },
};
enum { WORKED = sizeof all_worked / sizeof all_worked[0] };

static int passed, failed;

static void check(int holds, const struct side *side, const char *name, const char *what)
{
    if (holds) {
        passed++;
        return;
    }
    failed++;
    printf("failed: %s: %s: %s\n", side->name, name, what);
}

static void check_reply(struct ref_reply reply, struct ref_reply expected,
                        const struct side *side, const char *name)
{
    check(equal_replies(reply, expected), side, name, reply_words(reply));
}

static const struct worked *worked_named(const char *name)
{
    size_t i = 0;
    while (strcmp(all_worked[i].name, name) != 0)
        i++;
    return &all_worked[i];
}

static void write_worked(struct text *text, const struct worked *worked)
{
    write_text(text, worked->rows, worked->count, plain_writing);
}

/* Allowances just below, at and above the slots needed. */
static void try_allowances(const struct worked *worked, const struct side *side,
                           uint32_t policy, const struct text *text)
{
    const struct ref_reply undecided = { REF_UNDECIDED, 0, 0 };
    uint64_t needed = worked->verdict.number;
    check_reply(side->verdict(policy, needed + 1, text->bytes, text->length),
                worked->verdict, side, worked->name);
    if (worked->verdict.kind == REF_REFUSED)
        return;
    check_reply(side->verdict(policy, needed, text->bytes, text->length),
                worked->verdict, side, worked->name);
    check_reply(side->verdict(policy, needed - 1, text->bytes, text->length),
                undecided, side, worked->name);
    check_reply(side->verdict(policy, 0, text->bytes, text->length),
                undecided, side, worked->name);
}

static uint32_t response_at(const uint8_t *bytes)
{
    return (uint32_t)bytes[0] | (uint32_t)bytes[1] << 8 | (uint32_t)bytes[2] << 16 |
           (uint32_t)bytes[3] << 24;
}

static void try_responses(const struct worked *worked, const struct side *side,
                          uint32_t policy, const struct text *text)
{
    uint8_t lent[REF_RESPONSES_LEAST] = { 0 };
    struct ref_reply reply = side->responses(policy, ALLOWANCE, text->bytes, text->length,
                                             lent, sizeof lent);
    check_reply(reply, worked->verdict, side, worked->name);
    for (size_t i = 0; i < worked->count; i++)
        if (worked->responses[i] != 0)
            check(response_at(lent + i * REF_RESPONSE_BYTES) == worked->responses[i],
                  side, worked->name, "response");
}

static void try_worked(const struct worked *worked, const struct side *side)
{
    struct text text;
    write_worked(&text, worked);
    for (uint32_t policy = 1; policy <= REF_ABSOLUTE_DEADLINE; policy++) {
        if (worked->policy != ANY_POLICY && worked->policy != policy)
            continue;
        try_allowances(worked, side, policy, &text);
        try_responses(worked, side, policy, &text);
    }
}

/* The lines that the table program prints. */
static void program_lines(const struct side *side, const struct text *text,
                          char *lines, size_t room)
{
    static const char *const kinds[] = { "?", "accepted", "missed", "undecided", "refused" };
    size_t used = 0;
    for (uint32_t policy = 1; policy <= REF_ABSOLUTE_DEADLINE; policy++) {
        struct ref_reply reply = side->verdict(policy, ALLOWANCE, text->bytes, text->length);
        uint64_t number = reply.kind == REF_UNDECIDED ? ALLOWANCE : reply.number;
        used += (size_t)snprintf(lines + used, room - used, "%u %s %llu %u\n", (unsigned)policy,
                                 kinds[reply.kind % 5], (unsigned long long)number,
                                 (unsigned)reply.place);
    }
}

static void try_program_lines(const struct side *side)
{
    struct text text = { { 0 }, 0 };
    char lines[256];
    add_string(&text, "id,offset,wcet,deadline,period,start,resume,priority\r\n"
                      "1,0,1,6,6,3,3,1\r\n2,2,1,3,3,0,0,2\r\n");
    program_lines(side, &text, lines, sizeof lines);
    check(strcmp(lines, "1 accepted 8 0\n2 missed 6 1\n3 missed 6 1\n4 missed 6 1\n") == 0,
          side, "the program's table", "its four lines");
}

/* When the first job of an id completes in a run, if its next job has no slot
 * among those looked at. */
static uint64_t completion(const struct side *side, const struct worked *worked, uint32_t policy,
                           const uint32_t *requests, size_t requests_len, uint8_t id, size_t slots)
{
    struct text text;
    uint8_t lent[2 * SLOTS];
    uint64_t end = 0;
    write_worked(&text, worked);
    side->as_run(policy, text.bytes, text.length, requests, requests_len, NULL, 0, lent, 2 * slots);
    for (size_t t = 0; t < slots; t++)
        if (lent[2 * t] == id && lent[2 * t + 1] == 2)
            end = t + 1;
    return end;
}

/* "First table, policy 4, first request 1: id 2 completes at 10, not 15." */
static void try_first_request(const struct side *side)
{
    const uint32_t one[] = { 1 };
    const struct worked *first = worked_named("first table, figure 3");
    check(completion(side, first, 4, NULL, 0, 2, 20) == 15, side, first->name, "id 2 not at 15");
    check(completion(side, first, 4, one, 1, 2, 20) == 10, side, first->name, "id 2 not at 10");
}

/* Figure 6b: id 2 asks for 1 slot, and id 3 completes when it did. */
static void try_figure_six(const struct side *side)
{
    const uint32_t one[] = { 1 };
    const struct worked *figure = worked_named("figure 6a");
    check(completion(side, figure, 4, one, 1, 3, 17) == completion(side, figure, 4, NULL, 0, 3, 17),
          side, "figure 6b", "response of id 3");
}

/* "slot 0 is id 3's, in either row order" */
static void try_tie(const struct side *side)
{
    const struct ref_row rows[] = { { 7, 0, 1, 2, 2, 0, 0, 2 }, { 3, 0, 1, 2, 2, 0, 0, 1 },
                                    { 7, 0, 1, 2, 2, 0, 0, 2 } };
    for (size_t first = 0; first < 2; first++) {
        struct text text;
        uint8_t slots[4] = { 0 };
        write_text(&text, rows + first, 2, plain_writing);
        side->schedule(4, text.bytes, text.length, slots, sizeof slots);
        check(slots[0] == 3 && slots[1] == 2 && slots[2] == 7, side, "tie", "slot 0");
    }
}

/* What the document says of the fault of paying resume for a first loading
 * that was cut: the sixth table "would give response 4. With start 5 instead
 * of 3 it would still give 4, but 6 when id 1 asks for nothing". */
static void try_cut_fault(void)
{
    const struct side *side = &reference_side;
    const uint32_t nothing[] = { 1, 0 };
    struct worked sixth = *worked_named("sixth table");
    ref_fault = REF_FAULT_CUT_RESUMES;
    check(completion(side, &sixth, 1, NULL, 0, 2, 10) == 4, side, sixth.name, "faulty response");
    sixth.rows[1].start = 5;
    check(completion(side, &sixth, 1, NULL, 0, 2, 10) == 4, side, sixth.name, "faulty response, start 5");
    check(completion(side, &sixth, 1, nothing, 2, 2, 10) == 6, side, sixth.name, "faulty run");
    ref_fault = REF_FAULT_NONE;
    check(completion(side, &sixth, 1, NULL, 0, 2, 10) == 9, side, sixth.name, "response, start 5");
}

/* ---- Ids ---- */

enum { IDS_ROWS = 4, IDS_ROOM = 40, STAYS = 0xa5 };

/* Rows, what ids replies, and the ids if it writes them. */
struct ids_worked {
    const char *name;
    size_t count;
    struct ref_row rows[IDS_ROWS];
    struct ref_reply reply;
    uint8_t ids[IDS_ROWS];
};

/* In those named "n before m", both checks fail. */
static const struct ids_worked all_ids[] = {
    { "one row", 1, { { 255, 0, 1, 2, 2, 0, 0, 1 } }, WRITTEN(1), { 255 } },
    { "three rows", 3,
      { { 200, 0, 1, 4, 4, 0, 0, 1 }, { 7, 0, 1, 4, 4, 0, 0, 2 }, { 31, 0, 1, 4, 4, 0, 0, 3 } },
      WRITTEN(3), { 7, 31, 200 } },
    { "a deadline is missed", 1, { { 5, 0, 2, 2, 5, 1, 1, 1 } }, WRITTEN(1), { 5 } },
    { "ids of H 100,000", 2,
      { { 2, 0, 1, 3125, 3125, 0, 0, 1 }, { 1, 0, 1, 32, 32, 0, 0, 2 } }, WRITTEN(2), { 1, 2 } },
    { "no row", 0, { { 0 } }, REFUSED(5, 0), { 0 } },
    { "id 0", 2, { { 9, 0, 1, 4, 4, 0, 0, 1 }, { 0, 0, 1, 4, 4, 0, 0, 2 } }, REFUSED(6, 0), { 0 } },
    { "6 before 7", 4,
      { { 300, 0, 1, 4, 4, 0, 0, 1 }, { 256, 0, 1, 4, 4, 0, 0, 2 },
        { 2, 0, 1, 4, 4, 0, 0, 3 }, { 2, 0, 1, 4, 4, 0, 0, 4 } }, REFUSED(6, 256), { 0 } },
    { "7 before 8", 4,
      { { 9, 0, 0, 4, 4, 0, 0, 1 }, { 9, 0, 1, 4, 4, 0, 0, 2 },
        { 4, 0, 1, 4, 4, 0, 0, 3 }, { 4, 0, 1, 4, 4, 0, 0, 4 } }, REFUSED(7, 4), { 0 } },
    { "8 before 9", 3,
      { { 9, 10001, 1, 4, 4, 0, 0, 1 }, { 4, 0, 1, 4, 4, 10001, 0, 2 },
        { 2, 0, 1, 4, 4, 0, 0, 256 } }, REFUSED(8, 4), { 0 } },
    { "9 before 10", 4,
      { { 9, 0, 1, 4, 4, 0, 0, 256 }, { 4, 0, 1, 4, 4, 0, 0, 0 },
        { 2, 0, 1, 4, 4, 0, 0, 7 }, { 3, 0, 1, 4, 4, 0, 0, 7 } }, REFUSED(9, 4), { 0 } },
    { "10 before 11", 3,
      { { 9, 0, 1, 4, 4, 0, 0, 7 }, { 4, 0, 1, 4, 4, 0, 0, 7 }, { 2, 0, 5, 4, 4, 0, 0, 1 } },
      REFUSED(10, 4), { 0 } },
    { "11 before 12", 3,
      { { 9, 0, 5, 4, 4, 0, 0, 1 }, { 4, 0, 1, 5, 4, 0, 0, 2 }, { 2, 0, 1, 4, 4, 0, 1, 3 } },
      REFUSED(11, 4), { 0 } },
    { "12 before 13", 2,
      { { 9, 0, 1, 4, 3125, 0, 1, 1 }, { 4, 0, 1, 4, 33, 1, 2, 2 } }, REFUSED(12, 4), { 0 } },
    { "ids of H 103,125", 2,
      { { 2, 0, 1, 4, 3125, 0, 0, 1 }, { 1, 0, 1, 4, 33, 0, 0, 2 } }, REFUSED(13, 0), { 0 } },
};
enum { IDS_WORKED = sizeof all_ids / sizeof all_ids[0] };

/* Bytes that hold no id have to stay, those behind the lent ones too. */
static void check_ids(const struct side *side, const char *name, const struct text *text,
                      size_t lent_len, struct ref_reply reply, const uint8_t *ids)
{
    uint8_t lent[IDS_ROOM], expected[IDS_ROOM];
    memset(lent, STAYS, sizeof lent);
    memset(expected, STAYS, sizeof expected);
    if (reply.kind == REF_WRITTEN)
        memcpy(expected, ids, (size_t)reply.number);
    check_reply(side->ids(text->bytes, text->length, lent, lent_len), reply, side, name);
    check(memcmp(lent, expected, sizeof lent) == 0, side, name, "lent bytes of ids");
}

/* Too few bytes are refusal 2, whatever else is wrong. */
static void try_ids(const struct side *side, const char *name, const struct text *text,
                    struct ref_reply reply, const uint8_t *ids)
{
    const struct ref_reply too_few = REFUSED(2, 0);
    check_ids(side, name, text, 0, too_few, ids);
    check_ids(side, name, text, REF_IDS_LEAST - 1, too_few, ids);
    check_ids(side, name, text, REF_IDS_LEAST, reply, ids);
    check_ids(side, name, text, REF_IDS_LEAST + 1, reply, ids);
    check_ids(side, name, text, IDS_ROOM, reply, ids);
}

/* Whichever row comes first. */
static void try_sixteen_ids(const struct side *side)
{
    struct ref_row rows[2 * REF_ROWS_MOST];
    uint8_t ids[REF_ROWS_MOST];
    for (uint32_t i = 0; i < REF_ROWS_MOST; i++) {
        const struct ref_row row = { 1 + 16 * (7 * i % 16), 0, 1, 16, 16, 0, 0, 1 + i };
        rows[i] = rows[i + REF_ROWS_MOST] = row;
        ids[i] = (uint8_t)(1 + 16 * i);
    }
    for (size_t first = 0; first < REF_ROWS_MOST; first++) {
        const struct ref_reply written = WRITTEN(REF_ROWS_MOST);
        struct text text;
        write_text(&text, rows + first, REF_ROWS_MOST, plain_writing);
        try_ids(side, "16 rows", &text, written, ids);
    }
}

static void try_refused_ids(const struct side *side, const char *name, const struct text *text,
                            uint64_t number, uint32_t place)
{
    const struct ref_reply refused = REFUSED(number, place);
    try_ids(side, name, text, refused, NULL);
}

/* Refusals 3 to 5, as far as rows alone do not give them. */
static void try_ids_of_texts(const struct side *side)
{
    const struct ref_row too_many[REF_ROWS_MOST + 1] = { { 0 } };
    struct text text = { { 0 }, 0 };
    try_refused_ids(side, "empty text", &text, 4, 1);
    write_text(&text, too_many, REF_ROWS_MOST + 1, plain_writing);
    try_refused_ids(side, "5 before 6", &text, 5, 0);
    write_text(&text, too_many, 0, plain_writing);
    add_string(&text, "\r\n");
    try_refused_ids(side, "4 before 5", &text, 4, 2);
    while (text.length < REF_TEXT_MOST)
        add_byte(&text, '0');
    try_refused_ids(side, "4,096 bytes", &text, 4, 2);
    add_byte(&text, '0');
    try_refused_ids(side, "3 before 4", &text, 3, 0);
}

static void try_all_ids(const struct side *side)
{
    for (size_t i = 0; i < IDS_WORKED; i++) {
        const struct ids_worked *worked = &all_ids[i];
        struct text text;
        write_text(&text, worked->rows, worked->count, plain_writing);
        try_ids(side, worked->name, &text, worked->reply, worked->ids);
    }
    try_sixteen_ids(side);
    try_ids_of_texts(side);
}

static void try_side(const struct side *side)
{
    for (size_t i = 0; i < WORKED; i++)
        try_worked(&all_worked[i], side);
    try_program_lines(side);
    try_first_request(side);
    try_figure_six(side);
    try_tie(side);
    try_all_ids(side);
}

/* The event-driven implementation has a verdict only. */
static void try_event(void)
{
    struct side event = reference_side;
    event.name = "event";
    event.verdict = event_verdict;
    try_side(&event);
}

int main(void)
{
    try_side(&reference_side);
    try_side(&otter_side);
    try_event();
    try_cut_fault();
    printf("%d passed, %d failed\n", passed, failed);
    return failed != 0;
}
