/*
 * An implementation of the specification (document 01) in plain C, slot by
 * slot and literal, to compare the checker with. It is written from that
 * document and shares no line with the checker, nor with its header.
 */
#ifndef REFERENCE_H
#define REFERENCE_H

#include <stddef.h>
#include <stdint.h>

/* The limits of the table and of lent buffers. */
enum {
    REF_TEXT_MOST = 4096,
    REF_ROWS_MOST = 16,
    REF_ID_MOST = 255,
    REF_PRIORITY_MOST = 255,
    REF_TIME_MOST = 10000,
    REF_HYPER_PERIOD_MOST = 100000,
    REF_FIELDS = 8,
    REF_DIGITS_MOST = 5,
    REF_SLOTS_MOST = 65536,
    REF_RESPONSE_BYTES = 4,
    REF_RESPONSES_LEAST = REF_ROWS_MOST * REF_RESPONSE_BYTES,
    REF_IDS_LEAST = REF_ROWS_MOST
};

enum ref_kind {
    REF_ACCEPTED = 1,
    REF_MISSED,
    REF_UNDECIDED,
    REF_REFUSED,
    REF_FILLED,
    REF_WRITTEN
};

/* number: slots needed, miss time, refusal number or rows written; place:
 * missed id or the refusal's place; 0 where there is none. */
struct ref_reply {
    enum ref_kind kind;
    uint64_t number;
    uint32_t place;
};

enum ref_policy {
    REF_FIXED = 1,
    REF_PERIOD,
    REF_DEADLINE,
    REF_ABSOLUTE_DEADLINE
};

/* One row, its fields in the order of line 1. */
struct ref_row {
    uint32_t id, offset, wcet, deadline, period, start, resume, priority;
};

/* A table that has passed all checks, rows in the order of the text. */
struct ref_table {
    size_t count;
    struct ref_row rows[REF_ROWS_MOST];
    uint64_t omax;
    uint64_t hyper_period;
};

/* Line 1, without its line end. */
extern const char ref_header[];

/* A switch for faults that a comparison has to notice; 0 is none. */
enum ref_fault {
    REF_FAULT_NONE,
    REF_FAULT_TIES_BY_ROW,   /* equal goes to the earlier row, not to the smaller id */
    REF_FAULT_CUT_RESUMES,   /* a job whose first loading was cut short pays resume */
    REF_FAULT_LATE_TEST,     /* deadline t is tested after slot t */
    REF_FAULT_MOST = REF_FAULT_LATE_TEST
};
extern int ref_fault;

/* Checks 1 and 3 to 13 as for a verdict. The reply is accepted, without a
 * number, if none fails; then the table is filled in. */
struct ref_reply ref_read(uint32_t policy, const uint8_t *text, size_t text_len,
                          struct ref_table *table);

/* The document's four functions. Buffers are as the C boundary has them. */
struct ref_reply ref_verdict(uint32_t policy, uint64_t allowance,
                             const uint8_t *text, size_t text_len);
struct ref_reply ref_responses(uint32_t policy, uint64_t allowance,
                               const uint8_t *text, size_t text_len,
                               uint8_t *responses, size_t responses_len);
struct ref_reply ref_schedule(uint32_t policy, const uint8_t *text, size_t text_len,
                              uint8_t *slots, size_t slots_len);
struct ref_reply ref_as_run(uint32_t policy, const uint8_t *text, size_t text_len,
                            const uint32_t *requests, size_t requests_len,
                            const uint32_t *loadings, size_t loadings_len,
                            uint8_t *slots, size_t slots_len);

/* The ids in ascending order. The document does not have it; the words are: "At
 * least 16 lent bytes, else refusal 2; then 3 on (no policy is asked, so no
 * refusal 1); reply written, its number the rows; bytes past them stay." */
struct ref_reply ref_ids(const uint8_t *text, size_t text_len,
                         uint8_t *ids, size_t ids_len);

#endif
