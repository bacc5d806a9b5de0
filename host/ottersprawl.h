/*
 * Ottersprawl: a schedulability checker for the task tables of lift
 * controller panels. One processor, whole-number time, up to 16 periodic
 * tasks, four policies.
 *
 * Everything is in five functions: otter_verdict, otter_responses,
 * otter_schedule, otter_as_run and otter_ids. Each of them takes a task table
 * as text and returns one 64-bit reply, which the inline functions below take
 * apart.
 *
 *     uint64_t reply = otter_verdict(4, 1000000, text, text_len);
 *     if (otter_kind(reply) == OTTER_MISSED)
 *         printf("id %u misses its deadline at %llu\n",
 *                (unsigned)otter_place(reply),
 *                (unsigned long long)otter_number(reply));
 *
 * What holds for all of them:
 *
 * - Any arguments get a reply and every call comes to an end. Nothing has to
 *   be checked before a call: a text that is half typed, damaged or far too
 *   long is refused, and the reply says why and where.
 * - The order of the rows never matters. Ties go to the smaller id.
 * - A pointer may be null where its length is 0. A pointer whose length is
 *   not 0 points to at least that many bytes (or numbers), and the memory
 *   written to (`responses`, `slots`, `ids`) overlaps no other argument.
 * - They keep no state, allocate nothing, and use only the memory they are
 *   lent, until they return. They may be called from several threads at
 *   once, as long as no two calls are lent the same memory to write to.
 * - A refused call stores nothing in the memory it was lent: that may even be
 *   read-only. Nor does otter_responses unless the table is accepted.
 *
 * The table is CSV as in RFC 4180, its lines ended by CR LF (the last line's
 * ending may be left out), no zero byte at its end. Line 1 is exactly
 *
 *     id,offset,wcet,deadline,period,start,resume,priority
 *
 * and every later line is one row of eight fields, each one to five decimal
 * digits with no leading zero (0 itself is one digit, 07 is ill-formed), bare
 * or in one pair of double quotes:
 *
 *     id        1 to 255, different in every row
 *     offset    0 to 10,000: when the first job is released
 *     wcet      1 to 10,000: slots that a job executes at most
 *     deadline  1 to 10,000: slots from a job's release to its deadline
 *     period    1 to 10,000: slots from one release to the next
 *     start     0 to 10,000: loading slots before a job first executes
 *     resume    0 to 10,000: loading slots when it comes back after another
 *     priority  1 to 255, different in every row: smaller goes first
 *
 * with wcet <= deadline <= period, resume <= start, and the least common
 * multiple of the periods at most 100,000.
 *
 * The policies are the numbers 1 to 4. They say which job a slot goes to:
 *
 *     1  the smaller priority number
 *     2  the smaller period
 *     3  the smaller deadline as written in the table
 *     4  the earlier point in time at which the job's deadline falls
 *
 * What a call costs. Times are measured, not proved: on one core of an x86-64
 * server, the first call with each table, as at a keystroke. host/slowest.c
 * measures them on another machine.
 *
 * - Stack: at most 8,192 bytes (OTTER_STACK_MOST). Nothing is allocated.
 * - Reading the table: 5 to 20 microseconds, also where it is refused; up to
 *   100 were seen. otter_ids does no more than that.
 * - Each slot up to the verdict or to the end of the lent slots: mostly a few
 *   nanoseconds or less, since nothing is spent on a slot in which nothing
 *   happens. What costs most is many rows with short, unlike periods, most of
 *   all under policy 4: a release and a completion in almost every slot, in no
 *   order that the processor could learn. Half of such tables take 15 ns a
 *   slot, 99 of 100 at most 40, and 68 were seen. So plan with 100 ns for each
 *   slot of the allowance, 0.1 s for 1,000,000 and a second for 10,000,000.
 *   2^48 may take months; but tables that need more than 10,000,000 slots are
 *   rare.
 */
#ifndef OTTERSPRAWL_H
#define OTTERSPRAWL_H

#include <stddef.h>
#include <stdint.h>

#ifdef __cplusplus
extern "C" {
#endif

/* Which kind of reply it is: otter_kind. */
enum otter_kind {
    OTTER_ACCEPTED = 1,  /* no job ever misses its deadline */
    OTTER_MISSED = 2,    /* a job misses its deadline */
    OTTER_UNDECIDED = 3, /* the allowance is too small to tell */
    OTTER_REFUSED = 4,   /* the arguments or the table are at fault */
    OTTER_FILLED = 5,    /* the slots are written and none of them is missed */
    OTTER_WRITTEN = 6    /* what was asked for is written */
};

/*
 * Why a call was refused: otter_number of a refused reply. If several apply
 * it is the first in this order. After the colon stands what otter_place
 * gives; ids are given as they are written, also where they are wrong.
 */
enum otter_refusal {
    OTTER_REFUSAL_POLICY = 1,          /* policy not 1 to 4: 0 */
    OTTER_REFUSAL_BUFFER = 2,          /* lent buffer has a wrong length: 0 */
    OTTER_REFUSAL_TEXT_LENGTH = 3,     /* text over 4,096 bytes: 0 */
    OTTER_REFUSAL_LINE = 4,            /* a line ill-formed: the first such line, from 1 */
    OTTER_REFUSAL_ROWS = 5,            /* no row, or over 16: 0 */
    OTTER_REFUSAL_ID = 6,              /* id not 1 to 255: the smallest such id */
    OTTER_REFUSAL_ID_REPEATED = 7,     /* id repeated: the smallest such id */
    OTTER_REFUSAL_TIME = 8,            /* a time out of range: the smallest id of such a row */
    OTTER_REFUSAL_PRIORITY = 9,        /* priority not 1 to 255: the same */
    OTTER_REFUSAL_PRIORITY_SHARED = 10, /* priority shared by two rows: the same */
    OTTER_REFUSAL_DEADLINE = 11,       /* not wcet <= deadline <= period: the same */
    OTTER_REFUSAL_RESUME = 12,         /* resume above start: the same */
    OTTER_REFUSAL_HYPER_PERIOD = 13    /* common multiple of the periods above 100,000: 0 */
};

/* What a slot is used for: the second of the two bytes of a slot. */
enum otter_slot {
    OTTER_SLOT_IDLE = 0,
    OTTER_SLOT_LOADING = 1,
    OTTER_SLOT_EXECUTING = 2,
    OTTER_SLOT_MISSED = 3 /* at or after the time of a miss */
};

/* The most bytes of a text; bytes that otter_responses and otter_ids have to
 * be lent; the most that otter_schedule and otter_as_run may be lent. */
#define OTTER_TEXT_LEN_MOST 4096
#define OTTER_RESPONSES_LEN 64
#define OTTER_IDS_LEN 16
#define OTTER_SLOTS_LEN_MOST 65536

/* The allowance that decides every table, and the stack that a call may use. */
#define OTTER_ALLOWANCE_DECIDES ((uint64_t)1 << 48)
#define OTTER_STACK_MOST 8192

/*
 * Does every job meet its deadline, for ever?
 *
 * policy     1 to 4, as above.
 * allowance  how many slots may be looked at. 2^48 always decides, but may
 *            take long: a panel's editor passes what it has time for (see
 *            above, what a call costs).
 * text       the table, text_len bytes. It is only read.
 *
 * Replies:
 *   accepted   no job ever misses its deadline. The number is the slots
 *              needed to know it, at most the allowance.
 *   missed     the number is the time of the earliest missed deadline, the
 *              place is the id (the smallest, if several are missed then).
 *   undecided  the slots needed are more than the allowance. That is neither
 *              good nor bad: the table is not at fault, and no deadline is
 *              missed within the allowance. An editor says so, lets the user
 *              go on, and asks again with a larger allowance when it is idle
 *              or in another thread, until the table is decided or edited
 *              (host/show.c does). The larger call begins anew.
 *   refused    the number says why (enum otter_refusal, not 2), the place
 *              where.
 */
uint64_t otter_verdict(uint32_t policy, uint64_t allowance,
                       const uint8_t *text, size_t text_len);

/*
 * The verdict, and the worst response of every task. It includes the verdict,
 * at the same cost: a host that shows both calls this function alone.
 *
 * policy, allowance, text, text_len  as for otter_verdict.
 * responses  at least 64 bytes; fewer are refusal 2. If the table is
 *            accepted, the first 4 bytes for each row are written: for each
 *            task in ascending id a 32-bit number, lowest byte first
 *            (otter_response reads one), the most slots that pass from the
 *            release of one of its jobs to that job's completion. All other
 *            bytes stay as they were, and so do all bytes if the reply is
 *            missed, undecided or refused.
 *
 * Replies: those of otter_verdict, and refusal 2.
 */
uint64_t otter_responses(uint32_t policy, uint64_t allowance,
                         const uint8_t *text, size_t text_len,
                         uint8_t *responses, size_t responses_len);

/*
 * The schedule from time 0, slot by slot.
 *
 * policy, text, text_len  as for otter_verdict.
 * slots  slots_len bytes, two for each slot: the id whose slot it is, then
 *        what it is used for (enum otter_slot). Idle slots and those from a
 *        miss on have id 0. The length is even and at most 65,536, else it
 *        is refusal 2; it may be 0. Unless refused, every byte is written.
 *
 * Replies:
 *   filled   no deadline is missed up to the end of the last slot written.
 *   missed   the number is the time of the miss, the place is the id. A miss
 *            exactly at the end of the last slot is replied although no slot
 *            shows it.
 *   refused  as for otter_verdict, and refusal 2.
 */
uint64_t otter_schedule(uint32_t policy, const uint8_t *text, size_t text_len,
                        uint8_t *slots, size_t slots_len);

/*
 * The schedule of a run in which jobs and loadings may be shorter than the
 * table states.
 *
 * policy, text, text_len, slots, slots_len  as for otter_schedule.
 * requests  requests_len numbers (not bytes): how many slots each job asks
 *           to execute, in the order in which jobs are released, those
 *           released at the same time in ascending id. A job gets the lesser
 *           of it and its wcet; one that asks for 0 is complete at once.
 * loadings  loadings_len numbers: how long each loading takes, in the order
 *           in which loadings begin, one number also for a loading that is
 *           cut short and for each time it begins anew. It takes the lesser
 *           of it and the start or resume that the table states. Where the
 *           table states 0 no number is used up.
 *
 * Jobs and loadings past the end of a list take what the table states, so
 * two empty lists give the schedule of otter_schedule. Both lists are only
 * read, and may be longer than what is used.
 *
 * Replies: those of otter_schedule, of this run. If otter_verdict accepts
 * the table, no run of it misses a deadline.
 */
uint64_t otter_as_run(uint32_t policy, const uint8_t *text, size_t text_len,
                      const uint32_t *requests, size_t requests_len,
                      const uint32_t *loadings, size_t loadings_len,
                      uint8_t *slots, size_t slots_len);

/*
 * The ids of the table in ascending order: which task each response is of.
 *
 * text, text_len  as for otter_verdict.
 * ids  at least 16 bytes; fewer are refusal 2. Unless refused, one byte for
 *      each row is written: byte i is the id of the task whose response is
 *      otter_response(responses, i). Bytes past them stay as they were.
 *
 * Replies:
 *   written  the number is how many rows the table has, 1 to 16.
 *   refused  as for otter_verdict (not 1: no policy is asked), and refusal 2.
 */
uint64_t otter_ids(const uint8_t *text, size_t text_len,
                   uint8_t *ids, size_t ids_len);

/* The kind of a reply. */
static inline enum otter_kind otter_kind(uint64_t reply)
{
    return (enum otter_kind)(reply % 16);
}

/* The number of a reply: the slots needed if accepted, the time of the miss
 * if missed, the number of the refusal if refused, the rows if written, else
 * 0. */
static inline uint64_t otter_number(uint64_t reply)
{
    switch (otter_kind(reply)) {
    case OTTER_ACCEPTED:
    case OTTER_WRITTEN:
        return reply / 16;
    case OTTER_MISSED:
        return reply / 4096;
    case OTTER_REFUSED:
        return reply / 16 % 32;
    default:
        return 0;
    }
}

/* The place of a reply: the id that missed if missed, the line or id at
 * fault if refused (0 if there is none), else 0. */
static inline uint32_t otter_place(uint64_t reply)
{
    switch (otter_kind(reply)) {
    case OTTER_MISSED:
        return (uint32_t)(reply / 16 % 256);
    case OTTER_REFUSED:
        return (uint32_t)(reply / 512);
    default:
        return 0;
    }
}

/* The response of the task that comes index-th (from 0) in ascending id, out
 * of the bytes that otter_responses has written. */
static inline uint32_t otter_response(const uint8_t *responses, size_t index)
{
    const uint8_t *bytes = responses + 4 * index;
    return (uint32_t)bytes[0] | (uint32_t)bytes[1] << 8 |
           (uint32_t)bytes[2] << 16 | (uint32_t)bytes[3] << 24;
}

/* Whether the place of a refusal is an id, for the number of a refused reply.
 * (It is a line for OTTER_REFUSAL_LINE, and else there is none.) */
static inline int otter_place_is_id(uint64_t number)
{
    return number >= OTTER_REFUSAL_ID && number <= OTTER_REFUSAL_RESUME;
}

/* A refusal in words, for the number of a refused reply. */
static inline const char *otter_refusal_text(uint64_t number)
{
    switch (number) {
    case OTTER_REFUSAL_POLICY:
        return "the policy is not 1 to 4";
    case OTTER_REFUSAL_BUFFER:
        return "the lent buffer has a wrong length";
    case OTTER_REFUSAL_TEXT_LENGTH:
        return "the text is over 4,096 bytes";
    case OTTER_REFUSAL_LINE:
        return "a line is ill-formed";
    case OTTER_REFUSAL_ROWS:
        return "there is no row, or there are over 16";
    case OTTER_REFUSAL_ID:
        return "an id is not 1 to 255";
    case OTTER_REFUSAL_ID_REPEATED:
        return "an id is repeated";
    case OTTER_REFUSAL_TIME:
        return "a time is out of range";
    case OTTER_REFUSAL_PRIORITY:
        return "a priority is not 1 to 255";
    case OTTER_REFUSAL_PRIORITY_SHARED:
        return "a priority is shared by two rows";
    case OTTER_REFUSAL_DEADLINE:
        return "wcet, deadline and period are not in ascending order";
    case OTTER_REFUSAL_RESUME:
        return "resume is above start";
    case OTTER_REFUSAL_HYPER_PERIOD:
        return "the common multiple of the periods is above 100,000";
    default:
        return "no refusal has this number";
    }
}

#ifdef __cplusplus
}
#endif

#endif
