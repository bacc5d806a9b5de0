#include "sides.h"
#include "ottersprawl.h"

#include <stdio.h>

const struct side reference_side = {
    "reference", ref_verdict, ref_responses, ref_schedule, ref_as_run, ref_ids
};

/* How many kinds, ids and refusal numbers the number of a reply has room for. */
enum { KINDS = 16, MISSED_IDS = 256, REFUSAL_NUMBERS = 32 };

/* The one number that stands for a reply. */
static uint64_t crossing(struct ref_reply reply)
{
    switch (reply.kind) {
    case REF_ACCEPTED:
        return OTTER_ACCEPTED + KINDS * reply.number;
    case REF_MISSED:
        return OTTER_MISSED + KINDS * (reply.place + MISSED_IDS * reply.number);
    case REF_UNDECIDED:
        return OTTER_UNDECIDED;
    case REF_REFUSED:
        return OTTER_REFUSED + KINDS * (reply.number + REFUSAL_NUMBERS * (uint64_t)reply.place);
    case REF_FILLED:
        return OTTER_FILLED;
    case REF_WRITTEN:
        return OTTER_WRITTEN + KINDS * reply.number;
    }
    return 0;
}

static struct ref_reply taken_apart(uint64_t number)
{
    struct ref_reply reply = { (enum ref_kind)otter_kind(number), otter_number(number),
                               otter_place(number) };
    if (crossing(reply) != number)
        reply.kind = (enum ref_kind)0;
    return reply;
}

static struct ref_reply verdict(uint32_t policy, uint64_t allowance,
                                const uint8_t *text, size_t text_len)
{
    return taken_apart(otter_verdict(policy, allowance, text, text_len));
}

static struct ref_reply responses(uint32_t policy, uint64_t allowance,
                                  const uint8_t *text, size_t text_len,
                                  uint8_t *lent, size_t lent_len)
{
    return taken_apart(otter_responses(policy, allowance, text, text_len, lent, lent_len));
}

static struct ref_reply schedule(uint32_t policy, const uint8_t *text, size_t text_len,
                                 uint8_t *slots, size_t slots_len)
{
    return taken_apart(otter_schedule(policy, text, text_len, slots, slots_len));
}

static struct ref_reply as_run(uint32_t policy, const uint8_t *text, size_t text_len,
                               const uint32_t *requests, size_t requests_len,
                               const uint32_t *loadings, size_t loadings_len,
                               uint8_t *slots, size_t slots_len)
{
    return taken_apart(otter_as_run(policy, text, text_len, requests, requests_len,
                                    loadings, loadings_len, slots, slots_len));
}

static struct ref_reply ids(const uint8_t *text, size_t text_len, uint8_t *lent, size_t lent_len)
{
    return taken_apart(otter_ids(text, text_len, lent, lent_len));
}

const struct side otter_side = { "ottersprawl", verdict, responses, schedule, as_run, ids };

const char *const function_names[FUNCTIONS] = { "verdict", "responses", "schedule", "as_run",
                                                "ids" };

struct ref_reply reply_of(const struct side *side, enum function function,
                          const struct arguments *a)
{
    switch (function) {
    case VERDICT:
        return side->verdict(a->policy, a->allowance, a->text, a->text_len);
    case RESPONSES:
        return side->responses(a->policy, a->allowance, a->text, a->text_len,
                               a->lent, a->lent_len);
    case SCHEDULE:
        return side->schedule(a->policy, a->text, a->text_len, a->lent, a->lent_len);
    case AS_RUN:
        return side->as_run(a->policy, a->text, a->text_len, a->requests, a->requests_len,
                            a->loadings, a->loadings_len, a->lent, a->lent_len);
    default:
        return side->ids(a->text, a->text_len, a->lent, a->lent_len);
    }
}

int equal_replies(struct ref_reply a, struct ref_reply b)
{
    return a.kind == b.kind && a.number == b.number && a.place == b.place;
}

/* By kind; a format may leave the place, or both, unused. */
static const char *const formats[] = {
    "no reply: number %llu, place %u", "accepted %llu", "missed %llu, id %u", "undecided",
    "refused %llu, place %u", "filled", "written %llu"
};

const char *reply_words(struct ref_reply reply)
{
    static char words[2][80];
    static int turn;
    const char *format = formats[reply.kind <= REF_WRITTEN ? reply.kind : 0];
    turn = 1 - turn;
    snprintf(words[turn], sizeof words[turn], format, (unsigned long long)reply.number,
             (unsigned)reply.place);
    return words[turn];
}
