/* The checker and the reference under one shape, so that a program can hold
 * the one against the other. */
#ifndef SIDES_H
#define SIDES_H

#include "reference.h"

struct side {
    const char *name;
    struct ref_reply (*verdict)(uint32_t policy, uint64_t allowance,
                                const uint8_t *text, size_t text_len);
    struct ref_reply (*responses)(uint32_t policy, uint64_t allowance,
                                  const uint8_t *text, size_t text_len,
                                  uint8_t *responses, size_t responses_len);
    struct ref_reply (*schedule)(uint32_t policy, const uint8_t *text, size_t text_len,
                                 uint8_t *slots, size_t slots_len);
    struct ref_reply (*as_run)(uint32_t policy, const uint8_t *text, size_t text_len,
                               const uint32_t *requests, size_t requests_len,
                               const uint32_t *loadings, size_t loadings_len,
                               uint8_t *slots, size_t slots_len);
    struct ref_reply (*ids)(const uint8_t *text, size_t text_len,
                            uint8_t *ids, size_t ids_len);
};

extern const struct side reference_side;

/* The checker, its replies taken apart by the header's functions. A number
 * that is not the one that stands for its reply comes out as kind 0. */
extern const struct side otter_side;

/* The functions of a side, so that a program can go through them. */
enum function { VERDICT, RESPONSES, SCHEDULE, AS_RUN, IDS, FUNCTIONS };
extern const char *const function_names[FUNCTIONS];

/* The arguments of any of them; those that a function does not have are not
 * looked at. `lent` is the memory that it may write to. */
struct arguments {
    uint32_t policy;
    uint64_t allowance;
    const uint8_t *text;
    size_t text_len;
    const uint32_t *requests;
    size_t requests_len;
    const uint32_t *loadings;
    size_t loadings_len;
    uint8_t *lent;
    size_t lent_len;
};

struct ref_reply reply_of(const struct side *side, enum function function,
                          const struct arguments *arguments);

int equal_replies(struct ref_reply a, struct ref_reply b);

/* A reply in words, for a person: "missed 6, id 1". Lasts until the second
 * call after it. */
const char *reply_words(struct ref_reply reply);

#endif
