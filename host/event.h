/*
 * The verdict in plain C, from event to event instead of slot by slot: what a
 * good hand-written checker would cost. It reads the table with the
 * reference's reader.
 */
#ifndef EVENT_H
#define EVENT_H

#include "reference.h"

struct ref_reply event_verdict(uint32_t policy, uint64_t allowance,
                               const uint8_t *text, size_t text_len);

/* The same, and how many events it went through (0 if refused). */
struct ref_reply event_verdict_counted(uint32_t policy, uint64_t allowance,
                                       const uint8_t *text, size_t text_len,
                                       uint64_t *events);

#endif
