/*
 * A small host to start from: reads a task table and prints what an editor
 * would show. It uses the checker's header and the C library, nothing else.
 *
 *     show [--allowance N] TABLE.csv
 *
 * TABLE.csv may be -, which is standard input. N is the first allowance.
 */
#include "ottersprawl.h"

#include <inttypes.h>
#include <stdio.h>
#include <stdlib.h>
#include <string.h>

enum {
    POLICIES = 4,
    SLOT_BYTES = 2,
    SLOTS_DRAWABLE = OTTER_SLOTS_LEN_MOST / SLOT_BYTES,
    SLOTS_SHOWN = 60,
    RULER_STEP = 10,
    ALLOWANCE_GROWTH = 16
};

/* What a keystroke may cost: a second for a policy, at worst, and mostly less
 * than a thousandth of it. */
static const uint64_t keystroke_allowance = 10000000;

static const char *const policy_names[POLICIES + 1] = {
    "", "fixed priority", "smaller period first", "smaller deadline first",
    "earliest deadline first"
};

struct table {
    uint8_t text[OTTER_TEXT_LEN_MOST + 1]; /* one more, to see that there is more */
    size_t length;
    uint8_t ids[OTTER_IDS_LEN]; /* ascending, as responses are */
    size_t rows;
};

/* What was last asked about a policy, and what came back. */
struct question {
    uint32_t policy;
    uint64_t allowance;
    uint64_t reply;
    uint8_t responses[OTTER_RESPONSES_LEN];
};

/* The questions that are undecided so far, in the order of their turns. */
struct open_list {
    struct question *questions[POLICIES];
    size_t count;
};

static int read_text(const char *name, struct table *table)
{
    FILE *file = strcmp(name, "-") == 0 ? stdin : fopen(name, "rb");
    if (file == NULL) {
        perror(name);
        return 0;
    }
    table->length = fread(table->text, 1, sizeof table->text, file);
    int failed = ferror(file);
    if (failed)
        perror(name);
    fclose(file);
    return !failed;
}

/* ---- Replies in words ---- */

/* Has this line a CR or a LF that is not half of a CR LF? The checker ends
 * lines at CR LF only: any other CR or LF is a wrong byte within a line. */
static int ends_otherwise(const struct table *table, uint32_t line)
{
    uint32_t current = 1;
    for (size_t i = 0; i < table->length && current <= line; i++) {
        const uint8_t *byte = &table->text[i];
        if (byte[0] == '\r' && i + 1 < table->length && byte[1] == '\n') {
            current++;
            i++;
        } else if (current == line && (byte[0] == '\r' || byte[0] == '\n')) {
            return 1;
        }
    }
    return 0;
}

static void print_refusal(const struct table *table, uint64_t reply)
{
    uint64_t number = otter_number(reply);
    uint32_t place = otter_place(reply);
    printf("refused: %s", otter_refusal_text(number));
    if (number == OTTER_REFUSAL_LINE)
        printf(" (line %" PRIu32 "%s)", place,
               ends_otherwise(table, place) ? "; lines end in CR LF" : "");
    else if (otter_place_is_id(number))
        printf(" (id %" PRIu32 ")", place);
    printf("\n");
}

static void print_verdict(const struct question *question)
{
    uint64_t number = otter_number(question->reply);
    printf("policy %" PRIu32 "  %-23s  ", question->policy, policy_names[question->policy]);
    switch (otter_kind(question->reply)) {
    case OTTER_ACCEPTED:
        printf("accepted, no job ever misses its deadline (%" PRIu64 " slots needed)\n", number);
        break;
    case OTTER_MISSED:
        printf("missed, a job of id %" PRIu32 " is not complete at its deadline, time %" PRIu64
               "\n", otter_place(question->reply), number);
        break;
    default:
        printf("undecided so far, more than %" PRIu64 " slots are needed\n", question->allowance);
    }
}

/* ---- Responses and the diagram ---- */

/* The slots that are drawn: from `from` on, before `end`. */
struct window {
    uint64_t from, end;
};

/* The first slots, if there is no miss (0) or it is among them. Else those
 * before the miss and a few from it on, so that the ruler has round times. */
static struct window window_around(uint64_t miss)
{
    struct window window;
    window.end = (miss / RULER_STEP + 1) * RULER_STEP;
    if (window.end < SLOTS_SHOWN)
        window.end = SLOTS_SHOWN;
    window.from = window.end - SLOTS_SHOWN;
    if (window.end > SLOTS_DRAWABLE)
        window.end = SLOTS_DRAWABLE;
    return window;
}

static void print_ruler(struct window window)
{
    printf("   id  response  ");
    for (uint64_t t = window.from; t < window.end; t += RULER_STEP)
        printf("%-*" PRIu64, t + RULER_STEP < window.end ? RULER_STEP : 0, t);
    printf("\n");
}

/* What a slot looks like in the line of one id. */
static char slot_mark(const uint8_t *slot, uint8_t id)
{
    if (slot[1] == OTTER_SLOT_MISSED)
        return 'x';
    if (slot[1] == OTTER_SLOT_IDLE)
        return '-';
    if (slot[0] != id)
        return '.';
    return slot[1] == OTTER_SLOT_LOADING ? 'o' : '#';
}

static void print_response(const struct question *question, size_t index)
{
    if (otter_kind(question->reply) == OTTER_ACCEPTED)
        printf("  %8" PRIu32 "  ", otter_response(question->responses, index));
    else
        printf("  %8s  ", "-");
}

static void print_details(const struct table *table, const struct question *question)
{
    static uint8_t slots[OTTER_SLOTS_LEN_MOST]; /* from time 0, wherever the window is */
    int missed = otter_kind(question->reply) == OTTER_MISSED;
    uint64_t miss = missed ? otter_number(question->reply) : 0;
    struct window window = window_around(miss);
    if (miss >= SLOTS_DRAWABLE) {
        printf("   the miss lies beyond the %d slots that can be drawn\n", SLOTS_DRAWABLE);
        return;
    }
    otter_schedule(question->policy, table->text, table->length,
                   slots, (size_t)window.end * SLOT_BYTES);
    print_ruler(window);
    for (size_t i = 0; i < table->rows; i++) {
        printf("  %3d", table->ids[i]);
        print_response(question, i);
        for (uint64_t t = window.from; t < window.end; t++)
            putchar(slot_mark(&slots[t * SLOT_BYTES], table->ids[i]));
        printf("\n");
    }
}

/* ---- Asking ---- */

static int undecided(const struct question *question)
{
    return otter_kind(question->reply) == OTTER_UNDECIDED;
}

/* Asks and prints the verdict. An undecided question gets another turn, after
 * those that are on the list already. */
static void ask(const struct table *table, struct question *question, struct open_list *open)
{
    question->reply = otter_responses(question->policy, question->allowance,
                                      table->text, table->length,
                                      question->responses, sizeof question->responses);
    print_verdict(question);
    if (undecided(question))
        open->questions[open->count++] = question;
}

static struct question *take_first(struct open_list *open)
{
    struct question *first = open->questions[0];
    open->count--;
    memmove(open->questions, open->questions + 1, open->count * sizeof open->questions[0]);
    return first;
}

static uint64_t larger_allowance(uint64_t allowance)
{
    if (allowance > OTTER_ALLOWANCE_DECIDES / ALLOWANCE_GROWTH)
        return OTTER_ALLOWANCE_DECIDES;
    return allowance * ALLOWANCE_GROWTH;
}

/* One step of the work that is left. An editor takes one when it is idle, or
 * in a thread of its own, and starts a new list when the table is edited. In
 * turns, a policy that takes long does not keep back one that does not. */
static void ask_again(const struct table *table, struct open_list *open)
{
    struct question *question = take_first(open);
    question->allowance = larger_allowance(question->allowance);
    printf("\npolicy %" PRIu32 ": asking again with an allowance of %" PRIu64 " slots\n",
           question->policy, question->allowance);
    fflush(stdout); /* the reply may take long */
    ask(table, question, open);
    if (!undecided(question))
        print_details(table, question);
}

static void show_table(const struct table *table, uint64_t allowance)
{
    struct question questions[POLICIES];
    struct open_list open = { { NULL }, 0 };
    for (uint32_t i = 0; i < POLICIES; i++) {
        questions[i].policy = i + 1;
        questions[i].allowance = allowance;
        ask(table, &questions[i], &open);
    }
    printf("\no loading   # executing   . another task's slot   - idle   x from the miss on\n");
    for (uint32_t i = 0; i < POLICIES; i++) {
        if (undecided(&questions[i]))
            continue;
        printf("\n");
        print_verdict(&questions[i]);
        print_details(table, &questions[i]);
    }
    while (open.count > 0)
        ask_again(table, &open);
}

/* ---- Arguments ---- */

static int read_allowance(const char *digits, uint64_t *allowance)
{
    char *end;
    *allowance = strtoull(digits, &end, 10);
    return *end == '\0' && *allowance >= 1 && *allowance <= OTTER_ALLOWANCE_DECIDES;
}

/* The table's name, or NULL where the arguments are wrong. */
static const char *read_arguments(int argc, char **argv, uint64_t *allowance)
{
    int option = argc == 4 && strcmp(argv[1], "--allowance") == 0;
    if (argc != 2 && !(option && read_allowance(argv[2], allowance)))
        return NULL;
    const char *name = argv[argc - 1];
    return name[0] == '-' && name[1] != '\0' ? NULL : name;
}

int main(int argc, char **argv)
{
    static struct table table;
    uint64_t allowance = keystroke_allowance;
    const char *name = read_arguments(argc, argv, &allowance);
    if (name == NULL) {
        fprintf(stderr, "usage: show [--allowance N] TABLE.csv\n"
                        "TABLE.csv may be - for standard input; N is 1 to 2^48 slots\n");
        return EXIT_FAILURE;
    }
    if (!read_text(name, &table))
        return EXIT_FAILURE;
    uint64_t reply = otter_ids(table.text, table.length, table.ids, sizeof table.ids);
    int refused = otter_kind(reply) == OTTER_REFUSED;
    if (refused) {
        print_refusal(&table, reply);
    } else {
        table.rows = (size_t)otter_number(reply);
        show_table(&table, allowance);
    }
    if (fflush(stdout) != 0 || ferror(stdout)) {
        fprintf(stderr, "show: not everything could be written\n");
        return EXIT_FAILURE;
    }
    return refused ? EXIT_FAILURE : EXIT_SUCCESS;
}
