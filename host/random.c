#include "random.h"

#include <string.h>

/* ---- Numbers ---- */

/* Splitmix64: any seed is a good one. */
uint64_t random_bits(struct random *random)
{
    uint64_t z = random->state += 0x9e3779b97f4a7c15u;
    z = (z ^ z >> 30) * 0xbf58476d1ce4e5b9u;
    z = (z ^ z >> 27) * 0x94d049bb133111ebu;
    return z ^ z >> 31;
}

struct random random_start(uint64_t seed, uint64_t table)
{
    struct random mixed = { seed };
    struct random start = { random_bits(&mixed) + table };
    start.state = random_bits(&start);
    return start;
}

uint32_t random_below(struct random *random, uint32_t bound)
{
    return (uint32_t)((random_bits(random) >> 32) * bound >> 32);
}

uint32_t random_between(struct random *random, uint32_t least, uint32_t most)
{
    return least + random_below(random, most - least + 1);
}

int random_chance(struct random *random, uint32_t percent)
{
    return random_below(random, 100) < percent;
}

static uint32_t random_of(struct random *random, const uint32_t *choices, size_t count)
{
    return choices[random_below(random, (uint32_t)count)];
}

#define RANDOM_OF(random, choices) random_of(random, choices, sizeof choices / sizeof choices[0])

/* ---- Rows that pass the checks ---- */

/* What the rows of one table have in common. */
struct family {
    uint32_t count;
    uint32_t hyper_period; /* a multiple of every period */
    uint32_t least_period;
    uint32_t load;         /* percent of all slots that are asked for */
    uint32_t longest_start;
    int offsets;
};

static struct family random_family(struct random *random)
{
    static const uint32_t few[] = { 2, 3, 4, 6, 6, 8, 9, 10, 12, 12, 15, 16, 18, 20, 24, 30 };
    static const uint32_t several[] = { 24, 36, 48, 60, 72, 90, 120 };
    static const uint32_t many[] = { 120, 144, 180, 240, 360, 420 };
    static const uint32_t large[] = { 100000, 90000, 83160, 50000, 30030 };
    struct family family = { 0, 0, 2, random_between(random, 40, 110),
                             random_below(random, 5), random_chance(random, 70) };
    uint32_t draw = random_below(random, 1000);
    if (draw < 650) {
        family.count = random_between(random, 1, 3);
        family.hyper_period = RANDOM_OF(random, few);
        family.least_period = 1;
    } else if (draw < 900) {
        family.count = random_between(random, 2, 6);
        family.hyper_period = RANDOM_OF(random, several);
        family.least_period = 4;
    } else if (draw < 998) {
        family.count = random_between(random, 5, REF_ROWS_MOST);
        family.hyper_period = RANDOM_OF(random, many);
        family.least_period = 2 * family.count;
    } else {
        family.count = random_between(random, 2, REF_ROWS_MOST);
        family.hyper_period = RANDOM_OF(random, large);
        family.least_period = 40;
        family.longest_start = random_below(random, 12);
    }
    return family;
}

/* A divisor of the hyper-period, not below the least period if one is found
 * soon. */
static uint32_t random_period(struct random *random, const struct family *family)
{
    uint32_t most = family->hyper_period;
    if (most > REF_TIME_MOST)
        most = REF_TIME_MOST;
    for (int tries = 0; tries < 200; tries++) {
        uint32_t period = random_between(random, 1, most);
        if (period >= family->least_period && family->hyper_period % period == 0)
            return period;
    }
    while (family->hyper_period % most != 0)
        most--;
    return most;
}

/* A row's share of the load, its loading counted once. */
static uint32_t random_wcet(struct random *random, const struct family *family,
                            uint32_t period, uint32_t start)
{
    uint32_t share = period * family->load * random_between(random, 50, 150) /
                     (10000 * family->count);
    uint32_t wcet = share > start ? share - start : 1;
    return wcet < period ? wcet : period;
}

/* Often the period, or that of another row, so that ties come up. */
static uint32_t random_deadline(struct random *random, const struct ref_row *row,
                                const struct ref_row *earlier, size_t count)
{
    if (random_chance(random, 55))
        return row->period;
    if (count > 0 && random_chance(random, 50)) {
        uint32_t deadline = earlier[random_below(random, (uint32_t)count)].deadline;
        if (row->wcet <= deadline && deadline <= row->period)
            return deadline;
    }
    return random_between(random, row->wcet, row->period);
}

/* An id or a priority that no earlier row has. */
static uint32_t random_unused(struct random *random, const uint32_t *used, size_t count,
                              uint32_t most)
{
    for (;;) {
        uint32_t number = random_between(random, 1, most);
        size_t i = 0;
        while (i < count && used[i] != number)
            i++;
        if (i == count)
            return number;
    }
}

static void random_rows(struct random *random, struct random_table *table)
{
    struct family family = random_family(random);
    uint32_t ids[REF_ROWS_MOST], priorities[REF_ROWS_MOST];
    uint32_t id_most = random_chance(random, 50) ? REF_ID_MOST : REF_ROWS_MOST;
    table->count = family.count;
    for (size_t i = 0; i < table->count; i++) {
        struct ref_row *row = &table->rows[i];
        row->id = ids[i] = random_unused(random, ids, i, id_most);
        row->priority = priorities[i] = random_unused(random, priorities, i, id_most);
        row->period = random_period(random, &family);
        row->start = random_below(random, family.longest_start + 1);
        row->resume = random_chance(random, 40) ? row->start : random_below(random, row->start + 1);
        row->wcet = random_wcet(random, &family, row->period, row->start);
        row->deadline = random_deadline(random, row, table->rows, i);
        row->offset = family.offsets && random_chance(random, 70)
                          ? random_below(random, 2 * row->period + 1) : 0;
        if (row->offset > REF_TIME_MOST)
            row->offset = REF_TIME_MOST;
    }
}

/* Two or three rows whose deadlines are their periods. Returns the slots of a
 * hyper-period that they ask for, one loading a job counted. */
static uint32_t crowded_rows(struct random *random, const struct family *family,
                             struct random_table *table)
{
    uint32_t asked = 0;
    for (table->count = 0; table->count < family->count; table->count++) {
        struct ref_row *row = &table->rows[table->count];
        row->id = row->priority = (uint32_t)table->count + 1;
        row->period = row->deadline = random_period(random, family);
        row->wcet = random_between(random, 1, row->period);
        row->start = random_below(random, family->longest_start + 1);
        row->resume = random_chance(random, 50) ? 0 : row->start;
        row->offset = random_below(random, row->period + 1);
        asked += (row->wcet + row->start) * (family->hyper_period / row->period);
    }
    return asked;
}

/* Rows that ask for nearly every slot there is: under policy 4 such a table
 * often takes several hyper-periods to settle. */
static void nearly_full_rows(struct random *random, struct random_table *table)
{
    static const uint32_t hyper_periods[] = { 6, 8, 10, 12, 20, 24, 30, 36, 60 };
    struct family family = { random_between(random, 2, 3), RANDOM_OF(random, hyper_periods),
                             2, 100, 2, 1 };
    uint32_t least = family.hyper_period * 9 / 10, most = family.hyper_period;
    for (int tries = 0; tries < 40; tries++) {
        uint32_t asked = crowded_rows(random, &family, table);
        if (least <= asked && asked <= most)
            return;
    }
}

/* ---- Rows that do not ---- */

/* A number that fits in a field and stands at or beyond an edge. */
static uint32_t random_edge(struct random *random)
{
    static const uint32_t edges[] = { 0, 1, 255, 256, 257, 511, 512, 9999, 10000, 10001,
                                      32768, 65535, 65536, 65537, 99999 };
    return random_chance(random, 80) ? RANDOM_OF(random, edges) : random_below(random, 100000);
}

/* n or one more, if that still fits in a field: six digits would make the
 * line ill-formed. */
static uint32_t at_or_above(struct random *random, uint32_t n)
{
    uint32_t next = n + random_below(random, 2);
    return next < 100000 ? next : n;
}

static uint32_t *field_of(struct ref_row *row, uint32_t field)
{
    uint32_t *fields[REF_FIELDS] = { &row->id, &row->offset, &row->wcet, &row->deadline,
                                     &row->period, &row->start, &row->resume, &row->priority };
    return fields[field];
}

/* Some rows get periods without a common divisor. */
static void spoil_hyper_period(struct random *random, struct random_table *table)
{
    static const uint32_t primes[] = { 9973, 9967, 9949, 9941, 317, 331, 997, 1009 };
    for (int i = 0; i < 2; i++) {
        struct ref_row *row = &table->rows[random_below(random, (uint32_t)table->count)];
        row->period = RANDOM_OF(random, primes);
        if (row->deadline > row->period)
            row->deadline = row->period;
        if (row->wcet > row->deadline)
            row->wcet = row->deadline;
    }
}

/* Two rows with a hyper-period at the limit or just beside it. Each of them
 * asks for every slot, so that a verdict is quick. */
static void edge_of_hyper_period(struct random *random, struct random_table *table)
{
    static const uint32_t periods[] = { 31, 32, 32, 33 };
    if (table->count < 2)
        return;
    table->count = 2;
    table->rows[0].period = 3125;
    table->rows[1].period = RANDOM_OF(random, periods);
    for (size_t i = 0; i < table->count; i++)
        table->rows[i].wcet = table->rows[i].deadline = table->rows[i].period;
}

static void spoil_once(struct random *random, struct random_table *table)
{
    struct ref_row *row = &table->rows[random_below(random, (uint32_t)table->count)];
    struct ref_row *other = &table->rows[random_below(random, (uint32_t)table->count)];
    switch (random_below(random, 9)) {
    case 0:
        *field_of(row, random_below(random, REF_FIELDS)) = random_edge(random);
        break;
    case 1:
        row->id = random_edge(random);
        break;
    case 2:
        row->id = other->id;
        break;
    case 3:
        row->priority = random_chance(random, 50) ? other->priority : random_edge(random);
        break;
    case 4:
        row->deadline = at_or_above(random, row->period);
        break;
    case 5:
        row->wcet = at_or_above(random, row->deadline);
        break;
    case 6:
        row->resume = at_or_above(random, row->start);
        break;
    case 7:
        edge_of_hyper_period(random, table);
        break;
    default:
        spoil_hyper_period(random, table);
    }
}

/* Rows added until there are 15 to 20: the limit is in between. */
static void spoil_count(struct random *random, struct random_table *table)
{
    size_t count = random_between(random, 15, 20);
    if (random_chance(random, 20))
        count = 0;
    for (size_t i = table->count; i < count; i++)
        table->rows[i] = table->rows[random_below(random, (uint32_t)table->count)];
    table->count = count;
}

static void spoil_rows(struct random *random, struct random_table *table)
{
    for (uint32_t times = random_between(random, 1, 3); times > 0; times--)
        spoil_once(random, table);
    if (random_chance(random, 12))
        spoil_count(random, table);
}

/* Rows of one digit a field, and in the last one so many digits more that the
 * text has a length close to the limit. */
static void rows_up_to_the_limit(struct random *random, struct random_table *table)
{
    const struct ref_row shortest = { 1, 1, 1, 1, 1, 1, 1, 1 };
    const size_t row_length = 2 * REF_FIELDS - 1 + 2;
    size_t length = strlen(ref_header);
    size_t target = REF_TEXT_MOST - 2 + random_below(random, 5);
    table->count = 0;
    while (length + row_length <= target) {
        table->rows[table->count++] = shortest;
        length += row_length;
    }
    for (uint32_t field = 0; length < target; length++, field++)
        *field_of(&table->rows[table->count - 1 - field / REF_FIELDS], field % REF_FIELDS) = 10;
}

/* ---- Texts ---- */

static struct writing random_writing(struct random *random)
{
    struct writing writing = { 0, random_chance(random, 60) };
    if (random_chance(random, 30))
        writing.quotes = random_bits(random);
    return writing;
}

static uint8_t random_byte(struct random *random)
{
    static const char likely[] = "0123456789,,,\"\"\"\r\r\n\n -+.";
    if (random_chance(random, 85))
        return (uint8_t)likely[random_below(random, sizeof likely - 1)];
    return (uint8_t)random_below(random, 256);
}

static void delete_byte(struct text *text, size_t at)
{
    memmove(text->bytes + at, text->bytes + at + 1, text->length - at - 1);
    text->length--;
}

static void insert_byte(struct text *text, size_t at, uint8_t byte)
{
    if (text->length == TEXT_ROOM)
        return;
    memmove(text->bytes + at + 1, text->bytes + at, text->length - at);
    text->bytes[at] = byte;
    text->length++;
}

static void damage_once(struct random *random, struct text *text)
{
    size_t at = random_below(random, (uint32_t)text->length + 1);
    uint32_t way = random_below(random, 10);
    if (way < 3 || at == text->length)
        insert_byte(text, at, random_byte(random));
    else if (way < 6)
        text->bytes[at] = random_byte(random);
    else if (way < 7)
        text->bytes[at] ^= (uint8_t)(1 << random_below(random, 8));
    else if (way < 9)
        delete_byte(text, at);
    else
        text->length = at;
}

/* A field written with a leading zero, with a sixth digit, or empty, or a
 * line too many: damage that single bytes seldom do. */
static void damage_line(struct random *random, struct text *text)
{
    static const char *const odd[] = { "\r\n", "\r\n\r\n", "00", "000000", "\"\"", "\"", ",", ",0",
                                       "\n", "\r", "0\"", "\"0", "99999", "100000" };
    const char *insert = odd[random_below(random, sizeof odd / sizeof odd[0])];
    size_t at = text->length;
    if (random_chance(random, 70))
        at = random_below(random, (uint32_t)text->length + 1);
    while (at > 0 && at < text->length && text->bytes[at] != ',' && text->bytes[at] != '\r')
        at++;
    for (size_t i = 0; insert[i] != '\0'; i++)
        insert_byte(text, at + i, (uint8_t)insert[i]);
}

static void damage(struct random *random, struct text *text)
{
    if (random_chance(random, 40)) {
        damage_line(random, text);
        return;
    }
    for (uint32_t times = random_between(random, 1, 3); times > 0; times--)
        damage_once(random, text);
}

/* Line 1 and little else, or bytes of any kind. */
static void odd_text(struct random *random, struct text *text)
{
    static const char *const odd[] = { "", "\r\n", "\n", "\r", "\r\n\r\n", "\r\n0", "\r\n,,,,,,," };
    text->length = 0;
    if (random_chance(random, 80))
        add_string(text, ref_header);
    if (random_chance(random, 80)) {
        add_string(text, odd[random_below(random, sizeof odd / sizeof odd[0])]);
        return;
    }
    size_t most = random_chance(random, 20) ? TEXT_ROOM : 100;
    for (size_t count = random_below(random, (uint32_t)most); count > 0; count--)
        add_byte(text, random_byte(random));
}

void random_table(struct random *random, struct random_table *table)
{
    uint32_t draw = random_below(random, 100);
    table->well_formed = draw < 80;
    if (random_chance(random, 20))
        nearly_full_rows(random, table);
    else
        random_rows(random, table);
    if (draw >= 66 && draw < 86)
        spoil_rows(random, table);
    if (draw == 79)
        rows_up_to_the_limit(random, table);
    write_text(&table->text, table->rows, table->count, random_writing(random));
    if (draw >= 80)
        damage(random, &table->text);
    if (draw >= 98)
        odd_text(random, &table->text);
}

void random_reordered(struct random *random, const struct random_table *table,
                      struct text *text)
{
    struct ref_row rows[RANDOM_ROWS_MOST];
    memcpy(rows, table->rows, table->count * sizeof rows[0]);
    for (size_t i = table->count; i > 1; i--) {
        size_t j = random_below(random, (uint32_t)i);
        struct ref_row row = rows[i - 1];
        rows[i - 1] = rows[j];
        rows[j] = row;
    }
    write_text(text, rows, table->count, random_writing(random));
}
