/* Random tables: mostly small ones in which much happens, and texts and rows
 * spoilt in every way that the checks know. */
#ifndef RANDOM_H
#define RANDOM_H

#include "tables.h"

struct random {
    uint64_t state;
};

/* A fresh start for table number `table` of a seed, so that any table can be
 * made again without those before it. */
struct random random_start(uint64_t seed, uint64_t table);

uint64_t random_bits(struct random *random);
uint32_t random_below(struct random *random, uint32_t bound);
uint32_t random_between(struct random *random, uint32_t least, uint32_t most);
int random_chance(struct random *random, uint32_t percent);

/* Enough for texts whose rows alone pass the limit on bytes. */
enum { RANDOM_ROWS_MOST = 240 };

/* A table and its text. Rows are only there if every line is well formed. */
struct random_table {
    size_t count;
    struct ref_row rows[RANDOM_ROWS_MOST];
    int well_formed;
    struct text text;
};

void random_table(struct random *random, struct random_table *table);

/* The same rows in another order, quoted in other places. */
void random_reordered(struct random *random, const struct random_table *table,
                      struct text *text);

#endif
