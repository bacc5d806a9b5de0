/* Tables as text, for the programs that try the checker. */
#ifndef TABLES_H
#define TABLES_H

#include "reference.h"

/* Room for texts well over the 4,096 bytes that are allowed. */
enum { TEXT_ROOM = 3 * REF_TEXT_MOST };

struct text {
    uint8_t bytes[TEXT_ROOM];
    size_t length;
};

/* How a table is written. Bit i of quotes puts quotes around the i-th field
 * of the text, counted on from row to row and again from 0 after 64. */
struct writing {
    uint64_t quotes;
    int last_line_end;
};

/* Every field bare, every line ended. */
extern const struct writing plain_writing;

void add_byte(struct text *text, uint8_t byte);
void add_string(struct text *text, const char *string);
void write_text(struct text *text, const struct ref_row *rows, size_t count,
                struct writing writing);

#endif
