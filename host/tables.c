#include "tables.h"

#include <stdio.h>

const struct writing plain_writing = { 0, 1 };

/* A byte past the room is dropped: what is made here is tried as it is, and
 * no text has to hold all that was meant for it. */
void add_byte(struct text *text, uint8_t byte)
{
    if (text->length < TEXT_ROOM)
        text->bytes[text->length++] = byte;
}

void add_string(struct text *text, const char *string)
{
    while (*string != '\0')
        add_byte(text, (uint8_t)*string++);
}

static void add_field(struct text *text, uint32_t value, int quoted)
{
    char field[16];
    snprintf(field, sizeof field, quoted ? "\"%u\"" : "%u", (unsigned)value);
    add_string(text, field);
}

static void add_row(struct text *text, const struct ref_row *row, uint64_t quotes, size_t first)
{
    const uint32_t fields[REF_FIELDS] = { row->id, row->offset, row->wcet, row->deadline,
                                          row->period, row->start, row->resume, row->priority };
    for (size_t i = 0; i < REF_FIELDS; i++) {
        if (i > 0)
            add_byte(text, ',');
        add_field(text, fields[i], (int)(quotes >> (first + i) % 64 & 1));
    }
}

void write_text(struct text *text, const struct ref_row *rows, size_t count,
                struct writing writing)
{
    text->length = 0;
    add_string(text, ref_header);
    for (size_t i = 0; i < count; i++) {
        add_string(text, "\r\n");
        add_row(text, &rows[i], writing.quotes, i * REF_FIELDS);
    }
    if (writing.last_line_end)
        add_string(text, "\r\n");
}
