/* The smallest host, also valid as C++: is the table on standard input on time under policy 1? */
#include "ottersprawl.h"

#include <stdio.h>

int main(void)
{
    uint8_t text[OTTER_TEXT_LEN_MOST + 1]; /* one byte more, to see that there is more */
    size_t length = fread(text, 1, sizeof text, stdin);
    uint64_t reply = otter_verdict(1, 1000000, text, length);
    unsigned place = (unsigned)otter_place(reply);

    if (otter_kind(reply) == OTTER_ACCEPTED)
        printf("on time, for ever\n");
    else if (otter_kind(reply) == OTTER_MISSED)
        printf("id %u is late at %llu\n", place, (unsigned long long)otter_number(reply));
    else if (otter_kind(reply) == OTTER_REFUSED)
        printf("%s (%u)\n", otter_refusal_text(otter_number(reply)), place);
    else
        printf("more than a million slots are needed to tell\n");
    return otter_kind(reply) != OTTER_ACCEPTED;
}
