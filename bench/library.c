/* Asks the records of a day file of the library, as the day runner asks them of its table, and prints the last event number. */
#include <stdio.h>
#include <stdlib.h>

#include "../bindings/c/nelvaquist.h"

static struct nq_desk table[NQ_MOST_DESKS];
static uint32_t page[2 * NQ_MOST_DESKS];
static unsigned char file[1 << 24];

int main(void)
{
    size_t length = fread(file, 1, sizeof file, stdin), at = 0;
    struct nq_reply day = {0};

    for (;;) {
        struct nq_request request = nq_read(file + at, length - at);
        uint32_t lent = request.kind == NQ_ASK_OPEN ? request.desk : day.count;

        if (request.next == 0)
            break;
        if (lent > NQ_MOST_DESKS)
            lent = 0;
        day = nq_step(day.count, day.event, table, lent, request.kind, request.desk, request.word, page, 2 * NQ_MOST_DESKS);
        at += request.next;
    }
    printf("%lu\n", (unsigned long)day.event);
    return 0;
}
