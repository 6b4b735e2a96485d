/* A day for two desks: desk 1 writes 7 to its row, then desk 2 reads a page; after that both are at it
 * together, and have their turns in one run. It prints one line an answer, as the day runner does. Then
 * a day file that was damaged is mended and run: one line a drop, and what row 2 holds in the end.
 *
 *     cc -std=c99 -Wall -Wextra -pedantic -o example bindings/c/example.c target/staticlib/libnq.a */
#include <inttypes.h>
#include <stdio.h>
#include <stdlib.h>

#include "nelvaquist.h"

#define DESKS 2
#define PAGE (2 * DESKS) /* the words of a page: what each row holds, then when each was last written */
#define TURNS 10

/* All that the register knows. The day is in the reply to the last request, a blank one at first. */
static struct nq_reply day;
static struct nq_desk table[DESKS];
static uint32_t page[PAGE];

/* Ends the program if something does not hold. */
static void expect(int holds, const char *what)
{
    if (!holds) {
        fprintf(stderr, "this does not hold: %s\n", what);
        exit(1);
    }
}

/* Prints what a turn of a desk was answered, with the words and numbers shown if it is a page. */
static void print(uint32_t desk, struct nq_reply reply, const uint32_t *shown)
{
    int i;

    switch (reply.answer) {
    case NQ_REFUSED:
        printf("refused %" PRIu32 "\n", reply.refusal);
        break;
    case NQ_READ:
        printf("%" PRIu32 " read %" PRIu32 "\n", reply.event, desk);
        break;
    case NQ_WRITTEN:
        printf("%" PRIu32 " written %" PRIu32 " turns %" PRIu32 "\n", reply.event, desk, reply.turns);
        break;
    case NQ_PAGE:
        printf("%" PRIu32 " page %" PRIu32 " from %" PRIu32, reply.event, desk, reply.lender);
        printf(" at %" PRIu32 " turns %" PRIu32 " words", reply.at, reply.turns);
        for (i = 0; i < DESKS; i++)
            printf(" %" PRIu32, shown[i]);
        printf(" last");
        for (i = 0; i < DESKS; i++)
            printf(" %" PRIu32, shown[DESKS + i]);
        printf("\n");
        break;
    default:
        expect(0, "a turn is refused, reads, shows a page or writes a row");
    }
}

/* Gives a desk a turn and prints what it is answered. */
static void turn(uint32_t desk)
{
    day = nq_turn(day.count, day.event, table, DESKS, desk, page, PAGE);
    print(desk, day, page);
}

/* Gives the desks of a list their turns at once and prints what each is answered. */
static void run(const uint32_t desks[TURNS])
{
    static struct nq_reply replies[TURNS];
    static uint32_t pages[TURNS * PAGE];
    int i;

    day = nq_run(day.count, day.event, table, DESKS, desks, TURNS, replies, TURNS, pages,
                 TURNS * PAGE);
    expect(day.answer == NQ_RAN, "the run is given");
    for (i = 0; i < TURNS; i++)
        print(desks[i], replies[i], &pages[i * PAGE]);
}

/* Mends a day file of two desks. Of the turns for desk 2's entry one is damaged, and at the end the file
 * is cut off; the five turns that the entry needs are there. */
static void mend(void)
{
    static const uint8_t file[] = {
        4, 0, 1, 0, 2, 0,             /* opened for two desks */
        8, 0, 2, 0, 2, 0, 9, 0, 0, 0, /* desk 2's call to enter 9 */
        4, 0, 4, 0, 2, 0,             /* a turn of desk 2 */
        4, 0, 4, 0, 2, 0,             /* another one */
        4, 0, 4, 64, 2, 0,            /* one with a wrong bit, of a kind that is unknown */
        4, 0, 4, 0, 2, 0,             /* a third one */
        4, 0, 4, 0, 2, 0,             /* a fourth one */
        4, 0, 4, 0, 2, 0,             /* a fifth one, which writes row 2 */
        4, 0, 4, 0, 2, 0,             /* one too many */
        4, 0, 3                       /* a call, cut off */
    };
    static uint8_t room[sizeof file];
    static struct nq_drop rows[sizeof file / 2 + 1];
    struct nq_mending mended;
    struct nq_request request;
    size_t i;

    mended = nq_mend(file, sizeof file, room, sizeof room, rows, sizeof rows / sizeof rows[0]);
    expect(mended.refusal == 0, "there is room for what is kept, and for a row a drop");
    for (i = 0; i < mended.drops; i++)
        printf("dropped %" PRIu64 " at %" PRIu64 " refused %" PRIu64 "\n", rows[i].count,
               rows[i].first, rows[i].refusal);
    expect(mended.drops == 3 && mended.kept == sizeof file - 15, "three drops have 15 bytes");

    day.count = day.event = 0;
    for (i = 0; i < mended.kept; i += request.next) {
        request = nq_read(room + i, mended.kept - i);
        day = nq_step(day.count, day.event, table, DESKS, request.kind, request.desk, request.word,
                      page, PAGE);
        expect(day.answer != NQ_REFUSED, "a mended file is run without a refusal");
    }
    printf("row 2 holds %" PRIu32 ", end %" PRIu32 "\n", table[1].row.word, day.event);
}

int main(void)
{
    expect(nq_version() == NQ_VERSION, "the library has the version of the header");
    day = nq_open(day.count, day.event, table, DESKS, DESKS);
    expect(day.answer == NQ_OPENED, "the day is opened");
    printf("open %" PRIu32 "\n", day.count);

    day = nq_entry(day.count, day.event, table, DESKS, 1, 7);
    expect(day.answer == NQ_CALLED, "desk 1's entry call is taken");
    printf("%" PRIu32 " entry 1 7\n", day.event);
    do
        turn(1);
    while (day.answer == NQ_READ);
    expect(day.answer == NQ_WRITTEN && day.turns == 5, "row 1 is written by the fifth turn");
    expect(table[0].row.word == 7, "row 1 holds 7");
    expect(table[0].row.seq == 1, "row 1 has been written once");
    expect(table[0].row.last == 6, "row 1 was last written by event 6");

    day = nq_page(day.count, day.event, table, DESKS, 2);
    expect(day.answer == NQ_CALLED, "desk 2's page call is taken");
    printf("%" PRIu32 " asked 2\n", day.event);
    do
        turn(2);
    while (day.answer == NQ_READ);
    expect(day.answer == NQ_PAGE && day.turns == 4, "the page is shown by the fourth turn");
    expect(day.lender == 0 && day.at == 9, "the page has no lender and stood after event 9");
    expect(page[0] == 7 && page[1] == 0, "the page shows 7 and 0");
    expect(page[2] == 6 && page[3] == 0, "row 1 was written by event 6, and row 2 never");

    turn(2);
    expect(day.refusal == NQ_DESK_IDLE, "a desk without a call is given no turn");
    expect(day.count == DESKS && day.event == 11, "a refusal leaves the day as it was");

    day = nq_entry(day.count, day.event, table, DESKS, 1, 8);
    expect(day.answer == NQ_CALLED, "desk 1's second entry call is taken");
    printf("%" PRIu32 " entry 1 8\n", day.event);
    day = nq_page(day.count, day.event, table, DESKS, 2);
    expect(day.answer == NQ_CALLED, "desk 2's second page call is taken");
    printf("%" PRIu32 " asked 2\n", day.event);
    run((const uint32_t[TURNS]){1, 2, 1, 2, 1, 2, 1, 2, 1, 2});
    expect(table[0].row.word == 8 && day.event == 22, "row 1 is written, and nine turns had numbers");
    printf("end %" PRIu32 "\n", day.event);

    mend();
    return 0;
}
