/* Holds nelvaquist.h to what the library does. Days are driven through it, every request in both
 * ways, by its kind and by its own function, every run also turn by turn, and what it leaves is
 * compared in every word with what is wanted, which is put by the names of the header and worked out
 * by hand. So are mended files, in rooms of several sizes.
 *
 *     cc -std=c99 -Wall -Wextra -pedantic -o test bindings/c/test.c target/staticlib/libnq.a */
#include <stdio.h>
#include <stdlib.h>
#include <string.h>

#include "nelvaquist.h"

#define RECORD_WORDS 369
#define ROOM 10         /* more records than any day has; those that are not lent stay */
#define PAGE (2 * ROOM) /* more page words than any day needs; those that are not lent stay */
#define NO_WORD 77      /* the word of a request that has none */
#define LIST 14         /* more turns than any run has; replies and pages that are not lent stay */
#define MOST 394000     /* more bytes than any mended file has; those that are not lent stay */
#define ROWS 40         /* more rows than any mended file has drops; those that are not lent stay */

#define CHECK(holds) check(holds, #holds, __LINE__)

/* The records of a day file, of numbers below 256. */
#define OPEN(desks) 4, 0, 1, 0, desks, 0
#define ENTRY(desk, word) 8, 0, 2, 0, desk, 0, word, 0, 0, 0
#define ASK(desk) 4, 0, 3, 0, desk, 0
#define TURN(desk) 4, 0, 4, 0, desk, 0

/* Bytes or drops, and how many they are. */
#define BYTES(...) (const uint8_t[]){__VA_ARGS__}, sizeof(const uint8_t[]){__VA_ARGS__}
#define NO_BYTES (const uint8_t[]){0}, 0
#define DROPS(...)                    \
    (const struct nq_drop[]){__VA_ARGS__}, \
        sizeof(const struct nq_drop[]){__VA_ARGS__} / sizeof(struct nq_drop)
#define NO_DROPS (const struct nq_drop[]){{0, 0, 0}}, 0

struct state {
    uint32_t count, event;   /* the day */
    uint32_t records, words; /* how much of the table and of the page list is lent */
    struct nq_desk table[ROOM];
    uint32_t page[PAGE];
};

/* What a run is lent beside the day and its table. */
struct run {
    uint32_t turns, places, words; /* how much of the list and of the two tables is lent */
    uint32_t desks[LIST];
    struct nq_reply replies[LIST];
    uint32_t pages[LIST * PAGE];
};

/* What a mending is lent beside the file. */
struct rooms {
    size_t places, row_count; /* how much of both is lent */
    uint8_t room[MOST];
    struct nq_drop rows[ROWS];
};

/* What a file is mended to. */
struct mended {
    const uint8_t *kept;
    size_t length; /* of what is kept */
    const struct nq_drop *drops;
    size_t count; /* of the drops */
};

static struct state now;    /* what the requests have left */
static struct state wanted; /* what they should have left */
static struct run lent;     /* what a run has left */
static struct rooms rooms;  /* what a mending has left */

/* Answers that have nothing more. */
static const struct nq_reply opened = {.answer = NQ_OPENED};
static const struct nq_reply called = {.answer = NQ_CALLED};
static const struct nq_reply row_read = {.answer = NQ_READ};

/* The answer of the turn that ends a page. */
static struct nq_reply page(uint32_t lender, uint32_t at, uint32_t turns)
{
    return (struct nq_reply){.answer = NQ_PAGE, .lender = lender, .at = at, .turns = turns};
}

/* The answer of the turn that ends an entry. */
static struct nq_reply written(uint32_t turns)
{
    return (struct nq_reply){.answer = NQ_WRITTEN, .turns = turns};
}

/* Ends the test if something does not hold. */
static void check(int holds, const char *what, int line)
{
    if (!holds) {
        fprintf(stderr, "%s:%d: %s\n", __FILE__, line, what);
        exit(1);
    }
}

/* Whether two states have the same in every word. */
static int same(const struct state *one, const struct state *other)
{
    return memcmp(one, other, sizeof *one) == 0;
}

/* A blank day, with so many records and page words lent, whatever stands in them. */
static void lend(uint32_t records, uint32_t words, uint32_t rubbish)
{
    uint32_t i, record[RECORD_WORDS];

    memset(&now, 0, sizeof now);
    now.records = records;
    now.words = words;
    for (i = 0; i < RECORD_WORDS; i++)
        record[i] = rubbish;
    for (i = 0; i < ROOM; i++)
        memcpy(&now.table[i], record, sizeof record);
    for (i = 0; i < PAGE; i++)
        now.page[i] = rubbish;
}

/* A request by its kind. */
static struct nq_reply step(struct state *s, uint32_t kind, uint32_t desk, uint32_t word)
{
    return nq_step(s->count, s->event, s->table, s->records, kind, desk, word, s->page, s->words);
}

/* A request by the function of its kind, if there is one. */
static struct nq_reply named(struct state *s, uint32_t kind, uint32_t desk, uint32_t word)
{
    switch (kind) {
    case NQ_ASK_OPEN:
        return nq_open(s->count, s->event, s->table, s->records, desk);
    case NQ_ASK_ENTRY:
        return nq_entry(s->count, s->event, s->table, s->records, desk, word);
    case NQ_ASK_PAGE:
        return nq_page(s->count, s->event, s->table, s->records, desk);
    case NQ_ASK_TURN:
        return nq_turn(s->count, s->event, s->table, s->records, desk, s->page, s->words);
    default:
        return step(s, kind, desk, word);
    }
}

/* Makes a request. Whether it is answered so, beside its day, and alike in both ways. */
static int answers(struct nq_reply answer, uint32_t kind, uint32_t desk, uint32_t word)
{
    struct state other = now;
    struct nq_reply by_kind = step(&other, kind, desk, word);
    struct nq_reply by_name = named(&now, kind, desk, word);

    if (memcmp(&by_kind, &by_name, sizeof by_kind) != 0 || !same(&now, &other))
        return 0;
    now.count = answer.count = by_name.count;
    now.event = answer.event = by_name.event;
    return memcmp(&by_name, &answer, sizeof answer) == 0;
}

/* Whether a request is refused with this number and changes nothing. */
static int refuses(uint32_t refusal, uint32_t kind, uint32_t desk)
{
    struct nq_reply refused = {.answer = NQ_REFUSED, .refusal = refusal};
    struct state before = now;

    return answers(refused, kind, desk, NO_WORD) && same(&now, &before);
}

/* Whether any call or turn of a desk is refused with this number. */
static int refuses_all(uint32_t refusal, uint32_t desk)
{
    return refuses(refusal, NQ_ASK_ENTRY, desk) && refuses(refusal, NQ_ASK_PAGE, desk) &&
           refuses(refusal, NQ_ASK_TURN, desk);
}

/* Whether a day opens, with every word of its records 0. */
static int opens(uint32_t desks)
{
    wanted = now;
    wanted.count = desks;
    wanted.event = 0;
    memset(wanted.table, 0, desks * sizeof wanted.table[0]);
    return answers(opened, NQ_ASK_OPEN, desks, NO_WORD) && same(&now, &wanted);
}

/* Whether a call or a turn is answered so and leaves what is wanted. */
static int leaves(struct nq_reply answer, uint32_t kind, uint32_t desk, uint32_t word)
{
    wanted.event++;
    return answers(answer, kind, desk, word) && same(&now, &wanted);
}

/* Puts a row in the place of another, as far as it counts. */
static void put(struct nq_row *place, const struct nq_row *row)
{
    place->word = row->word;
    place->last = row->last;
    place->seq = row->seq;
    memcpy(place->view, row->view, wanted.count * sizeof row->view[0]);
    place->at = row->at;
}

/* Puts a page, its words and then its numbers, in the list that is wanted. */
static void put_page(const uint32_t *shown)
{
    memcpy(wanted.page, shown, 2 * wanted.count * sizeof shown[0]);
}

/* Whether a turn reads the row that is next and leaves what is wanted. */
static int reads(uint32_t desk)
{
    struct nq_desk *own = &wanted.table[desk - 1];
    uint32_t n = wanted.count, next = own->turns++ % (2 * n);

    put(next < n ? &own->first[next] : &own->second[next - n], &wanted.table[next % n].row);
    if (next == n - 1)
        own->first_ended = wanted.event + 1;
    return leaves(row_read, NQ_ASK_TURN, desk, NO_WORD);
}

/* Whether so many turns of a desk read rows. */
static int reads_on(uint32_t desk, uint32_t turns)
{
    while (turns > 0 && answers(row_read, NQ_ASK_TURN, desk, NO_WORD))
        turns--;
    return turns == 0;
}

/* Whether an entry is called and written, with no turn of another desk between. */
static int enters(uint32_t desk, uint32_t word)
{
    wanted.event += 2 * now.count + 2;
    return answers(called, NQ_ASK_ENTRY, desk, word) && reads_on(desk, 2 * now.count) &&
           answers(written(2 * now.count + 1), NQ_ASK_TURN, desk, NO_WORD);
}

/* Makes a desk idle: whatever counts but its row is 0. */
static void make_idle(struct nq_desk *own)
{
    static const struct nq_row none;
    uint32_t i;

    own->task = NQ_IDLE;
    own->word = own->at = own->turns = own->first_ended = 0;
    for (i = 0; i < wanted.count; i++) {
        put(&own->first[i], &none);
        put(&own->second[i], &none);
        own->kept_view[i] = (struct nq_value){0, 0};
    }
    memset(own->marks, 0, sizeof own->marks);
}

/* Lends a run these turns, and so many replies and words of pages, whatever stands in them. */
static void lend_run(uint32_t turns, const uint32_t *desks, uint32_t places, uint32_t words)
{
    uint32_t i;

    memset(&lent, 0, sizeof lent);
    lent.turns = turns;
    lent.places = places;
    lent.words = words;
    for (i = 0; i < turns; i++)
        lent.desks[i] = desks[i];
    for (i = 0; i < LIST; i++)
        lent.replies[i] = (struct nq_reply){5, 5, 5, 5, 5, 5, 5};
    for (i = 0; i < LIST * PAGE; i++)
        lent.pages[i] = 99;
}

/* Gives the run. Whether it is answered so, and leaves this state and these tables in every word. */
static int run_leaves(struct nq_reply answer, const struct state *state, const struct run *tables)
{
    struct nq_reply reply = nq_run(now.count, now.event, now.table, now.records, lent.desks,
                                   lent.turns, lent.replies, lent.places, lent.pages, lent.words);

    answer.count = state->count;
    answer.event = state->event;
    now.count = reply.count;
    now.event = reply.event;
    return memcmp(&reply, &answer, sizeof answer) == 0 && same(&now, state) &&
           memcmp(&lent, tables, sizeof lent) == 0;
}

/* Whether the run is given and leaves what its turns leave one by one. */
static int runs(void)
{
    static const struct nq_reply ran = {.answer = NQ_RAN};
    struct state s = now;
    struct run left = lent;
    uint32_t i;

    for (i = 0; i < lent.turns; i++) {
        left.replies[i] = nq_turn(s.count, s.event, s.table, s.records, lent.desks[i],
                                  left.pages + 2 * s.count * i, 2 * s.count);
        s.event = left.replies[i].event;
    }
    return run_leaves(ran, &s, &left);
}

/* Whether the run is refused with this number and changes nothing. */
static int refuses_run(uint32_t refusal)
{
    struct nq_reply refused = {.answer = NQ_REFUSED, .refusal = refusal};
    struct state before = now;
    struct run tables = lent;

    return run_leaves(refused, &before, &tables);
}

/* Whether the run is given and each of its turns refused with this number. */
static int refuses_turns(uint32_t refusal)
{
    uint32_t i;

    if (!runs())
        return 0;
    for (i = 0; i < lent.turns; i++)
        if (lent.replies[i].answer != NQ_REFUSED || lent.replies[i].refusal != refusal)
            return 0;
    return 1;
}

/* Every field is of words, or of numbers of 64 bits, and has its place among them, and nothing is
 * padded. */
static void places(void)
{
    struct nq_desk desk;
    struct nq_reply reply;
    struct nq_request request;
    struct nq_drop drop;
    struct nq_mending mending;
    const uint32_t *word = &desk.row.word;
    const uint64_t *number;

    CHECK(&desk.row.last == word + 1 && &desk.row.seq == word + 2);
    CHECK(&desk.row.view[0].word == word + 3 && &desk.row.view[0].last == word + 4);
    CHECK(&desk.row.view[7].last == word + 18 && &desk.row.at == word + 19);
    CHECK(&desk.task == word + 20 && &desk.word == word + 21 && &desk.at == word + 22);
    CHECK(&desk.turns == word + 23 && &desk.first[0].word == word + 24);
    CHECK(&desk.first[7].word == word + 164 && &desk.second[0].word == word + 184);
    CHECK(&desk.second[7].at == word + 343 && &desk.first_ended == word + 344);
    CHECK(&desk.kept_view[0].word == word + 345 && &desk.kept_view[7].last == word + 360);
    CHECK(desk.marks == word + 361);
    word = &reply.count;
    CHECK(&reply.event == word + 1 && &reply.answer == word + 2 && &reply.refusal == word + 3);
    CHECK(&reply.lender == word + 4 && &reply.at == word + 5 && &reply.turns == word + 6);
    word = &request.refusal;
    CHECK(&request.kind == word + 1 && &request.desk == word + 2);
    CHECK(&request.word == word + 3 && &request.next == word + 4);
    CHECK(sizeof desk == 4 * RECORD_WORDS && sizeof reply == 4 * 7 && sizeof request == 4 * 5);
    CHECK(sizeof desk.row == 4 * 20 && sizeof desk.row.view[0] == 4 * 2);
    number = &drop.first;
    CHECK(&drop.count == number + 1 && &drop.refusal == number + 2 && sizeof drop == 8 * 3);
    number = &mending.kept;
    CHECK(&mending.drops == number + 1 && &mending.refusal == number + 2);
    CHECK(sizeof mending == 8 * 3);
}

/* Opens a day for two desks. Events 1 to 18: desks 1, 2 and 1 again write their rows. */
static void entries(void)
{
    lend(2, 5, 99);
    now.event = 70000;
    CHECK(opens(2));
    wanted.table[0].row = (struct nq_row){11, .last = 6, .seq = 1, .view = {{0, 0}}, .at = 3};
    CHECK(enters(1, 11) && same(&now, &wanted));
    wanted.table[1].row = (struct nq_row){22, .last = 12, .seq = 1, .view = {{11, 6}}, .at = 9};
    CHECK(enters(2, 22) && same(&now, &wanted));
    wanted.table[0].row =
        (struct nq_row){13, .last = 18, .seq = 2, .view = {{11, 6}, {22, 12}}, .at = 15};
    CHECK(enters(1, 13) && same(&now, &wanted));
}

/* Events 19 to 24 of that day: an entry of desk 2, turn by turn. */
static void entry_by_turns(void)
{
    struct nq_desk *own = &wanted.table[1];

    own->task = NQ_READING_ENTRY;
    own->word = 24;
    CHECK(leaves(called, NQ_ASK_ENTRY, 2, 24) && reads(2) && reads(2) && reads(2));
    own->task = NQ_READY_ENTRY;
    own->at = 21;
    own->kept_view[0] = (struct nq_value){13, .last = 18};
    own->kept_view[1] = (struct nq_value){22, .last = 12};
    CHECK(reads(2));
    make_idle(own);
    own->row = (struct nq_row){24, .last = 24, .seq = 2, .view = {{13, 18}, {22, 12}}, .at = 21};
    CHECK(leaves(written(5), NQ_ASK_TURN, 2, NO_WORD));
}

/* Events 25 to 50: a page of desk 1, which desk 2 lends its view, as it writes in both double
 * collects; then a page of desk 2. */
static void pages(void)
{
    struct nq_desk *own = &wanted.table[0], *other = &wanted.table[1];

    own->task = NQ_READING_PAGE;
    CHECK(leaves(called, NQ_ASK_PAGE, 1, NO_WORD) && reads(1) && reads(1));
    other->row = (struct nq_row){26, .last = 33, .seq = 3, .view = {{13, 18}, {24, 24}}, .at = 30};
    CHECK(enters(2, 26) && reads(1));
    own->marks[1] = 1;
    CHECK(reads(1) && reads(1) && reads(1));
    other->row = (struct nq_row){28, .last = 43, .seq = 4, .view = {{13, 18}, {26, 33}}, .at = 40};
    CHECK(enters(2, 28) && reads(1));
    make_idle(own);
    put_page((const uint32_t[]){13, 26, 18, 33});
    CHECK(leaves(page(2, 40, 8), NQ_ASK_TURN, 1, NO_WORD));

    CHECK(answers(called, NQ_ASK_PAGE, 2, NO_WORD) && reads_on(2, 3));
    wanted.event += 4;
    put_page((const uint32_t[]){13, 28, 18, 43});
    CHECK(leaves(page(0, 48, 4), NQ_ASK_TURN, 2, NO_WORD));
}

/* Whether the page list has this page, its words and then its numbers, and its next place is as it was
 * lent. */
static int shows(const uint32_t *shown)
{
    return memcmp(now.page, shown, 2 * now.count * sizeof shown[0]) == 0 &&
           now.page[2 * now.count] == 99;
}

/* Case A of the specification: the page shows 7, which event 4 wrote. */
static void case_a(void)
{
    lend(1, 3, 99);
    CHECK(opens(1) && enters(1, 7));
    CHECK(answers(called, NQ_ASK_PAGE, 1, NO_WORD) && reads_on(1, 1));
    CHECK(answers(page(0, 6, 2), NQ_ASK_TURN, 1, NO_WORD));
    CHECK(shows((const uint32_t[]){7, 4}));
    CHECK(refuses(NQ_DESK_IDLE, NQ_ASK_TURN, 1) && now.event == 7);
}

/* Case B, where row 1 is never written. The borrowed page shows 7 with event 9, which wrote it, though
 * event 19 has written row 2 since; a page after that shows 9 with event 19. A list that is short by a
 * word puts the borrowed page off, but does not change it. */
static void case_b(void)
{
    lend(2, 4, 99);
    CHECK(opens(2) && answers(called, NQ_ASK_PAGE, 1, NO_WORD) && reads_on(1, 2) && enters(2, 7));
    CHECK(reads_on(1, 4) && enters(2, 9) && reads_on(1, 1));
    now.words = 3;
    CHECK(refuses(NQ_LENT_SIZE, NQ_ASK_TURN, 1));
    now.words = 4;
    CHECK(answers(page(2, 16, 8), NQ_ASK_TURN, 1, NO_WORD) && now.event == 21);
    CHECK(shows((const uint32_t[]){0, 7, 0, 9}));
    CHECK(now.table[1].row.word == 9 && now.table[1].row.last == 19);
    CHECK(answers(called, NQ_ASK_PAGE, 2, NO_WORD) && reads_on(2, 3));
    CHECK(answers(page(0, 24, 4), NQ_ASK_TURN, 2, NO_WORD));
    CHECK(shows((const uint32_t[]){0, 9, 0, 19}));
}

/* Whether desk 1 has this entry ready to write. */
static int is_ready(uint32_t word)
{
    return answers(called, NQ_ASK_ENTRY, 1, word) && reads_on(1, 4);
}

/* Desk 1 writes its row when a page of desk 2, and then an entry, has read it for the last time: by
 * event 16, and by event 27. What desk 2 finds is older. */
static void written_after_it_was_read(void)
{
    const struct nq_desk *other = &now.table[1];

    lend(2, 4, 99);
    CHECK(opens(2) && enters(1, 11) && is_ready(13));
    CHECK(answers(called, NQ_ASK_PAGE, 2, NO_WORD) && reads_on(2, 3));
    CHECK(answers(written(5), NQ_ASK_TURN, 1, NO_WORD) && now.table[0].row.last == 16);
    CHECK(answers(page(0, 14, 4), NQ_ASK_TURN, 2, NO_WORD));
    CHECK(shows((const uint32_t[]){11, 0, 6, 0}));

    CHECK(is_ready(15) && answers(called, NQ_ASK_ENTRY, 2, 22) && reads_on(2, 3));
    CHECK(answers(written(5), NQ_ASK_TURN, 1, NO_WORD) && now.table[0].row.last == 27);
    CHECK(reads_on(2, 1) && other->task == NQ_READY_ENTRY && other->at == 25);
    CHECK(other->kept_view[0].word == 13 && other->kept_view[0].last == 16);
    CHECK(other->kept_view[1].word == 0 && other->kept_view[1].last == 0);
}

/* A day for two desks on records full of 3s: desk 1 is idle, desk 2 ready to write its row, and owes
 * 9 - 3 turns. */
static void two_desks(uint32_t event)
{
    lend(2, 4, 3);
    now.count = 2;
    now.event = event;
    now.table[0].task = NQ_IDLE;
    now.table[0].turns = 99;
    now.table[1].task = NQ_READY_ENTRY;
}

/* What does not count: task words that a task does not have become 0 and marks 0 or 1, but rows and
 * values past n stay. A damaged view is lent as it is. */
static void what_does_not_count(void)
{
    struct nq_desk *own = &wanted.table[0];
    int i;

    two_desks(9);
    wanted = now;
    make_idle(own);
    own->task = NQ_READING_PAGE;
    CHECK(leaves(called, NQ_ASK_PAGE, 1, NO_WORD));

    two_desks(9);
    now.table[0].task = NQ_READING_PAGE;
    now.table[0].turns = 2;
    now.table[0].row.view[2] = (struct nq_value){4, .last = 4};
    now.table[1].row.seq = 2;
    now.table[1].row.view[0] = (struct nq_value){8, .last = 70000};
    wanted = now;
    own->word = own->at = 0;
    for (i = 0; i < NQ_MOST_DESKS; i++)
        own->marks[i] = 1;
    CHECK(reads(1));
    make_idle(own);
    put_page((const uint32_t[]){8, 3, 70000, 3});
    CHECK(leaves(page(2, 3, 4), NQ_ASK_TURN, 1, NO_WORD));
    make_idle(&wanted.table[1]);
    wanted.table[1].row.last = 12;
    wanted.table[1].row.seq = 3;
    wanted.table[1].row.view[0] = (struct nq_value){3, .last = 3};
    CHECK(leaves(written(4), NQ_ASK_TURN, 2, NO_WORD));
}

/* A page whose collects are damaged, but have the same seqs: it shows the second one as it is. */
static void damaged_collect(void)
{
    two_desks(9);
    now.table[0].task = NQ_READING_PAGE;
    now.table[0].turns = 3;
    now.table[0].first[0].last = 70000;
    now.table[0].second[0].word = 8;
    now.table[0].second[0].last = 80000;
    wanted = now;
    make_idle(&wanted.table[0]);
    put_page((const uint32_t[]){8, 3, 80000, 3});
    CHECK(leaves(page(0, 3, 4), NQ_ASK_TURN, 1, NO_WORD));
}

/* As many desks as there can be: every row of a collect, value of a view and mark has its place. */
static void most_desks(void)
{
    const struct nq_desk *own = &now.table[0];
    uint32_t i;

    lend(NQ_MOST_DESKS, 2 * NQ_MOST_DESKS, 0);
    CHECK(opens(NQ_MOST_DESKS));
    for (i = 0; i < NQ_MOST_DESKS; i++)
        CHECK(enters(i + 1, 10 + i));
    CHECK(answers(called, NQ_ASK_ENTRY, 1, 10) && reads_on(1, 2 * NQ_MOST_DESKS));
    for (i = 0; i < NQ_MOST_DESKS; i++) {
        CHECK(own->first[i].word == 10 + i && own->first[i].last == 18 * (i + 1));
        CHECK(own->second[i].word == 10 + i && own->second[i].last == 18 * (i + 1));
        CHECK(own->kept_view[i].word == 10 + i && own->kept_view[i].last == 18 * (i + 1));
    }
    CHECK(answers(written(17), NQ_ASK_TURN, 1, NO_WORD) && own->row.last == 162);
    for (i = 0; i < NQ_MOST_DESKS; i++)
        CHECK(own->row.view[i].word == 10 + i && own->row.view[i].last == 18 * (i + 1));

    CHECK(answers(called, NQ_ASK_PAGE, 1, NO_WORD) && reads_on(1, NQ_MOST_DESKS));
    for (i = 1; i < NQ_MOST_DESKS; i++)
        CHECK(enters(i + 1, 20 + i));
    CHECK(reads_on(1, NQ_MOST_DESKS));
    for (i = 0; i < NQ_MOST_DESKS; i++)
        CHECK(own->marks[i] == (i > 0));
    CHECK(reads_on(1, 2 * NQ_MOST_DESKS - 1));
    CHECK(answers(page(0, 313, 32), NQ_ASK_TURN, 1, NO_WORD));
    for (i = 0; i < NQ_MOST_DESKS; i++) {
        CHECK(now.page[i] == (i > 0 ? 20 : 10) + i);
        CHECK(now.page[NQ_MOST_DESKS + i] == (i > 0 ? 171 + 18 * i : 162));
    }
}

/* A day grows to its last event and no further; then a new one is opened. */
static void last_event(void)
{
    lend(1, 2, 0);
    CHECK(opens(1));
    while (answers(called, NQ_ASK_PAGE, 1, NO_WORD))
        CHECK(reads_on(1, 1) && answers(page(0, now.event, 2), NQ_ASK_TURN, 1, NO_WORD));
    CHECK(now.event == NQ_LAST_EVENT);
    CHECK(refuses(NQ_DAY_FULL, NQ_ASK_PAGE, 1) && refuses(NQ_DAY_FULL, NQ_ASK_ENTRY, 1));
    CHECK(refuses(NQ_DESK_IDLE, NQ_ASK_TURN, 1));
    now.count = now.event = 0;
    CHECK(opens(1));
}

/* The last calls of a day on which desk 2 owes six turns, and its turn, which ends it sooner. A page
 * can need eight turns, an entry nine. */
static void last_calls(void)
{
    two_desks(NQ_LAST_EVENT - 6 - 9);
    CHECK(answers(called, NQ_ASK_PAGE, 1, NO_WORD));
    two_desks(NQ_LAST_EVENT - 6 - 10);
    CHECK(answers(called, NQ_ASK_ENTRY, 1, NO_WORD));
    two_desks(NQ_LAST_EVENT - 6 - 9);
    CHECK(refuses(NQ_DAY_FULL, NQ_ASK_ENTRY, 1));
    two_desks(NQ_LAST_EVENT - 6 - 8);
    CHECK(refuses(NQ_DAY_FULL, NQ_ASK_ENTRY, 1) && refuses(NQ_DAY_FULL, NQ_ASK_PAGE, 1));
    CHECK(answers(written(4), NQ_ASK_TURN, 2, NO_WORD));
    CHECK(answers(called, NQ_ASK_PAGE, 1, NO_WORD));
    two_desks(NQ_LAST_EVENT - 6);
    CHECK(answers(written(4), NQ_ASK_TURN, 2, NO_WORD));
    CHECK(now.table[1].row.last == NQ_LAST_EVENT - 5);
    two_desks(NQ_LAST_EVENT - 5);
    CHECK(refuses_all(NQ_CANNOT_ARISE, 1) && refuses_all(NQ_CANNOT_ARISE, 2));
}

/* Openings: each refusal, where those after it in the order have their causes too. */
static void openings_refused(void)
{
    lend(2, 0, 99);
    CHECK(refuses(NQ_LENT_SIZE, NQ_ASK_OPEN, 1) && refuses(NQ_LENT_SIZE, NQ_ASK_OPEN, 3));
    CHECK(refuses(NQ_DESK_COUNT, NQ_ASK_OPEN, 0));
    CHECK(refuses(NQ_DESK_COUNT, NQ_ASK_OPEN, NQ_MOST_DESKS + 1));
    now.count = 2;
    CHECK(refuses(NQ_OPEN_STATE, NQ_ASK_OPEN, 0) && refuses(NQ_OPEN_STATE, NQ_ASK_OPEN, 2));
}

/* Calls and turns: each refusal, where those after it in the order have their causes too. */
static void calls_and_turns_refused(void)
{
    two_desks(NQ_LAST_EVENT - 6);
    CHECK(refuses(NQ_DAY_FULL, NQ_ASK_ENTRY, 1) && refuses(NQ_DAY_FULL, NQ_ASK_PAGE, 1));
    CHECK(refuses(NQ_DESK_BUSY, NQ_ASK_ENTRY, 2) && refuses(NQ_DESK_BUSY, NQ_ASK_PAGE, 2));
    CHECK(refuses(NQ_DESK_IDLE, NQ_ASK_TURN, 1));
    CHECK(refuses_all(NQ_NO_SUCH_DESK, 0) && refuses_all(NQ_NO_SUCH_DESK, 3));
    now.event = NQ_LAST_EVENT + 1;
    CHECK(refuses_all(NQ_CANNOT_ARISE, 0) && refuses_all(NQ_CANNOT_ARISE, 1));
    for (now.words = 0; now.words < 4; now.words++)
        CHECK(refuses(NQ_LENT_SIZE, NQ_ASK_TURN, 2) && refuses(NQ_CANNOT_ARISE, NQ_ASK_PAGE, 2));
    now.records = 1;
    CHECK(refuses_all(NQ_LENT_SIZE, 1));
    now.records = 3;
    CHECK(refuses_all(NQ_LENT_SIZE, 1));
    now.count = 0;
    CHECK(refuses_all(NQ_OPEN_STATE, 1));
    CHECK(refuses(NQ_UNKNOWN_KIND, 0, 1) && refuses(NQ_UNKNOWN_KIND, NQ_ASK_TURN + 1, 1));

    lend(NQ_MOST_DESKS + 1, 2 * (NQ_MOST_DESKS + 1), 3);
    now.count = NQ_MOST_DESKS + 1;
    now.event = 9;
    CHECK(refuses_all(NQ_CANNOT_ARISE, 1));
    now.words--;
    CHECK(refuses(NQ_LENT_SIZE, NQ_ASK_TURN, 1));
}

/* Whether a word of desk 2's record is refused above this number, but not by an opening, which does
 * not look at it. */
static int refuses_above(uint32_t most, uint32_t *word, uint32_t task)
{
    two_desks(5);
    now.table[1].task = task;
    *word = most + 1;
    if (!refuses_all(NQ_CANNOT_ARISE, 1) || !refuses_all(NQ_CANNOT_ARISE, 3))
        return 0;
    *word = most;
    if (!answers(called, NQ_ASK_PAGE, 1, NO_WORD))
        return 0;
    *word = most + 1;
    now.count = 0;
    return opens(2);
}

/* Records that cannot arise, each by one cause. */
static void records_refused(void)
{
    struct nq_desk *other = &now.table[1];

    CHECK(refuses_above(5, &other->row.last, NQ_IDLE));
    CHECK(refuses_above(5, &other->row.seq, NQ_IDLE));
    CHECK(refuses_above(5, &other->row.at, NQ_IDLE));
    CHECK(refuses_above(7, &other->turns, NQ_READING_PAGE));
    CHECK(refuses_above(7, &other->turns, NQ_READING_ENTRY));
    CHECK(refuses_above(8, &other->turns, NQ_READY_ENTRY));
    CHECK(refuses_above(NQ_READY_ENTRY, &other->task, NQ_IDLE));
}

/* Whether the day goes on though this word of a record is a number above the day's. */
static int goes_on_with(uint32_t *word)
{
    two_desks(5);
    *word = 70000;
    return answers(called, NQ_ASK_PAGE, 1, NO_WORD) &&
           answers(written(4), NQ_ASK_TURN, 2, NO_WORD) && reads_on(1, 3) &&
           answers(page(0, 9, 4), NQ_ASK_TURN, 1, NO_WORD);
}

/* The number of a desk's own row is judged, but none in a view or in what the desk has collected. */
static void numbers_not_judged(void)
{
    struct nq_desk *own = &now.table[0], *other = &now.table[1];

    CHECK(goes_on_with(&own->row.view[1].last) && goes_on_with(&other->row.view[0].last));
    CHECK(goes_on_with(&other->first[0].last) && goes_on_with(&other->first[1].view[1].last));
    CHECK(goes_on_with(&other->second[1].last) && goes_on_with(&other->second[0].view[0].last));
    CHECK(goes_on_with(&other->kept_view[1].last) && other->row.view[1].last == 70000);
}

/* Desk 1 reads a page and desk 2 makes an entry in one run, with turns between that are refused. */
static void run_of_turns(void)
{
    static const uint32_t desks[] = {1, 2, 3, 1, 2, 1, 2, 1, 1, 2, 2, 0};
    static const struct nq_reply replies[] = {
        {.count = 2, .event = 15, .answer = NQ_READ},
        {.count = 2, .event = 16, .answer = NQ_READ},
        {.count = 2, .event = 16, .answer = NQ_REFUSED, .refusal = NQ_NO_SUCH_DESK},
        {.count = 2, .event = 17, .answer = NQ_READ},
        {.count = 2, .event = 18, .answer = NQ_READ},
        {.count = 2, .event = 19, .answer = NQ_READ},
        {.count = 2, .event = 20, .answer = NQ_READ},
        {.count = 2, .event = 21, .answer = NQ_PAGE, .at = 17, .turns = 4},
        {.count = 2, .event = 21, .answer = NQ_REFUSED, .refusal = NQ_DESK_IDLE},
        {.count = 2, .event = 22, .answer = NQ_READ},
        {.count = 2, .event = 23, .answer = NQ_WRITTEN, .turns = 5},
        {.count = 2, .event = 23, .answer = NQ_REFUSED, .refusal = NQ_NO_SUCH_DESK}};
    struct run left;

    lend(2, 4, 99);
    CHECK(opens(2) && enters(1, 11) && enters(2, 22));
    wanted.table[0].row = (struct nq_row){11, .last = 6, .seq = 1, .view = {{0, 0}}, .at = 3};
    wanted.table[1].row =
        (struct nq_row){24, .last = 23, .seq = 2, .view = {{11, 6}, {22, 12}}, .at = 18};
    CHECK(answers(called, NQ_ASK_PAGE, 1, NO_WORD) && answers(called, NQ_ASK_ENTRY, 2, 24));
    wanted.event = 23;
    lend_run(12, desks, 13, 12 * 4 + 1);
    left = lent;
    memcpy(left.replies, replies, sizeof replies);
    memcpy(left.pages + 7 * 4, (const uint32_t[]){11, 22, 6, 12}, 4 * sizeof left.pages[0]);
    CHECK(runs() && same(&now, &wanted) && memcmp(&lent, &left, sizeof lent) == 0);
}

/* A run on the day of two desks, which begins at this event number. */
static void lend_three_turns(uint32_t event, uint32_t places, uint32_t words)
{
    two_desks(event);
    lend_run(3, (uint32_t[]){2, 1, 3}, places, words);
}

/* Runs with tables that are just long enough, longer or too short, and each refusal, where those after
 * it in the order have their causes too. */
static void runs_refused(void)
{
    lend_three_turns(9, 3, 12);
    CHECK(runs() && lent.replies[0].answer == NQ_WRITTEN);
    CHECK(lent.replies[1].refusal == NQ_DESK_IDLE && lent.replies[2].refusal == NQ_NO_SUCH_DESK);
    lend_three_turns(9, LIST, LIST * PAGE);
    CHECK(runs());
    lend_three_turns(9, 2, 12);
    CHECK(refuses_run(NQ_TABLE_SHORT));
    lend_three_turns(9, 3, 11);
    CHECK(refuses_run(NQ_TABLE_SHORT));
    lend_three_turns(9, 3, 6);
    CHECK(refuses_run(NQ_TABLE_SHORT));
    lend_three_turns(NQ_LAST_EVENT + 1, 3, 12);
    CHECK(refuses_turns(NQ_CANNOT_ARISE));
    lend_three_turns(9, 3, 12);
    now.table[0].row.last = 10;
    CHECK(refuses_turns(NQ_CANNOT_ARISE));
    lend_three_turns(NQ_LAST_EVENT + 1, 2, 11);
    CHECK(refuses_run(NQ_TABLE_SHORT));
    now.records = 1;
    CHECK(refuses_run(NQ_LENT_SIZE));
    now.records = 3;
    CHECK(refuses_run(NQ_LENT_SIZE));
    now.count = 0;
    CHECK(refuses_run(NQ_OPEN_STATE));
}

/* A run without turns, which needs no tables. */
static void empty_run(void)
{
    struct state before;

    two_desks(9);
    before = now;
    lend_run(0, NULL, 0, 0);
    CHECK(runs() && same(&now, &before));
    now.records = 1;
    CHECK(refuses_run(NQ_LENT_SIZE));
    now.count = 0;
    CHECK(refuses_run(NQ_OPEN_STATE));
}

/* A count above 8 refuses the turns of a run, but not the run. */
static void run_of_too_many_desks(void)
{
    lend(NQ_MOST_DESKS + 1, 0, 3);
    now.count = NQ_MOST_DESKS + 1;
    now.event = 9;
    lend_run(2, (uint32_t[]){1, 0}, 2, 2 * 2 * now.count);
    CHECK(refuses_turns(NQ_CANNOT_ARISE));
    lend_run(2, (uint32_t[]){1, 0}, 2, 2 * 2 * now.count - 1);
    CHECK(refuses_run(NQ_TABLE_SHORT));
}

/* A day file with a request of each kind, read to its end. */
static void day_file(void)
{
    static const uint8_t file[] = {4, 0, 1, 0, 7, 0, 8, 0, 2, 0, 1, 2, 6, 5, 4, 3,
                                   4, 0, 3, 0, 3, 0, 4, 0, 4, 0, 255, 255};
    static const struct nq_request requests[] = {
        {.kind = NQ_ASK_OPEN, .desk = 7, .next = 6},
        {.kind = NQ_ASK_ENTRY, .desk = 0x0201, .word = 0x03040506, .next = 10},
        {.kind = NQ_ASK_PAGE, .desk = 3, .next = 6},
        {.kind = NQ_ASK_TURN, .desk = 65535, .next = 6},
        {.kind = 0}};
    size_t i, at = 0;

    for (i = 0; i < sizeof requests / sizeof requests[0]; i++) {
        struct nq_request found = nq_read(file + at, sizeof file - at);

        CHECK(memcmp(&found, &requests[i], sizeof found) == 0);
        at += found.next;
    }
    CHECK(at == sizeof file);
}

/* Whether a day file of these bytes is refused with this number. */
static int file_refused(uint32_t refusal, size_t length, const uint8_t *bytes)
{
    struct nq_request found = nq_read(bytes, length), only = {.refusal = refusal};

    return memcmp(&found, &only, sizeof found) == 0;
}

/* Day files: each refusal, where those after it in the order have their causes too. */
static void day_files_refused(void)
{
    CHECK(file_refused(NQ_CUT_SHORT, 1, (uint8_t[]){3}));
    CHECK(file_refused(NQ_WRONG_LENGTH, 2, (uint8_t[]){3, 0}));
    CHECK(file_refused(NQ_WRONG_LENGTH, 2, (uint8_t[]){9, 0}));
    CHECK(file_refused(NQ_WRONG_LENGTH, 6, (uint8_t[]){4, 1, 1, 0, 1, 0}));
    CHECK(file_refused(NQ_CUT_SHORT, 2, (uint8_t[]){4, 0}));
    CHECK(file_refused(NQ_CUT_SHORT, 5, (uint8_t[]){4, 0, 9, 0, 1}));
    CHECK(file_refused(NQ_CUT_SHORT, 9, (uint8_t[]){8, 0, 2, 0, 1, 0, 7, 0, 0}));
    CHECK(file_refused(NQ_UNKNOWN_KIND, 6, (uint8_t[]){4, 0, 0, 0, 1, 0}));
    CHECK(file_refused(NQ_UNKNOWN_KIND, 7, (uint8_t[]){5, 0, 5, 0, 1, 0, 0}));
    CHECK(file_refused(NQ_WRONG_LENGTH, 6, (uint8_t[]){4, 0, 2, 0, 1, 0}));
    CHECK(file_refused(NQ_WRONG_LENGTH, 7, (uint8_t[]){5, 0, 1, 0, 1, 0, 0}));
    CHECK(file_refused(NQ_WRONG_LENGTH, 10, (uint8_t[]){8, 0, 3, 0, 1, 0, 7, 0, 0, 0}));
    CHECK(file_refused(NQ_WRONG_LENGTH, 10, (uint8_t[]){8, 0, 4, 0, 1, 0, 7, 0, 0, 0}));
}

/* Lends a mending so much, whatever stands in it. */
static void lend_rooms(size_t places, size_t row_count)
{
    memset(&rooms, 0xa5, sizeof rooms);
    rooms.places = places;
    rooms.row_count = row_count;
}

/* Mends a file. Whether that is replied, and leaves these rooms in every byte. */
static int mending_leaves(struct nq_mending reply, const uint8_t *file, size_t length,
                          const struct rooms *left)
{
    struct nq_mending mending =
        nq_mend(file, length, rooms.room, rooms.places, rooms.rows, rooms.row_count);

    return memcmp(&mending, &reply, sizeof reply) == 0 && memcmp(&rooms, left, sizeof rooms) == 0;
}

/* Whether a file is mended so where so much is lent, and later places stay. */
static int mends_into(const uint8_t *file, size_t length, struct mended mended, size_t places,
                      size_t row_count)
{
    static struct rooms left;
    struct nq_mending reply = {.kept = mended.length, .drops = mended.count};

    lend_rooms(places, row_count);
    left = rooms;
    memcpy(left.room, mended.kept, mended.length);
    memcpy(left.rows, mended.drops, mended.count * sizeof left.rows[0]);
    return mending_leaves(reply, file, length, &left);
}

/* Whether mending a file is refused where so much is lent, and changes nothing. */
static int refuses_rooms(const uint8_t *file, size_t length, size_t places, size_t row_count)
{
    static struct rooms left;
    struct nq_mending reply = {.refusal = NQ_ROOM_SHORT};

    lend_rooms(places, row_count);
    left = rooms;
    return mending_leaves(reply, file, length, &left);
}

/* Whether a file is mended so where just enough is lent, more of either or of both, and as much as is
 * always enough; and what is kept is itself mended without a drop. */
static int mends_with_room(const uint8_t *file, size_t length, struct mended mended)
{
    struct mended again = {mended.kept, mended.length, mended.drops, 0};

    return mends_into(file, length, mended, mended.length, mended.count) &&
           mends_into(file, length, mended, mended.length + 1, mended.count) &&
           mends_into(file, length, mended, mended.length, mended.count + 1) &&
           mends_into(file, length, mended, MOST, ROWS) &&
           mends_into(file, length, mended, length, mended.count) &&
           (length / 2 >= ROWS || mends_into(file, length, mended, length, length / 2 + 1)) &&
           mends_into(mended.kept, mended.length, again, mended.length, 0);
}

/* Whether mending a file is refused for want of a byte, a row, both or all. */
static int needs_room(const uint8_t *file, size_t length, size_t kept, size_t drops)
{
    return (kept == 0 || refuses_rooms(file, length, kept - 1, drops)) &&
           (kept == 0 || refuses_rooms(file, length, kept - 1, ROWS)) &&
           (drops == 0 || refuses_rooms(file, length, kept, drops - 1)) &&
           (drops == 0 || refuses_rooms(file, length, MOST, drops - 1)) &&
           (kept == 0 || drops == 0 || refuses_rooms(file, length, kept - 1, drops - 1)) &&
           (kept + drops == 0 || refuses_rooms(file, length, 0, 0));
}

/* Whether a file is mended to these bytes, with these drops. */
static int mends(const uint8_t *file, size_t length, const uint8_t *kept, size_t kept_length,
                 const struct nq_drop *drops, size_t count)
{
    struct mended mended = {kept, kept_length, drops, count};

    return mends_with_room(file, length, mended) && needs_room(file, length, kept_length, count);
}

/* Whether nothing is dropped from a file. */
static int keeps(const uint8_t *file, size_t length)
{
    return mends(file, length, file, length, NO_DROPS);
}

/* Files without a byte, and without damage. */
static void undamaged_files(void)
{
    CHECK(keeps(NO_BYTES));
    CHECK(keeps(BYTES(OPEN(8))));
    CHECK(keeps(BYTES(OPEN(2), ASK(2), TURN(2), ENTRY(1, 7), TURN(1), TURN(2))));
    CHECK(keeps(BYTES(OPEN(1), ENTRY(1, 7), TURN(1), TURN(1), TURN(1), ASK(1), TURN(1), TURN(1))));
}

/* Ends within a record, and bytes of unknown kinds and wrong lengths: each is dropped with as many
 * bytes as it has, and what stands behind it is kept. */
static void unreadable_bytes(void)
{
    CHECK(mends(BYTES(4), NO_BYTES, DROPS({0, 1, 7})));
    CHECK(mends(BYTES(OPEN(1), 0), BYTES(OPEN(1)), DROPS({6, 1, 7})));
    CHECK(mends(BYTES(OPEN(1), 4, 0), BYTES(OPEN(1)), DROPS({6, 2, 7})));
    CHECK(mends(BYTES(OPEN(1), 8, 0, 2, 0, 1, 0, 7, 0, 0), BYTES(OPEN(1)), DROPS({6, 9, 7})));
    CHECK(mends(BYTES(OPEN(1), 5, 0, 9, 0, 1, 0), BYTES(OPEN(1)), DROPS({6, 6, 7})));

    CHECK(mends(BYTES(4, 0, 9, 0, 1, 0), NO_BYTES, DROPS({0, 6, 8})));
    CHECK(mends(BYTES(OPEN(1), 5, 0, 0, 0, 1, 0, 9, ASK(1)), BYTES(OPEN(1), ASK(1)),
                DROPS({6, 7, 8})));
    CHECK(mends(BYTES(OPEN(1), 8, 0, 2, 1, 1, 0, 7, 0, 0, 0, ASK(1)), BYTES(OPEN(1), ASK(1)),
                DROPS({6, 10, 8})));

    CHECK(mends(BYTES(OPEN(2), 4, 0, 2, 0, 1, 0, ASK(1)), BYTES(OPEN(2), ASK(1)),
                DROPS({6, 6, 9})));
    CHECK(mends(BYTES(OPEN(2), ASK(1), 8, 0, TURN(1), 0, 0), BYTES(OPEN(2), ASK(1)),
                DROPS({12, 10, 9})));
    CHECK(mends(BYTES(OPEN(1), 1, 0, 4, ASK(1), 3, 0, 4, 0, 4, TURN(1)),
                BYTES(OPEN(1), ASK(1), TURN(1)), DROPS({6, 3, 9}, {15, 5, 9})));
    CHECK(mends(BYTES(OPEN(1), 9, 0, 4, 0, 4, 0, 1, 0, 4, 0, 4, ASK(1)), BYTES(OPEN(1), ASK(1)),
                DROPS({6, 11, 9})));
}

/* Lengths of 0, which drop two bytes each: as many drops as there can be, with and without a byte that
 * is left. */
static void lengths_of_0(void)
{
    CHECK(mends(BYTES(0, 0), NO_BYTES, DROPS({0, 2, 9})));
    CHECK(mends(BYTES(OPEN(1), 0, 0, ASK(1)), BYTES(OPEN(1), ASK(1)), DROPS({6, 2, 9})));
    CHECK(mends(BYTES(0, 0, 0, 0, 0, 0), NO_BYTES, DROPS({0, 2, 9}, {2, 2, 9}, {4, 2, 9})));
    CHECK(mends(BYTES(0, 0, 0, 0, 0), NO_BYTES, DROPS({0, 2, 9}, {2, 2, 9}, {4, 1, 7})));
}

/* Lengths that say just what is left, one byte more, one fewer, and as many as they can. */
static void lengths_past_the_end(void)
{
    static uint8_t file[6 + 2 + 65535 + 6] = {OPEN(1), 255, 255};

    CHECK(mends(BYTES(OPEN(1), 12, 0, ASK(1), TURN(1)), BYTES(OPEN(1)), DROPS({6, 14, 9})));
    CHECK(mends(BYTES(OPEN(1), 13, 0, ASK(1), TURN(1)), BYTES(OPEN(1)), DROPS({6, 14, 9})));
    CHECK(mends(BYTES(OPEN(1), 11, 0, ASK(1), TURN(1)), BYTES(OPEN(1)),
                DROPS({6, 13, 9}, {19, 1, 7})));
    CHECK(mends(BYTES(OPEN(1), 255, 255, ASK(1)), BYTES(OPEN(1)), DROPS({6, 8, 9})));
    CHECK(mends(BYTES(OPEN(1), 1, 0), BYTES(OPEN(1)), DROPS({6, 2, 9})));

    memcpy(file + sizeof file - 6, (const uint8_t[]){ASK(1)}, 6);
    CHECK(mends(file, sizeof file, BYTES(OPEN(1), ASK(1)), DROPS({6, 65537, 9})));
}

/* Requests that are refused, each with its number. */
static void records_refused_in_files(void)
{
    CHECK(mends(BYTES(OPEN(9), OPEN(0), OPEN(1)), BYTES(OPEN(1)), DROPS({0, 6, 1}, {6, 6, 1})));
    CHECK(mends(BYTES(TURN(1), OPEN(2), ASK(1), OPEN(2), TURN(1)),
                BYTES(OPEN(2), ASK(1), TURN(1)), DROPS({0, 6, 10}, {18, 6, 10})));
    CHECK(mends(BYTES(OPEN(2), ASK(3), ENTRY(0, 7), TURN(3), ASK(2)), BYTES(OPEN(2), ASK(2)),
                DROPS({6, 6, 2}, {12, 10, 2}, {22, 6, 2})));
    CHECK(mends(BYTES(OPEN(1), ASK(1), ENTRY(1, 7), ASK(1), TURN(1)),
                BYTES(OPEN(1), ASK(1), TURN(1)), DROPS({12, 10, 3}, {22, 6, 3})));
    CHECK(mends(BYTES(OPEN(1), ASK(1), TURN(1), TURN(1), TURN(1)),
                BYTES(OPEN(1), ASK(1), TURN(1), TURN(1)), DROPS({24, 6, 4})));
}

/* What is dropped is not asked, so that more is refused behind it: turns of a call whose kind is damaged,
 * a call where the last turn of the one before is, and everything where the opening is lost or a byte
 * of it. */
static void damage_that_goes_on(void)
{
    CHECK(mends(BYTES(OPEN(1), 8, 0, 2, 1, 1, 0, 7, 0, 0, 0, TURN(1), TURN(1), ASK(1), 7),
                BYTES(OPEN(1), ASK(1)),
                DROPS({6, 10, 8}, {16, 6, 4}, {22, 6, 4}, {34, 1, 7})));
    CHECK(mends(BYTES(OPEN(1), ASK(1), TURN(1), 4, 0, 6, 0, 1, 0, ASK(1), TURN(1)),
                BYTES(OPEN(1), ASK(1), TURN(1), TURN(1)), DROPS({18, 6, 8}, {24, 6, 3})));
    CHECK(mends(BYTES(ASK(1), TURN(1)), NO_BYTES, DROPS({0, 6, 10}, {6, 6, 10})));
    CHECK(mends(BYTES(0, 1, 0, 2, 0, ASK(1), TURN(1)), NO_BYTES, DROPS({0, 17, 9})));
}

/* A full day of pages, with calls and a turn behind it. */
static void full_day_file(void)
{
    static uint8_t file[6 + 6 * NQ_LAST_EVENT + 22] = {OPEN(1)};
    size_t i, day = 6 + 6 * NQ_LAST_EVENT;

    for (i = 6; i < day; i += 18)
        memcpy(file + i, (const uint8_t[]){ASK(1), TURN(1), TURN(1)}, 18);
    memcpy(file + day, (const uint8_t[]){ASK(1), ENTRY(1, 7), TURN(1)}, 22);
    CHECK(keeps(file, day));
    CHECK(mends(file, sizeof file, file, day,
                DROPS({day, 6, NQ_DAY_FULL}, {day + 6, 10, NQ_DAY_FULL}, {day + 16, 6, NQ_DESK_IDLE})));
}

int main(void)
{
    CHECK(nq_version() == NQ_VERSION);
    places();
    entries();
    entry_by_turns();
    pages();
    case_a();
    case_b();
    written_after_it_was_read();
    what_does_not_count();
    damaged_collect();
    most_desks();
    last_event();
    last_calls();
    openings_refused();
    calls_and_turns_refused();
    records_refused();
    numbers_not_judged();
    run_of_turns();
    runs_refused();
    empty_run();
    run_of_too_many_desks();
    day_file();
    day_files_refused();
    undamaged_files();
    unreadable_bytes();
    lengths_of_0();
    lengths_past_the_end();
    records_refused_in_files();
    damage_that_goes_on();
    full_day_file();
    printf("the library does what the header says\n");
    return 0;
}
