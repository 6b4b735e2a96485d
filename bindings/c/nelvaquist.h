/* Nelvaquist: a register for up to eight desks, for C and C++ (libnq.a, x86-64 Linux).
 *
 * Each desk owns one row, which holds a word of 32 bits. A desk writes its row by an entry and reads
 * all rows together by a page. Both begin with a call and go on by turns, which the caller hands out
 * to the desks in any order; a turn reads or writes one row. A page shows what stood in the rows at
 * one instant between its call and its answer, however the turns of other desks fall between its own,
 * and how fresh each row was: the number of the event that last wrote it by that instant. A day has at
 * most 65,535 events, and a call is taken only if it and all calls under way can be ended within them.
 * example.c, beside this file, is a whole day, and mends another.
 *
 * The caller keeps all that the register knows, and lends it to every request:
 *
 *   the day        its desk count n, 0 before the opening, and its event number. They are passed by
 *                  value: 0 and 0 at first, then those of the reply before.
 *   the table      n desk records, that of desk 1 first: an array, or calloc(n, sizeof *table)
 *   the page list  2n words in which a page is answered, or more, for turns only
 *
 * Many turns can be given at once, as a run (nq_run), which takes a list of desks and, in place of a
 * page list, two tables for what the turns answer.
 *
 * A day can also stand in a day file, one request after the other (nq_read). A file that was damaged
 * is mended (nq_mend) on a day of its own.
 *
 * The library keeps nothing between calls, allocates nothing and does no input or output. What it is
 * lent stays the caller's. Calls that are lent different things may run at once in any threads. It
 * needs memcpy and memset and, beside what these take, less than 8 KiB of stack, nq_mend less than
 * 24 KiB.
 *
 * The caller must hold to this, even for a request that will be refused:
 *
 *   - table, page, desks, replies, pages, bytes, room and rows are not null and are aligned for their
 *     type, even if their length is 0;
 *   - table points to `records` whole records, page or pages to `words` words, desks to `turns` desk
 *     numbers, replies to `places` whole replies, bytes to `length` bytes, room to `places` bytes, rows
 *     to `row_count` whole drops, all initialised;
 *   - no two things that a call is lent overlap, so that no file is mended in its own place;
 *   - nobody else reads or writes table, page, replies, pages, room or rows, or writes desks or bytes,
 *     during the call;
 *   - nq_version() is NQ_VERSION: with a library of another version nothing here holds.
 *
 * Nothing else is asked. Every number and every word may be anything: what does not fit is refused,
 * and what no refusal names is worked on by the rules. Nothing outside of what is lent is touched.
 * Pages are true on a day that grew from an opening, each request lent what the one before left; on
 * words that were damaged, what a page shows and its `at` can be anything. */
#ifndef NELVAQUIST_H
#define NELVAQUIST_H

#include <stddef.h>
#include <stdint.h>

#ifdef __cplusplus
extern "C" {
#endif

/* Changes whenever a function, a parameter or the layout of a struct here does. Tables of version 3 are
 * as those here, and a day that was begun with it goes on. Those of versions 1 and 2, whose records
 * have 208 words, cannot be taken over: a day that was begun with one of these is ended with it. */
#define NQ_VERSION 4

#define NQ_MOST_DESKS 8
#define NQ_LAST_EVENT 65535 /* the number of the last event that a day can have */

/* What a page shows of a row. */
struct nq_value {
    uint32_t word;
    uint32_t last; /* the number of the event that had last written the row, 0 if none had */
};

/* A desk's row, or one that a desk has read. On a day for n desks the first n values of a view count;
 * those past n stay until an opening. */
struct nq_row {
    uint32_t word;
    uint32_t last;                       /* the event number of its last writing, 0 if none */
    uint32_t seq;                        /* how often the row has been written */
    struct nq_value view[NQ_MOST_DESKS]; /* the page that its desk found before it last wrote */
    uint32_t at;                         /* the instant of that page */
};

/* The record of a desk: 369 words without padding, which can be kept and sent as they are. On a day
 * for n desks the first n rows of a collect count; those past n stay until an opening.
 *
 * A page and an entry read rows 1 to n into `first` and then into `second`, over what they read
 * before; after t turns the next read is number t mod 2n, from 0, of these. */
struct nq_desk {
    struct nq_row row;                        /* the desk's own */
    uint32_t task;                            /* NQ_IDLE to NQ_READY_ENTRY */
    uint32_t word;                            /* the new word of an entry */
    uint32_t at;                              /* the instant of the view that a ready entry keeps */
    uint32_t turns;                           /* the accepted turns since the call */
    struct nq_row first[NQ_MOST_DESKS];       /* the first collect: the rows as read */
    struct nq_row second[NQ_MOST_DESKS];      /* the second collect */
    uint32_t first_ended;                     /* the event number of the turn that ended the first */
    struct nq_value kept_view[NQ_MOST_DESKS]; /* the page that a ready entry keeps for its row */
    uint32_t marks[NQ_MOST_DESKS];            /* whether each desk was seen to write: 0 no, else yes */
};

/* The tasks of a desk. Those of word, at and turns that a task does not have are ignored. */
enum nq_task {
    NQ_IDLE = 0,          /* no call under way */
    NQ_READING_PAGE = 1,  /* has turns */
    NQ_READING_ENTRY = 2, /* has word and turns */
    NQ_READY_ENTRY = 3    /* has word, at and turns; the next turn writes the row */
};

/* The kinds of request, for nq_step and in day files. */
enum nq_ask {
    NQ_ASK_OPEN = 1,  /* opens a day */
    NQ_ASK_ENTRY = 2, /* a desk's call to write its row */
    NQ_ASK_PAGE = 3,  /* a desk's call for a page */
    NQ_ASK_TURN = 4   /* a turn for the call that a desk has under way */
};

/* What a request is answered. */
enum nq_answer {
    NQ_REFUSED = 0, /* nothing was done; `refusal` says why */
    NQ_OPENED = 1,  /* the day is open */
    NQ_CALLED = 2,  /* the entry or page call is taken */
    NQ_READ = 3,    /* the turn read a row, and the call needs more turns */
    NQ_PAGE = 4,    /* the turn ended a page: `lender`, `at`, `turns`; what it shows is in the list */
    NQ_WRITTEN = 5, /* the turn wrote the desk's row and ended an entry: `turns` */
    NQ_RAN = 6      /* the run was given; the replies to its turns are in its table */
};

/* Why a request or a day file is refused. The numbers stay as they are; later versions may add some.
 *
 * Where several apply, the first in this order is given. A kind that is none: 8. Opening: 10, 1, 6.
 * Call: 10, 6, 11, 2, 3, 5. Turn: 10, 6, 11, 2, 4. Run: 10, 6, 13. Day file: 7 if one byte is left, 9
 * if the length is outside 4 to 8, 7, 8, then 9. Mending: 12, whatever is refused within the file.
 *
 * A page owes 2n*n turns and an entry 2n*n + 1, less the turns that it has had. It can end sooner. */
enum nq_refusal {
    NQ_DESK_COUNT = 1,    /* The desk count asked for is outside 1 to 8. */
    NQ_NO_SUCH_DESK = 2,  /* The desk number is outside 1 to n. */
    NQ_DESK_BUSY = 3,     /* The desk that calls has a call under way. */
    NQ_DESK_IDLE = 4,     /* The desk that is given a turn has no call under way. */
    NQ_DAY_FULL = 5,      /* The day has too few events left for another call: the event number, 1 for
                             the call, all turns owed and those that the call would owe are more than
                             65,535. Calls under way can always be ended on the same day, so finish
                             them; if they end sooner than they could, a call may be taken again. A
                             new day is opened with count and event 0; rows are lost, and their last
                             writings too. */
    NQ_LENT_SIZE = 6,     /* The table has not exactly n records (when opening, as many as asked for),
                             or the page list of a turn has fewer than 2n words. */
    NQ_CUT_SHORT = 7,     /* The day file ends within a request. */
    NQ_UNKNOWN_KIND = 8,  /* The kind is none of 1 to 4. */
    NQ_WRONG_LENGTH = 9,  /* In a day file, a length outside 4 to 8, or not that of its kind. */
    NQ_OPEN_STATE = 10,   /* A call, a turn or a run on a day that is not open, or an opening of one
                             that is. */
    NQ_CANNOT_ARISE = 11, /* The day cannot have arisen: the desk count is above 8, the event number is
                             above 65,535, or in a record the row's last, seq or at is above the event
                             number, the task is unknown, or it has had more than 2n*n - 1 turns, 2n*n
                             if it is an entry ready to write; or the event number and all turns owed
                             are more than 65,535. */
    NQ_ROOM_SHORT = 12,   /* Mending is lent less room than the bytes that are kept, or fewer rows than
                             there are drops. */
    NQ_TABLE_SHORT = 13   /* A run is lent fewer replies than it has turns, or fewer than 2n words of
                             pages for each turn. */
};

/* The reply to a request. What an answer does not have is 0. */
struct nq_reply {
    uint32_t count;   /* the day's desk count after the request */
    uint32_t event;   /* the day's event number after it: the number of the call or turn, if accepted */
    uint32_t answer;  /* NQ_REFUSED to NQ_RAN */
    uint32_t refusal; /* if refused, why */
    uint32_t lender;  /* of a page: the desk from which it was borrowed, 0 if from none */
    uint32_t at;      /* of a page: its instant, which is right after the event of this number, later
                         than the page's call and earlier than its answer */
    uint32_t turns;   /* of a page or an entry: its accepted turns, at most 2n*n, or 2n*n + 1 */
};

/* Requests. `count` and `event` are the day before.
 *
 * On a refusal the reply has the same day, and table and page list are as they were. An accepted
 * opening sets every word of every record to 0. An accepted call or turn adds 1 to the event number
 * and writes the record of its desk, no other; there, those of word, at and turns that the task does
 * not have become 0, and marks 0 or 1. A call, and the turn that ends one, also set to 0 all marks,
 * `first_ended`, and as far as they count the collects and `kept_view`. Only a turn looks at a page
 * list, and only one that is answered NQ_PAGE writes it: its first n words become those that stood in
 * rows 1 to n at instant `at`, and the next n the event numbers of the writings that put them there, 0
 * for a row that had not been written. No other word of the list changes. */

/* Opens a day for that many desks. The table has that many records. */
struct nq_reply nq_open(uint32_t count, uint32_t event, struct nq_desk *table, size_t records,
                        uint32_t desks);

/* An entry call of a desk: its turns will write the word to its row. */
struct nq_reply nq_entry(uint32_t count, uint32_t event, struct nq_desk *table, size_t records,
                         uint32_t desk, uint32_t word);

/* A page call of a desk: its turns will read all rows. */
struct nq_reply nq_page(uint32_t count, uint32_t event, struct nq_desk *table, size_t records,
                        uint32_t desk);

/* A turn for the call that a desk has under way. */
struct nq_reply nq_turn(uint32_t count, uint32_t event, struct nq_desk *table, size_t records,
                        uint32_t desk, uint32_t *page, size_t words);

/* Any of these by its kind. An opening takes the desk count asked for as `desk`, only an entry call
 * uses `word`, and only a turn the page list. A kind that is none of 1 to 4 is refused (8). */
struct nq_reply nq_step(uint32_t count, uint32_t event, struct nq_desk *table, size_t records,
                        uint32_t kind, uint32_t desk, uint32_t word, uint32_t *page, size_t words);

/* A run of turns: one for each desk number in the list `desks`, in order. All is as if each were given
 * by nq_turn, on what the one before left. The reply to turn i, from 0, is put in replies[i], and if
 * it is a page, the page's n words and n numbers in pages[2 * n * i] to pages[2 * n * i + 2 * n - 1].
 * After a turn that is refused the next one follows. All other replies and pages stay.
 *
 * The function's own reply is NQ_RAN with the day after the run, even if every turn was refused or there
 * is none. Only 10, 6 and 13 refuse the run itself, and then nothing is changed. */
struct nq_reply nq_run(uint32_t count, uint32_t event, struct nq_desk *table, size_t records,
                       const uint32_t *desks, size_t turns, struct nq_reply *replies, size_t places,
                       uint32_t *pages, size_t words);

/* What stands at a place of a day file: a request, the end (everything is 0), or a refusal. */
struct nq_request {
    uint32_t refusal; /* 7, 8 or 9, the rest being 0: the file ends here */
    uint32_t kind;    /* NQ_ASK_OPEN to NQ_ASK_TURN */
    uint32_t desk;    /* the desk; for an opening, the desk count asked for */
    uint32_t word;    /* the new word of an entry, else 0 */
    uint32_t next;    /* how many bytes the request takes in the file */
};

/* Reads the request that begins at `bytes` in a day file, where `length` bytes are left. It is a
 * length, which counts the bytes after itself, a kind, a desk and, for an entry, a word; the word has
 * 32 bits, anything else 16, all little-endian. */
struct nq_request nq_read(const uint8_t *bytes, size_t length);

/* Bytes of a damaged day file that are not kept. */
struct nq_drop {
    uint64_t first;   /* the place of the first one in the file, from 0 */
    uint64_t count;   /* how many there are, one at least */
    uint64_t refusal; /* why: NQ_CUT_SHORT, NQ_UNKNOWN_KIND or NQ_WRONG_LENGTH if they could not be
                         read, else the refusal of the request that they are */
};

/* The reply to a mending. */
struct nq_mending {
    uint64_t kept;    /* how many bytes of room were written: the mended file */
    uint64_t drops;   /* how many rows were written */
    uint64_t refusal; /* NQ_ROOM_SHORT, the rest being 0: nothing was written; else 0 */
};

/* Mends a day file that was damaged. It is read from end to end. What cannot be read is dropped: with 8
 * or 9 the two bytes of the length and as many as they say, or all that is left if fewer, and reading
 * goes on behind them; with 7 all that is left. Every other request is asked, in order, of a day that
 * is blank at first, and dropped if it is refused there. The bytes of the others are kept unchanged and
 * laid into room one after the other, from its first byte on, and a row for each drop into rows, in the
 * order of their first bytes. Later bytes of room and later rows stay.
 *
 * Kept and dropped bytes together are the file, in order. What is kept is a day file that is run
 * without a refusal and has the same accepted events, with the same answers; mended again, nothing of
 * it is dropped.
 *
 * Only 12 refuses a mending, before anything is written. `length` bytes of room and length / 2 + 1 rows
 * are always enough, as every drop has two bytes or more, but the last may have one. With so much the
 * file is run once, with less twice, first to count. It may have any length; mending takes time in
 * proportion to it. */
struct nq_mending nq_mend(const uint8_t *bytes, size_t length, uint8_t *room, size_t places,
                          struct nq_drop *rows, size_t row_count);

/* The version of the library. */
uint32_t nq_version(void);

#ifdef __cplusplus
}
#endif

#endif
