/* Gives the library many turns, one by one or in runs: turns one|runs DESKS. In each of 400 rounds the desks that have no call under
 * way call for a page, and then there are 64 turns of all desks, one after the other. */
#include <string.h>

#include "../bindings/c/nelvaquist.h"

#define ROUNDS 400
#define TURNS 64

static struct nq_desk table[NQ_MOST_DESKS];
static uint32_t desks[TURNS], pages[TURNS * 2 * NQ_MOST_DESKS], waits[NQ_MOST_DESKS + 1];
static struct nq_reply replies[TURNS];

int main(int given, char **words)
{
    int runs = given > 2 && strcmp(words[1], "runs") == 0;
    uint32_t n = given > 2 ? (uint32_t)(words[2][0] - '0') : 1;
    struct nq_reply day = nq_open(0, 0, table, n, n);

    for (int i = 0; i < TURNS; i++)
        desks[i] = 1 + (uint32_t)i % n;
    for (int round = 0; round < ROUNDS; round++) {
        for (uint32_t desk = 1; desk <= n; desk++)
            if (!waits[desk]) {
                day = nq_page(day.count, day.event, table, n, desk);
                waits[desk] = 1;
            }
        if (runs)
            day = nq_run(day.count, day.event, table, n, desks, TURNS, replies, TURNS, pages, TURNS * 2 * n);
        else
            for (int i = 0; i < TURNS; i++)
                replies[i] = day = nq_turn(day.count, day.event, table, n, desks[i], pages + 2 * n * i, 2 * n);
        for (int i = 0; i < TURNS; i++)
            if (replies[i].answer == NQ_PAGE)
                waits[desks[i]] = 0;
    }
    return day.event == 0;
}
