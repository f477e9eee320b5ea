/* Does some work by DDS's functions, and prints the processor seconds, the seconds by the clock, and a sum of all
   answers.
   Usage: times tables|positions|play3|play1|easy SEED COUNT THREADS */
#include <stdio.h>
#include <stdlib.h>
#include <sys/resource.h>
#include <time.h>

#include "deals.h"

static long sum;

/* COUNT tables in one call: at most 40. */
static void work_tables(int count)
{
    static struct ddTableDeals deals;
    static struct ddTablesRes results;
    int all[5] = {0};
    deals.noOfTables = count;
    for (int i = 0; i < count; i++)
        deal_cards(13, deals.deals[i].cards);
    if (CalcAllTables(&deals, -1, all, &results, NULL) != 1)
        exit(1);
    for (int i = 0; i < 20 * count; i++)
        sum = 31 * sum % 1000003 + results.results[i / 20].resTable[i % 20 / 4][i % 4];
}

static void solve(const struct deal *deal, int solutions)
{
    struct futureTricks answer;
    if (SolveBoard(*deal, -1, solutions, 1, &answer, 0) != 1)
        exit(1);
    sum = 31 * sum % 1000003 + answer.score[0];
}

static void work_positions(int count)
{
    for (int i = 0; i < count; i++) {
        struct deal deal = position(6 + roll(8), roll(4));
        solve(&deal, 3);
    }
}

/* The seat that wins a trick of four cards. */
static int winner_of(const struct deal *deal, const int suits[4], const int ranks[4])
{
    int best = 0;
    for (int i = 1; i < 4; i++)
        if (suits[i] == suits[best] ? ranks[i] > ranks[best] : suits[i] == deal->trump)
            best = i;
    return (deal->first + best) % 4;
}

/* A whole play of a deal, asked before each card. The cards are chosen by chance. */
static void work_play(int solutions)
{
    struct deal deal = position(13, 0);
    for (int trick = 0; trick < 13; trick++) {
        int suits[4], ranks[4];
        for (int i = 0; i < 4; i++) {
            unsigned int *hand = deal.remainCards[(deal.first + i) % 4];
            solve(&deal, solutions);
            int card = choose_card(hand, i == 0 ? -1 : suits[0]);
            suits[i] = card / 16, ranks[i] = card % 16;
            hand[suits[i]] &= ~(1u << ranks[i]);
            if (i < 3)
                deal.currentTrickSuit[i] = suits[i], deal.currentTrickRank[i] = ranks[i];
        }
        deal.first = winner_of(&deal, suits, ranks);
        memset(deal.currentTrickSuit, 0, sizeof deal.currentTrickSuit);
        memset(deal.currentTrickRank, 0, sizeof deal.currentTrickRank);
    }
}

/* The table of a deal in which each hand has one suit. */
static void work_easy(int count)
{
    struct ddTableDeal deal = {{{0}}};
    struct ddTableResults table;
    for (int i = 0; i < 4; i++)
        deal.cards[i][i] = 0x7ffc;
    for (int i = 0; i < count; i++)
        if (CalcDDtable(deal, &table) != 1)
            exit(1);
    sum = table.resTable[0][0];
}

static double seconds_of(struct timeval time)
{
    return (double)time.tv_sec + (double)time.tv_usec / 1e6;
}

int main(int count, char **words)
{
    struct timespec begin, end;
    struct rusage before, after;
    if (count != 5)
        return fputs("usage: times tables|positions|play3|play1|easy SEED COUNT THREADS\n", stderr), 2;
    int number = atoi(words[3]);
    seed_dice((unsigned)atoi(words[2]));
    SetMaxThreads(atoi(words[4]));
    getrusage(RUSAGE_SELF, &before);
    clock_gettime(CLOCK_MONOTONIC, &begin);
    if (strcmp(words[1], "tables") == 0)
        work_tables(number);
    else if (strcmp(words[1], "positions") == 0)
        work_positions(number);
    else if (strcmp(words[1], "easy") == 0)
        work_easy(number);
    else
        for (int i = 0; i < number; i++)
            work_play(words[1][4] - '0');
    clock_gettime(CLOCK_MONOTONIC, &end);
    getrusage(RUSAGE_SELF, &after);
    printf("%.4f %.4f %ld\n",
           seconds_of(after.ru_utime) + seconds_of(after.ru_stime) - seconds_of(before.ru_utime) -
               seconds_of(before.ru_stime),
           (double)(end.tv_sec - begin.tv_sec) + (double)(end.tv_nsec - begin.tv_nsec) / 1e9, sum);
    return 0;
}
