/* Calls of eight threads at a time, each of which also uses threads, while another changes their number: every answer
   has to be the one that a lone call gives. Then the settings, and calls with null pointers. */
#include <pthread.h>
#include <stdio.h>
#include <string.h>

#include "dds.h"

enum { THREADS = 8, DEALS = 6 };

static struct ddTableDeals deals;
static struct ddTablesRes tables;
static struct solvedBoards cards;
static struct boards boards;
static int wrong;

/* Endings of three cards a hand: the pack's order turned by a number. */
static void make_deals(void)
{
    deals.noOfTables = boards.noOfBoards = DEALS;
    for (int i = 0; i < DEALS; i++) {
        for (int card = 0; card < 12; card++) {
            int place = (card * (3 + i) + i) % 13;
            deals.deals[i].cards[card % 4][card / 3] |= 4u << place;
        }
        memcpy(boards.deals[i].remainCards, deals.deals[i].cards, sizeof boards.deals[i].remainCards);
        boards.deals[i].trump = i % 5;
        boards.target[i] = -1;
        boards.solutions[i] = 3;
        boards.mode[i] = 1;
    }
}

static void *call_often(void *number)
{
    static int all[5];
    struct ddTablesRes own_tables;
    struct solvedBoards own_cards;
    struct futureTricks future;
    for (int turn = 0; turn < 20; turn++) {
        if (number == NULL)
            SetMaxThreads(turn % 5);
        memset(&own_tables, 0, sizeof own_tables);
        memset(&own_cards, 0, sizeof own_cards);
        if (CalcAllTables(&deals, -1, all, &own_tables, NULL) != 1 ||
            memcmp(&own_tables, &tables, sizeof tables) != 0 ||
            SolveAllChunksBin(&boards, &own_cards, 1) != 1 || memcmp(&own_cards, &cards, sizeof cards) != 0 ||
            SolveBoard(boards.deals[turn % DEALS], -1, 3, 1, &future, 0) != 1 ||
            memcmp(&future, &cards.solvedBoard[turn % DEALS], sizeof future) != 0)
            __atomic_store_n(&wrong, 1, __ATOMIC_RELAXED);
    }
    return NULL;
}

static void check(const char *name, int right)
{
    if (!right) {
        printf("threads: %s\n", name);
        wrong = 1;
    }
}

static void check_settings(void)
{
    struct DDSInfo info;
    char text[80];
    SetMaxThreads(1);
    GetDDSInfo(&info);
    check("one thread", info.noOfThreads == 1 && info.major == 2 && info.minor == 9 && info.patch == 0);
    SetResources(100, 0);
    GetDDSInfo(&info);
    check("all processors", info.noOfThreads == info.numCores && info.noOfThreads >= 1);
    ErrorMessage(RETURN_PBN_FAULT, text);
    check("a text", strcmp(text, "PBN string error") == 0);
    ErrorMessage(0, text);
    check("no text", strcmp(text, "Not a DDS error code") == 0);
    check("threading", SetThreading(5) == 1 && SetThreading(1) == RETURN_THREAD_MISSING);
    SetMaxThreads(0);
}

/* With null for each pointer, or for the results alone. */
static void check_null(void)
{
    struct deal deal = boards.deals[0];
    struct dealPBN text = {0};
    struct ddTableDealPBN table = {"N:2... 3... 4... 5..."};
    struct playTraceBin play = {0};
    struct playTracePBN play_text = {0};
    struct ddTableResults results;
    int all[5] = {0};
    check("SolveBoard", SolveBoard(deal, -1, 1, 1, NULL, 0) == -1 && SolveBoardPBN(text, -1, 1, 1, NULL, 0) == -1);
    check("boards", SolveAllBoards(NULL, NULL) == -1 && SolveAllChunks(NULL, &cards, 0) == -1 &&
                        SolveAllChunksPBN(NULL, NULL, 1) == -1 && SolveAllChunksBin(&boards, NULL, 1) == -1);
    check("tables", CalcDDtable(deals.deals[0], NULL) == -1 && CalcDDtablePBN(table, NULL) == -1 &&
                        CalcAllTables(NULL, -1, all, &tables, NULL) == -1 &&
                        CalcAllTables(&deals, -1, NULL, &tables, NULL) == -1 &&
                        CalcAllTables(&deals, 0, all, &tables, NULL) == -1 &&
                        CalcAllTablesPBN(NULL, -1, all, NULL, NULL) == -1);
    check("pars", Par(NULL, NULL, 0) == -1 && CalcPar(deals.deals[0], 0, &results, NULL) == -1 &&
                      CalcParPBN(table, NULL, 0, NULL) == -1 && SidesPar(NULL, NULL, 0) == -1 &&
                      DealerPar(&results, NULL, 0, 0) == -1 && DealerParBin(NULL, NULL, 0, 0) == -1 &&
                      SidesParBin(NULL, NULL, 0) == -1 && ConvertToDealerTextFormat(NULL, NULL) == -1 &&
                      ConvertToSidesTextFormat(NULL, NULL) == -1);
    check("plays", AnalysePlayBin(deal, play, NULL, 0) == -1 && AnalysePlayPBN(text, play_text, NULL, 0) == -1 &&
                       AnalyseAllPlaysBin(NULL, NULL, NULL, 1) == -1 && AnalyseAllPlaysPBN(NULL, NULL, NULL, 1) == -1);
    GetDDSInfo(NULL);
    ErrorMessage(1, NULL);
    FreeMemory();
}

int main(void)
{
    static int all[5];
    pthread_t threads[THREADS];
    make_deals();
    SetMaxThreads(1);
    check("tables alone", CalcAllTables(&deals, -1, all, &tables, NULL) == 1);
    check("boards alone", SolveAllChunksBin(&boards, &cards, 1) == 1);
    for (int i = 0; i < THREADS; i++)
        pthread_create(&threads[i], NULL, call_often, i == 0 ? NULL : &threads[i]);
    for (int i = 0; i < THREADS; i++)
        pthread_join(threads[i], NULL);
    check("answers of threads", !wrong);
    check_settings();
    check_null();
    return wrong;
}
