/* The shapes, numbers, texts and types of DDS 2.9.0's header. The compiler compares them with those of HEADER, which is
   our own or DDS's: cc -fsyntax-only -DHEADER='<dds/dll.h>' layout.c */
#include <stddef.h>
#include <stdio.h>
#include <string.h>

#include HEADER

#define SIZE(type, size) _Static_assert(sizeof(struct type) == (size), "size of " #type)
#define FIELD(type, field, offset, size)                                                                               \
    _Static_assert(offsetof(struct type, field) == (offset), "place of " #type "." #field);                            \
    _Static_assert(sizeof(((struct type *)0)->field) == (size), "size of " #type "." #field)
#define NUMBER(name, number) _Static_assert(name == (number), #name)

SIZE(futureTricks, 216);
FIELD(futureTricks, nodes, 0, 4);
FIELD(futureTricks, cards, 4, 4);
FIELD(futureTricks, suit, 8, 52);
FIELD(futureTricks, rank, 60, 52);
FIELD(futureTricks, equals, 112, 52);
FIELD(futureTricks, score, 164, 52);
SIZE(deal, 96);
FIELD(deal, trump, 0, 4);
FIELD(deal, first, 4, 4);
FIELD(deal, currentTrickSuit, 8, 12);
FIELD(deal, currentTrickRank, 20, 12);
FIELD(deal, remainCards, 32, 64);
SIZE(dealPBN, 112);
FIELD(dealPBN, trump, 0, 4);
FIELD(dealPBN, first, 4, 4);
FIELD(dealPBN, currentTrickSuit, 8, 12);
FIELD(dealPBN, currentTrickRank, 20, 12);
FIELD(dealPBN, remainCards, 32, 80);
SIZE(boards, 21604);
FIELD(boards, noOfBoards, 0, 4);
FIELD(boards, deals, 4, 19200);
FIELD(boards, target, 19204, 800);
FIELD(boards, solutions, 20004, 800);
FIELD(boards, mode, 20804, 800);
SIZE(boardsPBN, 24804);
FIELD(boardsPBN, noOfBoards, 0, 4);
FIELD(boardsPBN, deals, 4, 22400);
FIELD(boardsPBN, target, 22404, 800);
FIELD(boardsPBN, solutions, 23204, 800);
FIELD(boardsPBN, mode, 24004, 800);
SIZE(solvedBoards, 43204);
FIELD(solvedBoards, noOfBoards, 0, 4);
FIELD(solvedBoards, solvedBoard, 4, 43200);
SIZE(ddTableDeal, 64);
FIELD(ddTableDeal, cards, 0, 64);
SIZE(ddTableDeals, 12804);
FIELD(ddTableDeals, noOfTables, 0, 4);
FIELD(ddTableDeals, deals, 4, 12800);
SIZE(ddTableDealPBN, 80);
FIELD(ddTableDealPBN, cards, 0, 80);
SIZE(ddTableDealsPBN, 16004);
FIELD(ddTableDealsPBN, noOfTables, 0, 4);
FIELD(ddTableDealsPBN, deals, 4, 16000);
SIZE(ddTableResults, 80);
FIELD(ddTableResults, resTable, 0, 80);
SIZE(ddTablesRes, 16004);
FIELD(ddTablesRes, noOfBoards, 0, 4);
FIELD(ddTablesRes, results, 4, 16000);
SIZE(parResults, 288);
FIELD(parResults, parScore, 0, 32);
FIELD(parResults, parContractsString, 32, 256);
SIZE(allParResults, 11520);
FIELD(allParResults, presults, 0, 11520);
SIZE(parResultsDealer, 108);
FIELD(parResultsDealer, number, 0, 4);
FIELD(parResultsDealer, score, 4, 4);
FIELD(parResultsDealer, contracts, 8, 100);
SIZE(contractType, 20);
FIELD(contractType, underTricks, 0, 4);
FIELD(contractType, overTricks, 4, 4);
FIELD(contractType, level, 8, 4);
FIELD(contractType, denom, 12, 4);
FIELD(contractType, seats, 16, 4);
SIZE(parResultsMaster, 208);
FIELD(parResultsMaster, score, 0, 4);
FIELD(parResultsMaster, number, 4, 4);
FIELD(parResultsMaster, contracts, 8, 200);
SIZE(parTextResults, 257);
FIELD(parTextResults, parText, 0, 256);
FIELD(parTextResults, equal, 256, 1);
SIZE(playTraceBin, 420);
FIELD(playTraceBin, number, 0, 4);
FIELD(playTraceBin, suit, 4, 208);
FIELD(playTraceBin, rank, 212, 208);
SIZE(playTracePBN, 112);
FIELD(playTracePBN, number, 0, 4);
FIELD(playTracePBN, cards, 4, 106);
SIZE(solvedPlay, 216);
FIELD(solvedPlay, number, 0, 4);
FIELD(solvedPlay, tricks, 4, 212);
SIZE(playTracesBin, 84004);
FIELD(playTracesBin, noOfBoards, 0, 4);
FIELD(playTracesBin, plays, 4, 84000);
SIZE(playTracesPBN, 22404);
FIELD(playTracesPBN, noOfBoards, 0, 4);
FIELD(playTracesPBN, plays, 4, 22400);
SIZE(solvedPlays, 43204);
FIELD(solvedPlays, noOfBoards, 0, 4);
FIELD(solvedPlays, solved, 4, 43200);
SIZE(DDSInfo, 1204);
FIELD(DDSInfo, major, 0, 4);
FIELD(DDSInfo, minor, 4, 4);
FIELD(DDSInfo, patch, 8, 4);
FIELD(DDSInfo, versionString, 12, 10);
FIELD(DDSInfo, system, 24, 4);
FIELD(DDSInfo, numBits, 28, 4);
FIELD(DDSInfo, compiler, 32, 4);
FIELD(DDSInfo, constructor, 36, 4);
FIELD(DDSInfo, numCores, 40, 4);
FIELD(DDSInfo, threading, 44, 4);
FIELD(DDSInfo, noOfThreads, 48, 4);
FIELD(DDSInfo, threadSizes, 52, 128);
FIELD(DDSInfo, systemString, 180, 1024);

NUMBER(DDS_VERSION, 20900);
NUMBER(DDS_HANDS, 4);
NUMBER(DDS_SUITS, 4);
NUMBER(DDS_STRAINS, 5);
NUMBER(MAXNOOFBOARDS, 200);
NUMBER(MAXNOOFTABLES, 40);
NUMBER(RETURN_NO_FAULT, 1);
NUMBER(RETURN_UNKNOWN_FAULT, -1);
NUMBER(RETURN_ZERO_CARDS, -2);
NUMBER(RETURN_TARGET_TOO_HIGH, -3);
NUMBER(RETURN_DUPLICATE_CARDS, -4);
NUMBER(RETURN_TARGET_WRONG_LO, -5);
NUMBER(RETURN_TARGET_WRONG_HI, -7);
NUMBER(RETURN_SOLNS_WRONG_LO, -8);
NUMBER(RETURN_SOLNS_WRONG_HI, -9);
NUMBER(RETURN_TOO_MANY_CARDS, -10);
NUMBER(RETURN_SUIT_OR_RANK, -12);
NUMBER(RETURN_PLAYED_CARD, -13);
NUMBER(RETURN_CARD_COUNT, -14);
NUMBER(RETURN_THREAD_INDEX, -15);
NUMBER(RETURN_MODE_WRONG_LO, -16);
NUMBER(RETURN_MODE_WRONG_HI, -17);
NUMBER(RETURN_TRUMP_WRONG, -18);
NUMBER(RETURN_FIRST_WRONG, -19);
NUMBER(RETURN_PLAY_FAULT, -98);
NUMBER(RETURN_PBN_FAULT, -99);
NUMBER(RETURN_TOO_MANY_BOARDS, -101);
NUMBER(RETURN_THREAD_CREATE, -102);
NUMBER(RETURN_THREAD_WAIT, -103);
NUMBER(RETURN_THREAD_MISSING, -104);
NUMBER(RETURN_NO_SUIT, -201);
NUMBER(RETURN_TOO_MANY_TABLES, -202);
NUMBER(RETURN_CHUNK_SIZE, -301);

/* Each function with DDS's type. */
struct functions {
    void (*SetMaxThreads)(int);
    int (*SetThreading)(int);
    void (*SetResources)(int, int);
    void (*FreeMemory)(void);
    int (*SolveBoard)(struct deal, int, int, int, struct futureTricks *, int);
    int (*SolveBoardPBN)(struct dealPBN, int, int, int, struct futureTricks *, int);
    int (*CalcDDtable)(struct ddTableDeal, struct ddTableResults *);
    int (*CalcDDtablePBN)(struct ddTableDealPBN, struct ddTableResults *);
    int (*CalcAllTables)(struct ddTableDeals *, int, int *, struct ddTablesRes *, struct allParResults *);
    int (*CalcAllTablesPBN)(struct ddTableDealsPBN *, int, int *, struct ddTablesRes *, struct allParResults *);
    int (*SolveAllBoards)(struct boardsPBN *, struct solvedBoards *);
    int (*SolveAllChunks)(struct boardsPBN *, struct solvedBoards *, int);
    int (*SolveAllChunksBin)(struct boards *, struct solvedBoards *, int);
    int (*SolveAllChunksPBN)(struct boardsPBN *, struct solvedBoards *, int);
    int (*Par)(struct ddTableResults *, struct parResults *, int);
    int (*CalcPar)(struct ddTableDeal, int, struct ddTableResults *, struct parResults *);
    int (*CalcParPBN)(struct ddTableDealPBN, struct ddTableResults *, int, struct parResults *);
    int (*SidesPar)(struct ddTableResults *, struct parResultsDealer *, int);
    int (*DealerPar)(struct ddTableResults *, struct parResultsDealer *, int, int);
    int (*DealerParBin)(struct ddTableResults *, struct parResultsMaster *, int, int);
    int (*SidesParBin)(struct ddTableResults *, struct parResultsMaster *, int);
    int (*ConvertToDealerTextFormat)(struct parResultsMaster *, char *);
    int (*ConvertToSidesTextFormat)(struct parResultsMaster *, struct parTextResults *);
    int (*AnalysePlayBin)(struct deal, struct playTraceBin, struct solvedPlay *, int);
    int (*AnalysePlayPBN)(struct dealPBN, struct playTracePBN, struct solvedPlay *, int);
    int (*AnalyseAllPlaysBin)(struct boards *, struct playTracesBin *, struct solvedPlays *, int);
    int (*AnalyseAllPlaysPBN)(struct boardsPBN *, struct playTracesPBN *, struct solvedPlays *, int);
    void (*GetDDSInfo)(struct DDSInfo *);
    void (*ErrorMessage)(int, char *);
};

const struct functions FUNCTIONS = {
    SetMaxThreads, SetThreading, SetResources, FreeMemory, SolveBoard, SolveBoardPBN, CalcDDtable, CalcDDtablePBN,
    CalcAllTables, CalcAllTablesPBN, SolveAllBoards, SolveAllChunks, SolveAllChunksBin, SolveAllChunksPBN, Par,
    CalcPar, CalcParPBN, SidesPar, DealerPar, DealerParBin, SidesParBin, ConvertToDealerTextFormat,
    ConvertToSidesTextFormat, AnalysePlayBin, AnalysePlayPBN, AnalyseAllPlaysBin, AnalyseAllPlaysPBN, GetDDSInfo,
    ErrorMessage,
};

const char *const TEXTS[][2] = {
    {TEXT_NO_FAULT, "Success"},
    {TEXT_UNKNOWN_FAULT, "General error"},
    {TEXT_ZERO_CARDS, "Zero cards"},
    {TEXT_TARGET_TOO_HIGH, "Target exceeds number of tricks"},
    {TEXT_DUPLICATE_CARDS, "Cards duplicated"},
    {TEXT_TARGET_WRONG_LO, "Target is less than -1"},
    {TEXT_TARGET_WRONG_HI, "Target is higher than 13"},
    {TEXT_SOLNS_WRONG_LO, "Solutions parameter is less than 1"},
    {TEXT_SOLNS_WRONG_HI, "Solutions parameter is higher than 3"},
    {TEXT_TOO_MANY_CARDS, "Too many cards"},
    {TEXT_SUIT_OR_RANK, "currentTrickSuit or currentTrickRank has wrong data"},
    {TEXT_PLAYED_CARD, "Played card also remains in a hand"},
    {TEXT_CARD_COUNT, "Wrong number of remaining cards in a hand"},
    {TEXT_THREAD_INDEX, "Thread index is not 0 .. maximum"},
    {TEXT_MODE_WRONG_LO, "Mode parameter is less than 0"},
    {TEXT_MODE_WRONG_HI, "Mode parameter is higher than 2"},
    {TEXT_TRUMP_WRONG, "Trump is not in 0 .. 4"},
    {TEXT_FIRST_WRONG, "First is not in 0 .. 2"},
    {TEXT_PLAY_FAULT, "AnalysePlay input error"},
    {TEXT_PBN_FAULT, "PBN string error"},
    {TEXT_TOO_MANY_BOARDS, "Too many boards requested"},
    {TEXT_THREAD_CREATE, "Could not create threads"},
    {TEXT_THREAD_WAIT, "Something failed waiting for thread to end"},
    {TEXT_THREAD_MISSING, "Multi-threading system not present"},
    {TEXT_NO_SUIT, "Denomination filter vector has no entries"},
    {TEXT_TOO_MANY_TABLES, "Too many DD tables requested"},
    {TEXT_CHUNK_SIZE, "Chunk size is less than 1"},
};

int main(void)
{
    for (size_t i = 0; i < sizeof TEXTS / sizeof TEXTS[0]; i++) {
        if (strcmp(TEXTS[i][0], TEXTS[i][1]) != 0)
            return printf("layout: \"%s\" is not \"%s\"\n", TEXTS[i][0], TEXTS[i][1]), 1;
    }
    return 0;
}
