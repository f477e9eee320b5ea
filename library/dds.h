/* DDS's functions as ddfarm answers them: the names, shapes and codes of DDS 2.9.0 (Haglund and Hein).

   A program that was written for DDS compiles with this header and links with -ldds. A program that was built for DDS
   runs unchanged if LD_LIBRARY_PATH names the folder of our libdds.so.0.

   Proved numbers: the tricks in a table, the score of a card, and the score and contracts of a par come from functions
   whose contracts say that they are right (crates/dds_calls). The C around them is tested, not proved: threads, texts,
   and the order of par contracts.

   Every function may be called from any thread at any time, also before SetMaxThreads. The calls share nothing but the
   number of threads. If a pointer is null, a function answers RETURN_UNKNOWN_FAULT or does nothing. After a fault the
   results are zeros. No function prints, and none writes a file.

   Numbers: suits are 0 spades, 1 hearts, 2 diamonds, 3 clubs, and a denomination may be 4, no-trump. Seats are 0 North,
   1 East, 2 South, 3 West. Ranks are 2 to 14, the ace. In a word of cards of one suit, bit r is the card of rank r.
   Vulnerability is 0 none, 1 both, 2 North and South, 3 East and West. */
#ifndef DDFARM_DDS_H
#define DDFARM_DDS_H

#include <stdbool.h>

#define STDCALL
#if defined(__GNUC__)
#define DLLEXPORT __attribute__((visibility("default")))
#else
#define DLLEXPORT
#endif
#ifdef __cplusplus
#define EXTERN_C extern "C"
#else
#define EXTERN_C extern
#endif

#define DDS_VERSION 20900
#define DDS_HANDS 4
#define DDS_SUITS 4
#define DDS_STRAINS 5
#define MAXNOOFBOARDS 200
#define MAXNOOFTABLES 40

/* The codes that functions answer, and the texts that ErrorMessage has for them. */
#define RETURN_NO_FAULT 1
#define TEXT_NO_FAULT "Success"
#define RETURN_UNKNOWN_FAULT -1 /* a null pointer, numbers out of range, no answer, or not there yet */
#define TEXT_UNKNOWN_FAULT "General error"
#define RETURN_ZERO_CARDS -2
#define TEXT_ZERO_CARDS "Zero cards"
#define RETURN_TARGET_TOO_HIGH -3
#define TEXT_TARGET_TOO_HIGH "Target exceeds number of tricks"
#define RETURN_DUPLICATE_CARDS -4
#define TEXT_DUPLICATE_CARDS "Cards duplicated"
#define RETURN_TARGET_WRONG_LO -5
#define TEXT_TARGET_WRONG_LO "Target is less than -1"
#define RETURN_TARGET_WRONG_HI -7
#define TEXT_TARGET_WRONG_HI "Target is higher than 13"
#define RETURN_SOLNS_WRONG_LO -8
#define TEXT_SOLNS_WRONG_LO "Solutions parameter is less than 1"
#define RETURN_SOLNS_WRONG_HI -9
#define TEXT_SOLNS_WRONG_HI "Solutions parameter is higher than 3"
#define RETURN_TOO_MANY_CARDS -10
#define TEXT_TOO_MANY_CARDS "Too many cards"
#define RETURN_SUIT_OR_RANK -12 /* also a word of cards with a bit that is no card */
#define TEXT_SUIT_OR_RANK "currentTrickSuit or currentTrickRank has wrong data"
#define RETURN_PLAYED_CARD -13
#define TEXT_PLAYED_CARD "Played card also remains in a hand"
#define RETURN_CARD_COUNT -14
#define TEXT_CARD_COUNT "Wrong number of remaining cards in a hand"
#define RETURN_THREAD_INDEX -15
#define TEXT_THREAD_INDEX "Thread index is not 0 .. maximum"
#define RETURN_MODE_WRONG_LO -16
#define TEXT_MODE_WRONG_LO "Mode parameter is less than 0"
#define RETURN_MODE_WRONG_HI -17
#define TEXT_MODE_WRONG_HI "Mode parameter is higher than 2"
#define RETURN_TRUMP_WRONG -18
#define TEXT_TRUMP_WRONG "Trump is not in 0 .. 4"
#define RETURN_FIRST_WRONG -19
#define TEXT_FIRST_WRONG "First is not in 0 .. 2"
#define RETURN_PLAY_FAULT -98
#define TEXT_PLAY_FAULT "AnalysePlay input error"
#define RETURN_PBN_FAULT -99
#define TEXT_PBN_FAULT "PBN string error"
#define RETURN_TOO_MANY_BOARDS -101
#define TEXT_TOO_MANY_BOARDS "Too many boards requested"
#define RETURN_THREAD_CREATE -102 /* never answered: the calling thread does the work */
#define TEXT_THREAD_CREATE "Could not create threads"
#define RETURN_THREAD_WAIT -103 /* never answered */
#define TEXT_THREAD_WAIT "Something failed waiting for thread to end"
#define RETURN_THREAD_MISSING -104
#define TEXT_THREAD_MISSING "Multi-threading system not present"
#define RETURN_NO_SUIT -201
#define TEXT_NO_SUIT "Denomination filter vector has no entries"
#define RETURN_TOO_MANY_TABLES -202
#define TEXT_TOO_MANY_TABLES "Too many DD tables requested"
#define RETURN_CHUNK_SIZE -301
#define TEXT_CHUNK_SIZE "Chunk size is less than 1"

/* ---- Cards of a position */

/* What SolveBoard answers: `cards` groups of equal cards. A group is named by its highest card, and the bits of
   `equals` are the others. `nodes` is 0. */
struct futureTricks {
    int nodes;
    int cards;
    int suit[13];
    int rank[13];
    int equals[13];
    int score[13];
};

/* A position: the trumps, who leads or led to this trick, up to three cards of this trick (rank 0 is no card), and the
   cards that each seat still has in each suit, without those of this trick. */
struct deal {
    int trump;
    int first;
    int currentTrickSuit[3];
    int currentTrickRank[3];
    unsigned int remainCards[DDS_HANDS][DDS_SUITS];
};

/* The same, with the hands as a text: "N:Q64.QJ7.K9.AK954 98.43... .." */
struct dealPBN {
    int trump;
    int first;
    int currentTrickSuit[3];
    int currentTrickRank[3];
    char remainCards[80];
};

struct boards {
    int noOfBoards;
    struct deal deals[MAXNOOFBOARDS];
    int target[MAXNOOFBOARDS];
    int solutions[MAXNOOFBOARDS];
    int mode[MAXNOOFBOARDS];
};

struct boardsPBN {
    int noOfBoards;
    struct dealPBN deals[MAXNOOFBOARDS];
    int target[MAXNOOFBOARDS];
    int solutions[MAXNOOFBOARDS];
    int mode[MAXNOOFBOARDS];
};

struct solvedBoards {
    int noOfBoards;
    struct futureTricks solvedBoard[MAXNOOFBOARDS];
};

/* ---- Tables */

struct ddTableDeal {
    unsigned int cards[DDS_HANDS][DDS_SUITS];
};

struct ddTableDeals {
    int noOfTables;
    struct ddTableDeal deals[MAXNOOFTABLES * DDS_STRAINS];
};

struct ddTableDealPBN {
    char cards[80];
};

struct ddTableDealsPBN {
    int noOfTables;
    struct ddTableDealPBN deals[MAXNOOFTABLES * DDS_STRAINS];
};

/* The tricks that each seat takes as declarer in each denomination. */
struct ddTableResults {
    int resTable[DDS_STRAINS][DDS_HANDS];
};

struct ddTablesRes {
    int noOfBoards;
    struct ddTableResults results[MAXNOOFTABLES * DDS_STRAINS];
};

/* ---- Pars */

/* Index 0 is as North and South see it, if their side calls first; index 1 the same of East and West. */
struct parResults {
    char parScore[2][16];
    char parContractsString[2][128];
};

struct allParResults {
    struct parResults presults[MAXNOOFTABLES];
};

struct parResultsDealer {
    int number;
    int score;
    char contracts[10][10];
};

struct contractType {
    int underTricks; /* 0 if it is made */
    int overTricks;
    int level;
    int denom; /* 0 no-trump, 1 spades, 2 hearts, 3 diamonds, 4 clubs */
    int seats; /* 0 to 3 one hand, 4 North and South, 5 East and West */
};

struct parResultsMaster {
    int score;
    int number;
    struct contractType contracts[10];
};

struct parTextResults {
    char parText[2][128];
    bool equal; /* whether both sides have the same par and contracts, whoever calls first */
};

/* ---- Plays */

struct playTraceBin {
    int number;
    int suit[52];
    int rank[52];
};

struct playTracePBN {
    int number;
    char cards[106];
};

struct solvedPlay {
    int number;
    int tricks[53];
};

struct playTracesBin {
    int noOfBoards;
    struct playTraceBin plays[MAXNOOFBOARDS];
};

struct playTracesPBN {
    int noOfBoards;
    struct playTracePBN plays[MAXNOOFBOARDS];
};

struct solvedPlays {
    int noOfBoards;
    struct solvedPlay solved[MAXNOOFBOARDS];
};

struct DDSInfo {
    int major, minor, patch; /* of DDS: 2, 9, 0 */
    char versionString[10];
    int system;      /* 3, Linux */
    int numBits;     /* 64 */
    int compiler;    /* 3, GNU, or 4, clang */
    int constructor; /* 0: no set-up is needed */
    int numCores;
    int threading; /* 5: threads of the system */
    int noOfThreads;
    char threadSizes[128]; /* as DDS has it, where threads keep memory: none does here */
    char systemString[1024];
};

/* ---- Settings. None has to be called. */

/* Sets how many threads a call may use, the calling one among them: at most as many as there are processors. If the
   number is 0 or less, or never set, it is that of the processors that the process may run on. */
EXTERN_C DLLEXPORT void STDCALL SetMaxThreads(int userThreads);

/* Answers 1 for the codes that DDS takes on Linux: 0, 2, 4 and 5. It changes nothing: ddfarm always uses threads of the
   system. SetMaxThreads(1) keeps a call in the thread that makes it. */
EXTERN_C DLLEXPORT int STDCALL SetThreading(int code);

/* Does what SetMaxThreads does. The memory is not limited: a search remembers up to 123 MB. */
EXTERN_C DLLEXPORT void STDCALL SetResources(int maxMemoryMB, int maxThreads);

/* Does nothing: no memory is kept between calls. */
EXTERN_C DLLEXPORT void STDCALL FreeMemory(void);

/* Says which version of DDS this stands for, and what it runs on. */
EXTERN_C DLLEXPORT void STDCALL GetDDSInfo(struct DDSInfo *info);

/* Writes the text of a code. */
EXTERN_C DLLEXPORT void STDCALL ErrorMessage(int code, char line[80]);

/* ---- Cards of a position. Scores are proved: tricks of the side to play from this trick on. */

/* Answers cards that may be played, with their scores. Better cards come first. The order of cards with one score is
   ours.
   - `target` -1 asks for the best score, 0 for cards without scores, and 1 to 13 for cards that take this many tricks.
     If no card does, `cards` is 0, and score[0] is -1, or 0 if the target is 1.
   - `solutions` 1 asks for one card, 2 for all that reach the target or the best score, 3 for all cards with scores.
   - `mode` 0 gives the score -2 if all cards that may be played are one group. Modes 1 and 2 give its score.
   With at most four cards left there is one card, whatever is asked.
   `threadIndex` has to be at least 0 and below the number of threads, as in DDS. It has no other meaning: calls with
   the same index may overlap. */
EXTERN_C DLLEXPORT int STDCALL SolveBoard(struct deal dl, int target, int solutions, int mode,
                                          struct futureTricks *futp, int threadIndex);
EXTERN_C DLLEXPORT int STDCALL SolveBoardPBN(struct dealPBN dlpbn, int target, int solutions, int mode,
                                             struct futureTricks *futp, int thrId);

/* Solve up to 200 boards in threads, each as SolveBoard would. The code is that of the first board that fails. A board
   that fails has zeros, and the others have their answers. A text that can't be read ends the call, and no board is
   solved. A chunk size below 1 is refused. Other sizes change nothing. */
EXTERN_C DLLEXPORT int STDCALL SolveAllBoards(struct boardsPBN *bop, struct solvedBoards *solvedp);
EXTERN_C DLLEXPORT int STDCALL SolveAllChunks(struct boardsPBN *bop, struct solvedBoards *solvedp, int chunkSize);
EXTERN_C DLLEXPORT int STDCALL SolveAllChunksBin(struct boards *bop, struct solvedBoards *solvedp, int chunkSize);
EXTERN_C DLLEXPORT int STDCALL SolveAllChunksPBN(struct boardsPBN *bop, struct solvedBoards *solvedp, int chunkSize);

/* ---- Tables. Numbers are proved. */

/* Answer the twenty numbers of a deal. If each hand has n cards, the function adds 13 - n to declarer's tricks, as DDS
   does. */
EXTERN_C DLLEXPORT int STDCALL CalcDDtable(struct ddTableDeal tableDeal, struct ddTableResults *tablep);
EXTERN_C DLLEXPORT int STDCALL CalcDDtablePBN(struct ddTableDealPBN tableDealPBN, struct ddTableResults *tablep);

/* Answer the tables of several deals in threads. If the `trumpFilter` of a denomination is not 0, it is left out, and
   its numbers stay as they were. A call takes at most 200 pairs of a deal and a denomination. `noOfBoards` becomes
   four times the number of pairs. If a deal fails, it is 0, the code is the first one, the failed numbers are zeros,
   and the other numbers are there. A text that can't be read ends the call, and no deal is solved.
   If `mode` is 0 to 3 and no denomination is left out, `presp` gets what Par answers for this vulnerability. Otherwise
   it is not touched. */
EXTERN_C DLLEXPORT int STDCALL CalcAllTables(struct ddTableDeals *dealsp, int mode, int trumpFilter[DDS_STRAINS],
                                             struct ddTablesRes *resp, struct allParResults *presp);
EXTERN_C DLLEXPORT int STDCALL CalcAllTablesPBN(struct ddTableDealsPBN *dealsp, int mode,
                                                int trumpFilter[DDS_STRAINS], struct ddTablesRes *resp,
                                                struct allParResults *presp);

/* ---- Pars. Scores and contracts are proved. Their texts and order are DDS's. If a number of the table, the dealer or
   the vulnerability is out of range, a function answers RETURN_UNKNOWN_FAULT. */

/* Writes the par of either side, if it calls first, and the contracts, with all levels that reach par:
   "NS 110", "EW -110" and "NS:NS 12S,NS 123D". */
EXTERN_C DLLEXPORT int STDCALL Par(struct ddTableResults *tablep, struct parResults *presp, int vulnerable);

/* CalcDDtable, and Par of its numbers. */
EXTERN_C DLLEXPORT int STDCALL CalcPar(struct ddTableDeal tableDeal, int vulnerable, struct ddTableResults *tablep,
                                       struct parResults *presp);
EXTERN_C DLLEXPORT int STDCALL CalcParPBN(struct ddTableDealPBN tableDealPBN, struct ddTableResults *tablep,
                                          int vulnerable, struct parResults *presp);

/* Answer par if this dealer's side calls first. The score is as North and South see it. Texts are as "4S-NS+1" or
   "4S*-EW-1", or "pass" if nobody bids. */
EXTERN_C DLLEXPORT int STDCALL DealerPar(struct ddTableResults *tablep, struct parResultsDealer *presp, int dealer,
                                         int vulnerable);
EXTERN_C DLLEXPORT int STDCALL DealerParBin(struct ddTableResults *tablep, struct parResultsMaster *presp, int dealer,
                                            int vulnerable);

/* Answer par of either side if it calls first. The score is as this side sees it. If nobody bids, there is one contract
   of zeros, or the text "0N-N". */
EXTERN_C DLLEXPORT int STDCALL SidesPar(struct ddTableResults *tablep, struct parResultsDealer sidesRes[2],
                                        int vulnerable);
EXTERN_C DLLEXPORT int STDCALL SidesParBin(struct ddTableResults *tablep, struct parResultsMaster sidesRes[2],
                                           int vulnerable);

/* Write the answer of DealerParBin as "Par 140: NS 2S+1", and the two of SidesParBin as such texts. A text with its end
   takes at most 128 bytes. Numbers that no par has are refused. */
EXTERN_C DLLEXPORT int STDCALL ConvertToDealerTextFormat(struct parResultsMaster *pres, char *resp);
EXTERN_C DLLEXPORT int STDCALL ConvertToSidesTextFormat(struct parResultsMaster *pres, struct parTextResults *resp);

/* ---- Plays: declarer's tricks before the first card, and after each card but those of the last trick. The leader of
   the current trick is a defender. A play's number counts the cards of the current trick too, which aren't listed. */

EXTERN_C DLLEXPORT int STDCALL AnalysePlayBin(struct deal dl, struct playTraceBin play, struct solvedPlay *solved,
                                              int thrId);
EXTERN_C DLLEXPORT int STDCALL AnalysePlayPBN(struct dealPBN dlPBN, struct playTracePBN playPBN,
                                              struct solvedPlay *solvedp, int thrId);
EXTERN_C DLLEXPORT int STDCALL AnalyseAllPlaysBin(struct boards *bop, struct playTracesBin *plp,
                                                  struct solvedPlays *solvedp, int chunkSize);
EXTERN_C DLLEXPORT int STDCALL AnalyseAllPlaysPBN(struct boardsPBN *bopPBN, struct playTracesPBN *plpPBN,
                                                  struct solvedPlays *solvedp, int chunkSize);

#endif
