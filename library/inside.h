/* What the C files of the library share. Programs see none of it: only the functions of dds.h are exported. */
#ifndef DDFARM_INSIDE_H
#define DDFARM_INSIDE_H

#include <stddef.h>
#include <stdint.h>

#include "dds.h"

/* The proved functions (crates/dds_calls). No pointer may be null. They never wait, keep nothing, and may be called by
   several threads at a time. Each answers a code of DDS, and zeros with a fault. */

struct ddfarm_row {
    int tricks[DDS_HANDS];
};

struct ddfarm_text {
    char text[80];
};

/* The four numbers of one denomination. */
int ddfarm_table_row(const struct ddTableDeal *deal, int strain, struct ddfarm_row *row);

/* Reads the four hands of a PBN Deal value, which may be of any size. The text ends at the first NUL, or after 80
   bytes. */
int ddfarm_read_hands(const struct ddfarm_text *text, struct ddTableDeal *hands);

/* All that SolveBoard answers, except for the thread index. */
int ddfarm_solve_board(const struct deal *dl, int target, int solutions, int mode, struct futureTricks *futp);

/* All that AnalysePlayBin answers, except for the thread index. */
int ddfarm_analyse_play(const struct deal *dl, const struct playTraceBin *play, struct solvedPlay *solved);

/* Par if this dealer's side calls first, as North and South see it. For each side and denomination that reaches par
   there is the lowest contract. If par is 0, there is one contract of zeros. */
int ddfarm_par(const struct ddTableResults *table, int dealer, int vulnerable, struct parResultsMaster *par);

/* Writes the evidence of one denomination, if the buffer has room for all of it, and answers its length. A code below 0
   says that there is none. The buffer may not be null, even if its size is 0. */
int64_t ddfarm_evidence_section(const struct ddTableDeal *deal, int strain, char *buffer, size_t size);

/* settings.c */

/* How many threads a call may use, and how many thread indices there are. */
int thread_count(void);

/* threads.c */

/* The most tasks of one call: 200 boards, or 40 tables with five denominations. */
#define MOST_TASKS 200

/* Calls `run` once for each task from 0, in threads, and returns when all are done. */
void run_tasks(int tasks, void (*run)(void *work, int task), void *work);

/* The first code of a fault, or RETURN_NO_FAULT. */
int first_fault(const int *codes, int count);

/* boards.c */

/* Reads a position of which the cards are text, and answers a code. */
int read_deal(const struct dealPBN *from, struct deal *to);

/* par_texts.c */

/* Writes a contract as DealerPar does: "4S-NS+1" or "4S*-EW-1". */
void write_dealer_contract(const struct contractType *contract, char text[10]);

/* Writes the contracts as Par does, after the letters of a side: "NS:NS 23S,NS 34H" or "EW:EW 5Cx". */
void write_par_contracts(const struct parResultsMaster *par, const char *side, char text[128]);

#endif
