/* Declarer's tricks after each card of a play, one play at a time or many in threads. */
#include <string.h>

#include "inside.h"

int AnalysePlayBin(struct deal dl, struct playTraceBin play, struct solvedPlay *solved, int thrId)
{
    if (!solved)
        return RETURN_UNKNOWN_FAULT;
    memset(solved, 0, sizeof *solved);
    if (thrId < 0 || thrId >= thread_count())
        return RETURN_THREAD_INDEX;
    return ddfarm_analyse_play(&dl, &play, solved);
}

/* The place of a letter in a text of capitals, or -1. Small letters are taken too. */
static int place_of(char letter, const char *capitals)
{
    const char *found = NULL;
    if (letter >= 'a' && letter <= 'z')
        letter = (char)(letter - 'a' + 'A');
    if (letter != '\0')
        found = strchr(capitals, letter);
    return found ? (int)(found - capitals) : -1;
}

static int read_play(const struct playTracePBN *from, struct playTraceBin *to)
{
    memset(to, 0, sizeof *to);
    if (from->number < 0 || from->number > 52)
        return RETURN_PLAY_FAULT;
    to->number = from->number;
    for (int card = 0; card < from->number; card++) {
        to->suit[card] = place_of(from->cards[2 * card], "SHDC");
        to->rank[card] = place_of(from->cards[2 * card + 1], "..23456789TJQKA");
        if (to->suit[card] < 0 || to->rank[card] < 2)
            return RETURN_PLAY_FAULT;
    }
    return RETURN_NO_FAULT;
}

int AnalysePlayPBN(struct dealPBN dlPBN, struct playTracePBN playPBN, struct solvedPlay *solvedp, int thrId)
{
    struct deal dl;
    struct playTraceBin play;
    if (!solvedp)
        return RETURN_UNKNOWN_FAULT;
    memset(solvedp, 0, sizeof *solvedp);
    int code = read_deal(&dlPBN, &dl);
    if (code == RETURN_NO_FAULT)
        code = read_play(&playPBN, &play);
    return code == RETURN_NO_FAULT ? AnalysePlayBin(dl, play, solvedp, thrId) : code;
}

/* A call's work. A task is one play. */
struct play_work {
    const struct boards *boards;
    const struct playTracesBin *plays;
    struct solvedPlays *solved;
    int codes[MOST_TASKS];
};

static void analyse_play(void *given, int task)
{
    struct play_work *work = given;
    work->codes[task] = ddfarm_analyse_play(&work->boards->deals[task], &work->plays->plays[task],
                                            &work->solved->solved[task]);
}

int AnalyseAllPlaysBin(struct boards *bop, struct playTracesBin *plp, struct solvedPlays *solvedp, int chunkSize)
{
    struct play_work work = {.boards = bop, .plays = plp, .solved = solvedp};
    (void)chunkSize;
    if (solvedp)
        memset(solvedp, 0, sizeof *solvedp);
    if (!bop || !plp || !solvedp)
        return RETURN_UNKNOWN_FAULT;
    if (bop->noOfBoards > MAXNOOFBOARDS)
        return RETURN_TOO_MANY_BOARDS;
    if (bop->noOfBoards != plp->noOfBoards)
        return RETURN_UNKNOWN_FAULT;
    int count = bop->noOfBoards < 0 ? 0 : bop->noOfBoards;
    run_tasks(count, analyse_play, &work);
    solvedp->noOfBoards = count;
    return first_fault(work.codes, count);
}

int AnalyseAllPlaysPBN(struct boardsPBN *bopPBN, struct playTracesPBN *plpPBN, struct solvedPlays *solvedp,
                       int chunkSize)
{
    struct boards boards;
    struct playTracesBin plays;
    int code = RETURN_NO_FAULT;
    if (solvedp)
        memset(solvedp, 0, sizeof *solvedp);
    if (!bopPBN || !plpPBN || !solvedp)
        return RETURN_UNKNOWN_FAULT;
    boards.noOfBoards = bopPBN->noOfBoards;
    plays.noOfBoards = plpPBN->noOfBoards;
    if (boards.noOfBoards > MAXNOOFBOARDS)
        return RETURN_TOO_MANY_BOARDS;
    for (int board = 0; code == RETURN_NO_FAULT && board < boards.noOfBoards; board++)
        code = read_deal(&bopPBN->deals[board], &boards.deals[board]);
    for (int play = 0; code == RETURN_NO_FAULT && play < plays.noOfBoards && play < MAXNOOFBOARDS; play++)
        code = read_play(&plpPBN->plays[play], &plays.plays[play]);
    return code == RETURN_NO_FAULT ? AnalyseAllPlaysBin(&boards, &plays, solvedp, chunkSize) : code;
}
