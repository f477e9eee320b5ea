/* Cards of positions, one position at a time or many in threads. */
#include <string.h>

#include "inside.h"

int SolveBoard(struct deal dl, int target, int solutions, int mode, struct futureTricks *futp, int threadIndex)
{
    if (!futp)
        return RETURN_UNKNOWN_FAULT;
    memset(futp, 0, sizeof *futp);
    if (threadIndex < 0 || threadIndex >= thread_count())
        return RETURN_THREAD_INDEX;
    return ddfarm_solve_board(&dl, target, solutions, mode, futp);
}

int read_deal(const struct dealPBN *from, struct deal *to)
{
    struct ddfarm_text text;
    struct ddTableDeal hands;
    to->trump = from->trump;
    to->first = from->first;
    memcpy(to->currentTrickSuit, from->currentTrickSuit, sizeof to->currentTrickSuit);
    memcpy(to->currentTrickRank, from->currentTrickRank, sizeof to->currentTrickRank);
    memcpy(text.text, from->remainCards, sizeof text.text);
    int code = ddfarm_read_hands(&text, &hands);
    memcpy(to->remainCards, hands.cards, sizeof to->remainCards);
    return code;
}

int SolveBoardPBN(struct dealPBN dlpbn, int target, int solutions, int mode, struct futureTricks *futp, int thrId)
{
    struct deal dl;
    if (!futp)
        return RETURN_UNKNOWN_FAULT;
    memset(futp, 0, sizeof *futp);
    int code = read_deal(&dlpbn, &dl);
    return code == RETURN_NO_FAULT ? SolveBoard(dl, target, solutions, mode, futp, thrId) : code;
}

/* A call's work. A task is one board. */
struct board_work {
    const struct boards *boards;
    struct solvedBoards *solved;
    int codes[MOST_TASKS];
};

static void solve_board(void *given, int task)
{
    struct board_work *work = given;
    const struct boards *boards = work->boards;
    struct futureTricks future = {0};
    work->codes[task] = ddfarm_solve_board(&boards->deals[task], boards->target[task], boards->solutions[task],
                                           boards->mode[task], &future);
    work->solved->solvedBoard[task] = future;
}

/* No board has a card, whatever was there before. */
static void clear_boards(struct solvedBoards *solved)
{
    solved->noOfBoards = 0;
    for (int board = 0; board < MAXNOOFBOARDS; board++)
        solved->solvedBoard[board].cards = 0;
}

static int solve_boards(const struct boards *boards, struct solvedBoards *solved)
{
    struct board_work work = {.boards = boards, .solved = solved};
    int count = boards->noOfBoards < 0 ? 0 : boards->noOfBoards;
    run_tasks(count, solve_board, &work);
    solved->noOfBoards = count;
    return first_fault(work.codes, count);
}

int SolveAllChunksBin(struct boards *bop, struct solvedBoards *solvedp, int chunkSize)
{
    if (!bop || !solvedp)
        return RETURN_UNKNOWN_FAULT;
    clear_boards(solvedp);
    if (chunkSize < 1)
        return RETURN_CHUNK_SIZE;
    if (bop->noOfBoards > MAXNOOFBOARDS)
        return RETURN_TOO_MANY_BOARDS;
    return solve_boards(bop, solvedp);
}

int SolveAllBoards(struct boardsPBN *bop, struct solvedBoards *solvedp)
{
    struct boards boards;
    if (!bop || !solvedp)
        return RETURN_UNKNOWN_FAULT;
    clear_boards(solvedp);
    if (bop->noOfBoards > MAXNOOFBOARDS)
        return RETURN_TOO_MANY_BOARDS;
    boards.noOfBoards = bop->noOfBoards;
    for (int board = 0; board < boards.noOfBoards; board++) {
        boards.target[board] = bop->target[board];
        boards.solutions[board] = bop->solutions[board];
        boards.mode[board] = bop->mode[board];
        int code = read_deal(&bop->deals[board], &boards.deals[board]);
        if (code != RETURN_NO_FAULT)
            return code;
    }
    return solve_boards(&boards, solvedp);
}

int SolveAllChunksPBN(struct boardsPBN *bop, struct solvedBoards *solvedp, int chunkSize)
{
    if (!bop || !solvedp)
        return RETURN_UNKNOWN_FAULT;
    if (chunkSize >= 1)
        return SolveAllBoards(bop, solvedp);
    clear_boards(solvedp);
    return RETURN_CHUNK_SIZE;
}

int SolveAllChunks(struct boardsPBN *bop, struct solvedBoards *solvedp, int chunkSize)
{
    return SolveAllChunksPBN(bop, solvedp, chunkSize);
}
