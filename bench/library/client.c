/* Prints what DDS's functions answer to random deals and positions, so that two libraries can be compared line by line.
   It is compiled with DDS's own header. Usage: client SEED DEALS POSITIONS */
#include <stdio.h>
#include <stdlib.h>

#include "deals.h"

/* ---- Cards of positions */

/* The groups in the order of score, suit and rank. Which of several best cards comes alone is not promised. */
static void print_cards(const char *name, int code, const struct futureTricks *answer, int solutions)
{
    int rows[13], count = code == 1 ? answer->cards : 0;
    printf("%s %d cards %d", name, code, count);
    if (code == 1 && count == 0)
        printf(" score %d", answer->score[0]);
    for (int i = 0; i < count; i++)
        rows[i] = (16 - answer->score[i]) << 20 | answer->suit[i] << 16 | i << 8 | (15 - answer->rank[i]);
    for (int i = 1; i < count; i++)
        for (int j = i; j > 0 && (rows[j] & ~0xff00) < (rows[j - 1] & ~0xff00); j--) {
            int row = rows[j];
            rows[j] = rows[j - 1];
            rows[j - 1] = row;
        }
    for (int i = 0; i < count; i++) {
        int at = rows[i] >> 8 & 0xff;
        if (solutions == 1 && answer->score[at] != -2)
            printf(" %d", answer->score[at]);
        else
            printf(" %d:%d/%d+%x", answer->score[at], answer->suit[at], answer->rank[at], (unsigned)answer->equals[at]);
    }
    puts("");
}

/* Whether the one card is among those that were asked for with all that reach the target, with the same lower cards. */
static int is_among(const struct futureTricks *one, const struct futureTricks *all)
{
    for (int i = 0; i < all->cards; i++)
        if (all->suit[i] == one->suit[0] && all->rank[i] == one->rank[0] && all->equals[i] == one->equals[0])
            return all->score[i] == one->score[0];
    return one->cards == 0 && all->cards == 0;
}

/* All that may be asked of a position. */
static void ask_board(const struct deal *deal, int tricks)
{
    const int targets[] = {-1, 0, 1, 1 + roll(tricks), tricks};
    struct dealPBN text = position_text(deal);
    struct futureTricks ones[5][3];
    for (int solutions = 1; solutions <= 3; solutions++)
        for (int i = 0; i < 5; i++)
            for (int mode = 0; mode <= 2; mode++) {
                struct futureTricks answer;
                memset(&answer, 0, sizeof answer);
                int code = SolveBoard(*deal, targets[i], solutions, mode, &answer, 0);
                printf("target %d solutions %d mode %d ", targets[i], solutions, mode);
                print_cards("SolveBoard", code, &answer, solutions);
                if (solutions == 1)
                    ones[i][mode] = answer;
                if (solutions == 2 && code == 1 && !is_among(&ones[i][mode], &answer))
                    puts("one card that isn't among all");
                if (mode != 1)
                    continue;
                memset(&answer, 0, sizeof answer);
                code = SolveBoardPBN(text, targets[i], solutions, mode, &answer, 0);
                print_cards("SolveBoardPBN", code, &answer, solutions);
            }
}

static void ask_boards(int count)
{
    for (int i = 0; i < count; i++) {
        int cards = 1 + roll(i % 8 ? 9 : 13), played = roll(4);
        struct deal deal = position(cards, played);
        printf("position %d: %d cards, %d played\n", i, cards, played);
        ask_board(&deal, cards);
    }
}

/* The batches, whose boards all differ: DDS answers a repeated deal by the first one's answer. */
static void ask_batches(int count)
{
    static struct boards boards;
    static struct boardsPBN texts;
    static struct solvedBoards solved;
    boards.noOfBoards = texts.noOfBoards = count;
    for (int i = 0; i < count; i++) {
        int cards = 2 + roll(7);
        boards.deals[i] = position(cards, roll(4));
        texts.deals[i] = position_text(&boards.deals[i]);
        boards.target[i] = texts.target[i] = roll(cards + 2) - 1;
        boards.solutions[i] = texts.solutions[i] = 1 + roll(3);
        boards.mode[i] = texts.mode[i] = roll(3);
    }
    for (int kind = 0; kind < 4; kind++) {
        memset(&solved, 0, sizeof solved);
        int code = kind == 0   ? SolveAllBoards(&texts, &solved)
                   : kind == 1 ? SolveAllChunks(&texts, &solved, 1)
                   : kind == 2 ? SolveAllChunksBin(&boards, &solved, 10)
                               : SolveAllChunksPBN(&texts, &solved, 3);
        printf("batch %d: %d, %d boards\n", kind, code, solved.noOfBoards);
        for (int i = 0; i < count; i++)
            print_cards("board", code, &solved.solvedBoard[i], boards.solutions[i]);
    }
}

/* ---- Plays */

static void print_play(const char *name, int code, const struct solvedPlay *play)
{
    printf("%s %d: %d", name, code, play->number);
    for (int i = 0; code == 1 && i < play->number; i++)
        printf(" %d", play->tricks[i]);
    puts("");
}

/* A position and cards played from it on. DDS has no number for the last trick once a card of it is played. */
static struct deal play_position(struct playTraceBin *play)
{
    int cards = 1 + roll(roll(8) ? 8 : 13), played = cards == 1 ? 0 : roll(4);
    struct deal deal = position(cards, played);
    *play = random_play(deal, played, roll(3) ? 52 : roll(4 * cards));
    return deal;
}

/* Plays one at a time, and all in one call. */
static void ask_plays(int count)
{
    static struct boards boards;
    static struct boardsPBN texts;
    static struct playTracesBin plays;
    static struct playTracesPBN play_texts;
    static struct solvedPlays solved;
    boards.noOfBoards = texts.noOfBoards = plays.noOfBoards = play_texts.noOfBoards = count;
    for (int i = 0; i < count; i++) {
        struct solvedPlay answer = {0};
        boards.deals[i] = play_position(&plays.plays[i]);
        texts.deals[i] = position_text(&boards.deals[i]);
        play_texts.plays[i] = play_text(&plays.plays[i]);
        int code = AnalysePlayBin(boards.deals[i], plays.plays[i], &answer, 0);
        print_play("AnalysePlayBin", code, &answer);
        code = AnalysePlayPBN(texts.deals[i], play_texts.plays[i], &answer, 0);
        print_play("AnalysePlayPBN", code, &answer);
    }
    for (int kind = 0; kind < 2; kind++) {
        memset(&solved, 0, sizeof solved);
        int code = kind == 0 ? AnalyseAllPlaysBin(&boards, &plays, &solved, 1)
                             : AnalyseAllPlaysPBN(&texts, &play_texts, &solved, 1);
        printf("all plays: %d, %d\n", code, solved.noOfBoards);
        for (int i = 0; i < count; i++)
            print_play("play", code, &solved.solved[i]);
    }
}

/* ---- Pars */

static void print_texts(const char *name, int code, const struct parResultsDealer *par)
{
    int passed = strcmp(par->contracts[0], "pass") == 0; /* then DDS leaves the score as it was */
    printf("%s %d: %d", name, code, passed ? 0 : par->score);
    for (int i = 0; i < par->number; i++)
        printf(" %s", par->contracts[i]);
    puts("");
}

static void print_contracts(const char *name, int code, const struct parResultsMaster *par)
{
    printf("%s %d: %d", name, code, par->score);
    for (int i = 0; par->score != 0 && i < par->number; i++) {
        const struct contractType *contract = &par->contracts[i];
        printf(" level %d denom %d seats %d under %d over %d", contract->level, contract->denom, contract->seats,
               contract->underTricks, contract->overTricks);
    }
    puts("");
}

static void ask_dealer_par(struct ddTableResults *table, int dealer, int vulnerable)
{
    struct parResultsDealer texts;
    struct parResultsMaster par;
    char line[200];
    memset(&texts, 0, sizeof texts);
    memset(&par, 0, sizeof par);
    int code = DealerPar(table, &texts, dealer, vulnerable);
    print_texts("DealerPar", code, &texts);
    code = DealerParBin(table, &par, dealer, vulnerable);
    print_contracts("DealerParBin", code, &par);
    code = ConvertToDealerTextFormat(&par, line);
    printf("ConvertToDealerTextFormat %d: %s\n", code, line);
}

static void ask_sides_par(struct ddTableResults *table, int vulnerable)
{
    struct parResults par;
    struct parResultsDealer texts[2];
    struct parResultsMaster pars[2];
    struct parTextResults lines;
    memset(texts, 0, sizeof texts);
    memset(pars, 0, sizeof pars);
    memset(&lines, 1, sizeof lines);
    int code = Par(table, &par, vulnerable);
    printf("Par %d: %s %s %s %s\n", code, par.parScore[0], par.parScore[1], par.parContractsString[0],
           par.parContractsString[1]);
    code = SidesPar(table, texts, vulnerable);
    print_texts("SidesPar", code, &texts[0]);
    print_texts("SidesPar", code, &texts[1]);
    code = SidesParBin(table, pars, vulnerable);
    print_contracts("SidesParBin", code, &pars[0]);
    print_contracts("SidesParBin", code, &pars[1]);
    code = ConvertToSidesTextFormat(pars, &lines);
    printf("ConvertToSidesTextFormat %d: %s, %s, %d\n", code, lines.parText[0], lines.parText[1], lines.equal);
}

static void ask_pars(struct ddTableResults *table)
{
    for (int vulnerable = 0; vulnerable < 4; vulnerable++) {
        ask_sides_par(table, vulnerable);
        for (int dealer = 0; dealer < 4; dealer++)
            ask_dealer_par(table, dealer, vulnerable);
    }
}

/* A table in which both sides together take 12 or 13 tricks, as in almost all deals. */
static struct ddTableResults invented_table(void)
{
    struct ddTableResults table;
    for (int strain = 0; strain < 5; strain++) {
        int ours = roll(14), theirs = 13 - ours - (roll(6) == 0);
        for (int seat = 0; seat < 4; seat++) {
            int tricks = (seat % 2 ? theirs : ours) - (roll(6) == 0);
            table.resTable[strain][seat] = tricks < 0 ? 0 : tricks;
        }
    }
    return table;
}

/* ---- Tables */

static void print_table(const char *name, int code, const struct ddTableResults *table)
{
    printf("%s %d:", name, code);
    for (int strain = 0; strain < 5; strain++)
        for (int seat = 0; seat < 4; seat++)
            printf("%c%d", seat == 0 ? ' ' : ',', table->resTable[strain][seat]);
    puts("");
}

/* One deal by all functions that take one. DDS's tables of endings of one card are wrong, so there are none. Pars are
   asked of whole deals: the numbers of an ending give both sides more than 13 tricks together. */
static void ask_table(int cards)
{
    struct ddTableDeal deal;
    struct ddTableDealPBN text;
    struct ddTableResults table = {0};
    struct parResults par;
    deal_cards(cards, deal.cards);
    write_hands(deal.cards, text.cards);
    printf("deal %s\n", text.cards);
    int code = CalcDDtable(deal, &table);
    print_table("CalcDDtable", code, &table);
    code = CalcDDtablePBN(text, &table);
    print_table("CalcDDtablePBN", code, &table);
    if (cards < 13)
        return;
    ask_pars(&table);
    code = CalcPar(deal, 0, &table, &par);
    printf("CalcPar %d: %s %s\n", code, par.parScore[0], par.parContractsString[1]);
    code = CalcParPBN(text, &table, 3, &par);
    printf("CalcParPBN %d: %s %s\n", code, par.parScore[1], par.parContractsString[0]);
}

/* Many deals in one call, with denominations left out, and pars if none is. */
static void ask_tables(int count, int cards, const int filter[5], int mode)
{
    static struct ddTableDeals deals;
    static struct ddTableDealsPBN texts;
    static struct ddTablesRes results;
    static struct allParResults pars;
    int asked[5];
    memcpy(asked, filter, sizeof asked);
    deals.noOfTables = texts.noOfTables = count;
    for (int i = 0; i < count; i++) {
        deal_cards(cards, deals.deals[i].cards);
        write_hands(deals.deals[i].cards, texts.deals[i].cards);
    }
    for (int kind = 0; kind < 2; kind++) {
        memset(&results, 0x11, sizeof results);
        memset(&pars, 0, sizeof pars);
        int code = kind == 0 ? CalcAllTables(&deals, mode, asked, &results, &pars)
                             : CalcAllTablesPBN(&texts, mode, asked, &results, &pars);
        printf("%d tables of %d cards, mode %d: %d, %d\n", count, cards, mode, code, results.noOfBoards);
        for (int i = 0; i < count && code == 1; i++)
            print_table("table", code, &results.results[i]);
        for (int i = 0; i < count && cards == 13; i++)
            printf("pars %s %s\n", pars.presults[i].parScore[0], pars.presults[i].parContractsString[0]);
    }
}

/* ---- Settings and refused calls */

static void ask_codes(void)
{
    struct futureTricks answer;
    for (int code = -310; code < 3; code++) {
        char line[80] = "";
        ErrorMessage(code, line);
        printf("ErrorMessage %d: %s\n", code, line);
    }
    for (int code = -2; code < 12; code++)
        printf("SetThreading %d: %d\n", code, SetThreading(code));
    SetThreading(5);
    for (int threads = 0; threads < 4; threads++) {
        struct deal deal = position(2, 0);
        SetMaxThreads(threads);
        for (int index = -1; index < 6; index++)
            printf("threads %d, index %d: %d\n", threads, index, SolveBoard(deal, -1, 1, 1, &answer, index));
    }
}

/* A position with one thing wrong, or not. */
static void ask_faults(int count)
{
    for (int i = 0; i < count; i++) {
        int cards = 2 + roll(4), target = roll(cards + 1), solutions = 1 + roll(3), mode = roll(3);
        struct deal deal = position(cards, roll(4));
        struct futureTricks answer;
        switch (roll(10)) {
        case 0: target = roll(2) ? -2 - roll(3) : 14 + roll(3); break;
        case 1: solutions = roll(2) ? -roll(3) : 4 + roll(3); break;
        case 2: mode = roll(2) ? -1 - roll(3) : 3 + roll(3); break;
        case 3: deal.trump = roll(2) ? -1 - roll(3) : 5 + roll(3); break;
        case 4: deal.first = roll(2) ? -1 - roll(3) : 4 + roll(3); break;
        case 5: deal.currentTrickRank[roll(3)] = roll(20) - 2; break;
        case 6: deal.currentTrickSuit[roll(3)] = roll(2) ? -1 : 4; break;
        case 7: deal.remainCards[roll(4)][roll(4)] = roll(2) ? 0x8000 : (unsigned)roll(4); break;
        case 8: target = cards + roll(3); break;
        default: deal.remainCards[roll(4)][roll(4)] ^= 4u << roll(13); break;
        }
        int code = SolveBoard(deal, target, solutions, mode, &answer, 0);
        if (code != 1 && code != -12)
            printf("fault %d: %d\n", i, code);
        else
            printf("fault %d: %s\n", i, !is_position(&deal) ? "no position" : code == 1 ? "1" : "-12");
    }
}

static void ask_limits(void)
{
    static struct ddTableDeals deals;
    static struct ddTablesRes results;
    static struct boardsPBN texts;
    static struct boards boards;
    static struct solvedBoards solved;
    int none[5] = {1, 1, 1, 1, 1}, all[5] = {0};
    deals.noOfTables = 41;
    boards.noOfBoards = texts.noOfBoards = 201;
    printf("no denomination: %d\n", CalcAllTables(&deals, -1, none, &results, NULL));
    printf("too many tables: %d\n", CalcAllTables(&deals, -1, all, &results, NULL));
    printf("too many boards: %d %d\n", SolveAllBoards(&texts, &solved), SolveAllChunksBin(&boards, &solved, 1));
    boards.noOfBoards = texts.noOfBoards = 1;
    printf("chunks of 0: %d", SolveAllChunks(&texts, &solved, 0));
    printf(" %d %d\n", SolveAllChunksBin(&boards, &solved, 0), SolveAllChunksPBN(&texts, &solved, -1));
    boards.noOfBoards = texts.noOfBoards = 0;
    printf("no boards: %d %d\n", SolveAllBoards(&texts, &solved), SolveAllChunksBin(&boards, &solved, 1));
    struct ddTableResults table;
    struct ddTableDealPBN text = {"X:foo"};
    printf("no deal: %d\n", CalcDDtablePBN(text, &table));
}

int main(int count, char **words)
{
    static const int ALL[5] = {0}, MAJORS[5] = {0, 0, 1, 1, 1}, NO_TRUMP[5] = {1, 1, 1, 1, 0};
    if (count != 4)
        return fputs("usage: client SEED DEALS POSITIONS\n", stderr), 2;
    int deals = atoi(words[2]), positions = atoi(words[3]);
    seed_dice((unsigned)atoi(words[1]));
    SetMaxThreads(0);
    ask_codes();
    SetMaxThreads(0);
    for (int i = 0; i < deals; i++)
        ask_table(i % 4 == 3 ? 13 : 2 + roll(10));
    for (int i = 0; i < 100 * deals; i++) {
        struct ddTableResults table = invented_table();
        ask_pars(&table);
    }
    for (int mode = -1; mode < 5; mode++)
        ask_tables(2, mode % 2 ? 13 : 3 + roll(6), ALL, mode);
    ask_tables(40, 5, ALL, 1);
    ask_tables(100, 4, MAJORS, -1);
    ask_tables(200, 4, NO_TRUMP, 0);
    ask_boards(positions);
    ask_batches(positions < 200 ? positions : 200);
    ask_plays(positions < 200 ? positions : 200);
    ask_faults(20 * positions);
    ask_limits();
    return 0;
}
