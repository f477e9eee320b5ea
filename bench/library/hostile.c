/* Calls of each function with hostile numbers, hands and texts, a line per call. `beside` makes them in child
   processes, since DDS crashes on some; `alone` makes all in this one, and tells where a fault leaves other results
   than zeros.
   Usage: hostile SEED CALLS beside|alone. A line has a word if the two libraries need not agree:
   `lax` for texts and tricks that DDS takes and ours refuses, or numbers that DDS does not look at;
   `hot` for tables in which both sides take more than 13 tricks together, where pars depend on who calls first. */
#define _GNU_SOURCE
#include <limits.h>
#include <stdarg.h>
#include <stdio.h>
#include <stdlib.h>
#include <sys/wait.h>
#include <unistd.h>

#include "deals.h"

static char line[4000];
static size_t length;
static const char *mark = "";
static int stained;

static void say(const char *format, ...)
{
    va_list values;
    va_start(values, format);
    length += (size_t)vsnprintf(line + length, sizeof line - length, format, values);
    va_end(values);
}

/* Says the code. After a fault all bytes of the results have to be zeros. */
static void say_code(int code, const void *results, size_t size)
{
    const char *bytes = results;
    say(" %d", code);
    for (size_t i = 0; code != 1 && i < size; i++)
        stained |= bytes[i] != 0;
}

/* ---- Hostile values */

/* One of the likely numbers in four cases of five. */
static int number(int least, int most)
{
    static const int ODD[] = {INT_MIN, INT_MAX, -1, -2, 4, 5, 13, 14, 15, 201, 65536, -65536};
    if (roll(12))
        return least + roll(most - least + 1);
    return roll(3) ? ODD[roll(12)] : (int)((unsigned)roll(INT_MAX) * 3u);
}

static void spoil_hands(unsigned int hands[4][4])
{
    for (int times = roll(3) ? 0 : 1 + roll(3); times > 0; times--) {
        unsigned int *word = &hands[roll(4)][roll(4)];
        switch (roll(6)) {
        case 0: *word = 0; break;
        case 1: *word = (unsigned)roll(INT_MAX) * 3u; break;
        case 2: *word |= 0x8000u; break;
        case 3: *word = (unsigned)roll(4); break;
        default: *word ^= 4u << roll(13); break;
        }
    }
}

static struct deal hostile_position(void)
{
    struct deal deal = position(1 + roll(4), roll(4));
    spoil_hands(deal.remainCards);
    if (roll(4) == 0)
        deal.trump = number(0, 4);
    if (roll(4) == 0)
        deal.first = number(0, 3);
    if (roll(6) == 0)
        deal.currentTrickRank[roll(3)] = number(0, 14);
    if (roll(6) == 0)
        deal.currentTrickSuit[roll(3)] = number(0, 3);
    if (!is_position(&deal))
        mark = " lax";
    return deal;
}

/* A text with some bytes changed, or with no end. */
static void spoil_text(char text[80])
{
    for (int times = roll(2) ? 0 : 1 + roll(4); times > 0; times--) {
        text[roll(80)] = roll(2) ? "NESW:.- x0AKQJT92\n"[roll(18)] : (char)roll(256);
        mark = " lax";
    }
    if (roll(10) == 0)
        memset(text + strlen(text) % 80, ' ', 80 - strlen(text) % 80);
}

/* DDS takes hands of which some are a card short for a trick in progress. */
static struct ddTableDeal hostile_hands(int cards)
{
    struct ddTableDeal deal;
    deal_cards(cards, deal.cards);
    spoil_hands(deal.cards);
    for (int i = 0, count = 0; i < 16; i++, count = i % 4 ? count : 0) {
        count += __builtin_popcount(deal.cards[i / 4][i % 4]);
        if (i % 4 == 3 && count != cards)
            mark = " lax";
    }
    return deal;
}

static struct ddTableDealPBN hostile_text(int cards)
{
    struct ddTableDeal deal;
    struct ddTableDealPBN text;
    deal_cards(cards, deal.cards);
    write_hands(deal.cards, text.cards);
    spoil_text(text.cards);
    return text;
}

static struct ddTableResults hostile_table(void)
{
    struct ddTableResults table;
    int tall = 0;
    for (int strain = 0; strain < 5; strain++) {
        int ours = roll(14), best[2] = {0, 0};
        for (int seat = 0; seat < 4; seat++) {
            int tricks = roll(200) ? (seat % 2 ? 13 - ours : ours) - (roll(5) == 0) + (roll(40) == 0) : number(0, 13);
            table.resTable[strain][seat] = tricks < 0 && tricks > -2 ? 0 : tricks;
            if (tricks < -1 || tricks > 13)
                mark = " lax";
            if (tricks > best[seat % 2])
                best[seat % 2] = tricks;
        }
        tall |= best[0] > 13 || best[1] > 13 || best[0] + best[1] > 13;
    }
    if (tall && !*mark)
        mark = " hot";
    return table;
}

static int hostile_side(int most)
{
    int side = number(0, most);
    if (side < 0 || side > most)
        mark = " lax";
    return side;
}

/* ---- Answers */

/* The groups of cards by score, suit and rank; of one of several best only the score. */
static void say_cards(int code, const struct futureTricks *answer, int solutions)
{
    say_code(code, answer, sizeof *answer);
    if (code != 1)
        return;
    say(" cards %d", answer->cards);
    for (int score = 13; score >= -2; score--)
        for (int card = 0; card < 64; card++)
            for (int i = 0; i < answer->cards && i < 13; i++)
                if (answer->score[i] == score && 16 * answer->suit[i] + answer->rank[i] == card)
                    solutions == 1 && score != -2 ? say(" %d", score)
                                                  : say(" %d:%d+%x", score, card, (unsigned)answer->equals[i]);
}

static void say_table(int code, const struct ddTableResults *table)
{
    say_code(code, table, sizeof *table);
    for (int i = 0; code == 1 && i < 20; i++)
        say(" %d", table->resTable[i / 4][i % 4]);
}

static void say_par(int code, const struct parResults *par)
{
    say_code(code, par, sizeof *par);
    if (code == 1)
        say(" %s %s %s %s", par->parScore[0], par->parScore[1], par->parContractsString[0],
            par->parContractsString[1]);
}

static void say_texts(int code, const struct parResultsDealer *par)
{
    say_code(code, par, sizeof *par);
    if (code == 1 && strcmp(par->contracts[0], "pass"))
        say(" %d", par->score);
    for (int i = 0; code == 1 && i < par->number && i < 10; i++)
        say(" %s", par->contracts[i]);
}

static void say_contracts(int code, const struct parResultsMaster *par)
{
    say_code(code, par, sizeof *par);
    say(" %d", code == 1 ? par->score : 0);
    for (int i = 0; code == 1 && par->score && i < par->number && i < 10; i++)
        say(" %d/%d/%d/%d/%d", par->contracts[i].level, par->contracts[i].denom, par->contracts[i].seats,
            par->contracts[i].underTricks, par->contracts[i].overTricks);
}

/* ---- Calls */

static void solve_board(int with_text)
{
    struct futureTricks answer;
    struct deal deal = hostile_position();
    struct dealPBN text = position_text(&deal);
    int target = number(-1, 5), solutions = number(1, 3), mode = number(0, 2), thread = roll(9) ? 0 : number(0, 1);
    memset(&answer, with_text ? 0 : 7, sizeof answer);
    if (with_text)
        spoil_text(text.remainCards);
    int code = with_text ? SolveBoardPBN(text, target, solutions, mode, &answer, thread)
                         : SolveBoard(deal, target, solutions, mode, &answer, thread);
    say_cards(code, &answer, solutions);
}

static void call_solve_board(void) { solve_board(0); }
static void call_solve_board_pbn(void) { solve_board(1); }

/* Three boards, one of them hostile. The answers of the others count too. */
static void solve_boards(int kind)
{
    static struct boards boards;
    static struct boardsPBN texts;
    static struct solvedBoards solved;
    int bad = roll(3), chunk = number(1, 9);
    memset(&solved, 7, sizeof solved);
    boards.noOfBoards = texts.noOfBoards = roll(12) ? 3 : (int[]){0, -1, INT_MIN, 201, INT_MAX}[roll(5)];
    for (int i = 0; i < 3; i++) {
        boards.deals[i] = i == bad ? hostile_position() : position(2 + i, roll(4));
        texts.deals[i] = position_text(&boards.deals[i]);
        boards.target[i] = texts.target[i] = i == bad ? number(-1, 5) : -1;
        boards.solutions[i] = texts.solutions[i] = i == bad ? number(1, 3) : 3;
        boards.mode[i] = texts.mode[i] = i == bad ? number(0, 2) : 1;
    }
    if (boards.deals[bad].trump < 0 || boards.deals[bad].trump > 4)
        mark = " lax"; /* DDS may lose the board */
    int code = kind == 0   ? SolveAllBoards(&texts, &solved)
               : kind == 1 ? SolveAllChunks(&texts, &solved, chunk)
               : kind == 2 ? SolveAllChunksBin(&boards, &solved, chunk)
                           : SolveAllChunksPBN(&texts, &solved, chunk);
    say(" %d", code);
    for (int i = 0; code == 1 && i < boards.noOfBoards; i++)
        say_cards(code, &solved.solvedBoard[i], boards.solutions[i]);
}

static void call_solve_all_boards(void) { solve_boards(0); }
static void call_solve_all_chunks(void) { solve_boards(1); }
static void call_solve_all_chunks_bin(void) { solve_boards(2); }
static void call_solve_all_chunks_pbn(void) { solve_boards(3); }

static void call_table(void)
{
    struct ddTableResults table = {{{0}}};
    say_table(CalcDDtable(hostile_hands(2 + roll(3)), &table), &table);
}

static void call_table_pbn(void)
{
    struct ddTableResults table = {{{0}}};
    say_table(CalcDDtablePBN(hostile_text(2 + roll(3)), &table), &table);
}

static void all_tables(int with_text)
{
    static struct ddTableDeals deals;
    static struct ddTableDealsPBN texts;
    static struct ddTablesRes results;
    static struct allParResults pars;
    int filter[5], bad = roll(2), mode = number(-1, 3), count = roll(12) ? 2 : number(1, 2);
    if (count < 1 || mode >= 0)
        mark = " lax"; /* DDS takes no table for one; pars of endings are hot */
    for (int i = 0; i < 5; i++)
        filter[i] = roll(3) ? 0 : number(0, 1);
    for (int i = 0; i < 2; i++) {
        deals.deals[i] = i == bad && !with_text ? hostile_hands(3) : hostile_hands(2);
        texts.deals[i] = hostile_text(3);
    }
    deals.noOfTables = texts.noOfTables = count;
    memset(&results, 0, sizeof results);
    int code = with_text ? CalcAllTablesPBN(&texts, mode, filter, &results, &pars)
                         : CalcAllTables(&deals, mode, filter, &results, &pars);
    say(" %d boards %d", code, results.noOfBoards);
    for (int i = 0; code == 1 && i < count; i++)
        say_table(code, &results.results[i]);
}

static void call_all_tables(void) { all_tables(0); }
static void call_all_tables_pbn(void) { all_tables(1); }

static void call_calc_par(void)
{
    struct ddTableResults table = {{{0}}};
    struct parResults par = {{{0}}, {{0}}};
    struct ddTableDeal deal = hostile_hands(2);
    mark = " lax"; /* pars of endings are hot */
    say_par(CalcPar(deal, number(0, 3), &table, &par), &par);
}

static void call_calc_par_pbn(void)
{
    struct ddTableResults table = {{{0}}};
    struct parResults par = {{{0}}, {{0}}};
    struct ddTableDealPBN text = hostile_text(2);
    mark = " lax";
    say_par(CalcParPBN(text, &table, number(0, 3), &par), &par);
}

static void call_par(void)
{
    struct ddTableResults table = hostile_table();
    struct parResults par = {{{0}}, {{0}}};
    say_par(Par(&table, &par, hostile_side(3)), &par);
}

static void call_dealer_par(void)
{
    struct ddTableResults table = hostile_table();
    struct parResultsDealer par;
    memset(&par, 0, sizeof par);
    int dealer = hostile_side(3);
    say_texts(DealerPar(&table, &par, dealer, hostile_side(3)), &par);
}

static void call_dealer_par_bin(void)
{
    struct ddTableResults table = hostile_table();
    struct parResultsMaster par;
    memset(&par, 0, sizeof par);
    int dealer = hostile_side(3);
    say_contracts(DealerParBin(&table, &par, dealer, hostile_side(3)), &par);
}

static void call_sides_par(void)
{
    struct ddTableResults table = hostile_table();
    struct parResultsDealer pars[2];
    memset(pars, 0, sizeof pars);
    int code = SidesPar(&table, pars, hostile_side(3));
    say_texts(code, &pars[0]);
    say_texts(code, &pars[1]);
}

static void call_sides_par_bin(void)
{
    struct ddTableResults table = hostile_table();
    struct parResultsMaster pars[2];
    memset(pars, 0, sizeof pars);
    int code = SidesParBin(&table, pars, hostile_side(3));
    say_contracts(code, &pars[0]);
    say_contracts(code, &pars[1]);
}

static struct parResultsMaster hostile_par(void)
{
    struct parResultsMaster par;
    memset(&par, 0, sizeof par);
    par.score = roll(6) ? 10 * roll(200) - 1000 : number(-9999, 9999);
    par.number = number(0, 5);
    for (int i = 0; i < 10; i++) {
        struct contractType contract = {number(0, 1), number(0, 3), number(1, 7), number(0, 4), number(0, 5)};
        par.contracts[i] = contract;
    }
    mark = " lax"; /* DDS prints numbers that no par has */
    return par;
}

static void call_dealer_text(void)
{
    struct parResultsMaster par = hostile_par();
    char text[2000] = "";
    int code = ConvertToDealerTextFormat(&par, text);
    say(" %d %s", code, text);
}

static void call_sides_text(void)
{
    struct parResultsMaster pars[2] = {hostile_par(), hostile_par()};
    struct parTextResults texts;
    memset(&texts, 0, sizeof texts);
    int code = ConvertToSidesTextFormat(pars, &texts);
    say(" %d %s %s", code, texts.parText[0], texts.parText[1]);
}

static void call_settings(void)
{
    struct DDSInfo info;
    char text[80];
    if (roll(2))
        SetMaxThreads(number(0, 8));
    else
        SetResources(0, number(0, 8));
    GetDDSInfo(&info);
    FreeMemory();
    int code = number(-301, 1);
    ErrorMessage(code, text);
    say(" %d threads, %d %s, %d", info.noOfThreads, code, text, SetThreading(number(0, 9)));
    SetThreading(5);
    SetMaxThreads(1);
}

#include "hostile_plays.h"

static const struct {
    const char *name;
    void (*call)(void);
} CALLS[] = {
    {"SolveBoard", call_solve_board},
    {"SolveBoardPBN", call_solve_board_pbn},
    {"SolveAllBoards", call_solve_all_boards},
    {"SolveAllChunks", call_solve_all_chunks},
    {"SolveAllChunksBin", call_solve_all_chunks_bin},
    {"SolveAllChunksPBN", call_solve_all_chunks_pbn},
    {"CalcDDtable", call_table},
    {"CalcDDtablePBN", call_table_pbn},
    {"CalcAllTables", call_all_tables},
    {"CalcAllTablesPBN", call_all_tables_pbn},
    {"CalcPar", call_calc_par},
    {"CalcParPBN", call_calc_par_pbn},
    {"Par", call_par},
    {"DealerPar", call_dealer_par},
    {"DealerParBin", call_dealer_par_bin},
    {"SidesPar", call_sides_par},
    {"SidesParBin", call_sides_par_bin},
    {"ConvertToDealerTextFormat", call_dealer_text},
    {"ConvertToSidesTextFormat", call_sides_text},
    {"settings", call_settings},
    {"AnalysePlayBin", call_analyse_play},
    {"AnalysePlayPBN", call_analyse_play_pbn},
    {"AnalyseAllPlaysBin", call_all_plays},
    {"AnalyseAllPlaysPBN", call_all_plays_pbn},
};
enum { CALL_COUNT = sizeof CALLS / sizeof CALLS[0] };

/* Makes a call, which has this number, and leaves its line. */
static void make_call(unsigned seed, int number)
{
    seed_dice(seed * 7919u + (unsigned)number);
    length = 0, line[0] = '\0', mark = "", stained = 0;
    CALLS[number % CALL_COUNT].call();
    say("%s", mark);
}

/* Makes calls from this number on, and writes their lines. An alarm ends a call that takes too long. A call that has a
   word is the last, since DDS may have gone astray in it. */
static void make_calls(unsigned seed, int number, int calls, int out)
{
    for (int is_last = 0; number < calls && !is_last; number++) {
        alarm(5);
        make_call(seed, number);
        is_last = *mark != '\0';
        say("\n");
        if (write(out, line, length) != (ssize_t)length)
            _exit(1);
    }
    _exit(0);
}

/* Has a child make calls from this number on, and prints their lines. Answers the number of the next call. */
static int calls_beside(unsigned seed, int number, int calls)
{
    int ends[2], status = 0;
    fflush(stdout);
    if (pipe(ends) != 0)
        exit(1);
    pid_t child = fork();
    if (child == 0) {
        close(ends[0]);
        if (!freopen("/dev/null", "w", stdout)) /* DDS prints too */
            _exit(1);
        make_calls(seed, number, calls, ends[1]);
    }
    close(ends[1]);
    FILE *lines = fdopen(ends[0], "r");
    while (fgets(line, sizeof line, lines) && strchr(line, '\n'))
        printf("%s %s", CALLS[number++ % CALL_COUNT].name, line);
    fclose(lines);
    waitpid(child, &status, 0);
    if (status != 0 && number < calls)
        printf("%s died\n", CALLS[number++ % CALL_COUNT].name);
    return number;
}

int main(int count, char **words)
{
    if (count != 4)
        return fputs("usage: hostile SEED CALLS beside|alone\n", stderr), 2;
    unsigned seed = (unsigned)atoi(words[1]);
    int calls = atoi(words[2]) * CALL_COUNT, stains = 0;
    SetMaxThreads(1);
    if (strcmp(words[3], "beside") == 0) {
        for (int number = 0; number < calls;)
            number = calls_beside(seed, number, calls);
        return 0;
    }
    for (int number = 0; number < calls; number++) {
        make_call(seed, number);
        printf("%s %s\n", CALLS[number % CALL_COUNT].name, line);
        if (stained)
            printf("%s: a fault left other results than zeros\n", CALLS[number % CALL_COUNT].name), stains++;
    }
    return stains != 0;
}
