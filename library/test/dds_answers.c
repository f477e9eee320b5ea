/* Prints what the library answers in the form of the program's subcommands, so that both can be compared.
   dds_answers tables: reads Deal values, a line each, and prints the rows of their tables.
   dds_answers leads: reads the same, and prints the rows of `ddfarm leads`.
   dds_answers cards LAYOUT LEADER TRUMP CARD..: prints what `ddfarm cards` does.
   The last two say where the answer to "one card" is none of the best of all. */
#include <stdio.h>
#include <string.h>

#include "dds.h"

static const char SEATS[] = "NESW", RANKS[] = "23456789TJQKA", SUITS[] = "SHDC";
static const char *const DENOMINATIONS[5] = {"S", "H", "D", "C", "NT"};

/* The value of a Deal tag, without the end of its line. */
static int read_line(char text[80])
{
    char line[200];
    if (!fgets(line, sizeof line, stdin))
        return 0;
    line[strcspn(line, "\n")] = '\0';
    memset(text, 0, 80);
    memcpy(text, line, strlen(line) < 80 ? strlen(line) : 80);
    return 1;
}

/* In the order of the rows: declarers N, S, E and W, each with no-trump first. */
static void for_rows(void (*print)(const char text[80], int declarer, int strain), const char text[80])
{
    static const int DECLARERS[4] = {0, 2, 1, 3}, STRAINS[5] = {4, 0, 1, 2, 3};
    for (int i = 0; i < 20; i++)
        print(text, DECLARERS[i / 5], STRAINS[i % 5]);
}

static struct ddTableResults table;

static void print_number(const char text[80], int declarer, int strain)
{
    (void)text;
    printf("%c %2s %2d\n", SEATS[declarer], DENOMINATIONS[strain], table.resTable[strain][declarer]);
}

/* The table by a call for one deal, and by one for many, which have to agree. */
static int print_table(const char text[80])
{
    static struct ddTableDealsPBN deals;
    static struct ddTablesRes results;
    static struct allParResults pars;
    int all[5] = {0};
    struct ddTableDealPBN deal;
    memcpy(deal.cards, text, 80);
    deals.noOfTables = 1;
    deals.deals[0] = deal;
    int code = CalcDDtablePBN(deal, &table), other = CalcAllTablesPBN(&deals, 0, all, &results, &pars);
    if (code != 1 || other != 1 || memcmp(&results.results[0], &table, sizeof table) != 0)
        return printf("dds_answers: %d and %d for %.80s\n", code, other, text), 1;
    for_rows(print_number, text);
    return 0;
}

/* After two blanks each number of tricks, with the cards that lead to it. `before` comes before each number. */
static void print_cards(const struct futureTricks *cards, const char *before, const char *after)
{
    for (int score = 13; score >= 0; score--) {
        int found = 0;
        for (int suit = 0; suit < 4; suit++)
            for (int rank = 14; rank >= 2; rank--)
                for (int i = 0; i < cards->cards; i++)
                    if (cards->score[i] == score && cards->suit[i] == suit &&
                        (cards->rank[i] == rank || cards->equals[i] >> rank & 1)) {
                        if (!found++)
                            printf("%s%d%s", before, score, *before ? "" : " ");
                        printf(" %c%c", SUITS[suit], RANKS[rank - 2]);
                    }
        if (found)
            printf("%s", after);
    }
}

/* One card asked: a group that has the most tricks of all groups, with the same lower cards. */
static int is_one_of(const struct futureTricks *one, const struct futureTricks *all)
{
    for (int i = 0; one->cards == 1 && i < all->cards; i++)
        if (all->suit[i] == one->suit[0] && all->rank[i] == one->rank[0] && all->equals[i] == one->equals[0])
            return all->score[i] == all->score[0] && one->score[0] == all->score[0];
    return 0;
}

/* The values of all cards that may be played. */
static int solve(struct dealPBN deal, struct futureTricks *cards)
{
    struct futureTricks one;
    int code = SolveBoardPBN(deal, -1, 3, 1, cards, 0), other = SolveBoardPBN(deal, -1, 1, 1, &one, 0);
    if (code == 1 && (other != 1 || !is_one_of(&one, cards)))
        printf(" one card asked: %d", other);
    return code;
}

static void print_leads(const char text[80], int declarer, int strain)
{
    struct dealPBN deal = {.trump = strain, .first = (declarer + 1) % 4};
    struct futureTricks cards;
    memcpy(deal.remainCards, text, 80);
    int code = solve(deal, &cards);
    printf("%c %2s", SEATS[declarer], DENOMINATIONS[strain]);
    if (code != 1)
        printf(" code %d", code);
    print_cards(&cards, "  ", "");
    puts("");
}

/* Takes a card that is played out of the hands' text: DDS wants them without it. */
static void remove_card(char text[80], int seat, int suit, char rank)
{
    char *at = text + 2, *end;
    for (int turn = (int)(strchr(SEATS, text[0]) - SEATS); turn % 4 != seat; turn++)
        at = strchr(at, ' ') + 1;
    for (; suit > 0; suit--)
        at = strchr(at, '.') + 1;
    end = strchr(at, rank);
    if (end)
        memmove(end, end + 1, strlen(end));
}

static int print_position(int count, char **words)
{
    struct dealPBN deal = {.first = (int)(strchr(SEATS, words[1][0]) - SEATS)};
    struct futureTricks cards;
    while (strcmp(DENOMINATIONS[deal.trump], words[2]) != 0)
        deal.trump++;
    strncpy(deal.remainCards, words[0], sizeof deal.remainCards - 1);
    for (int i = 0; i + 3 < count; i++) {
        int suit = (int)(strchr(SUITS, words[3 + i][0]) - SUITS);
        deal.currentTrickSuit[i] = suit;
        deal.currentTrickRank[i] = (int)(strchr(RANKS, words[3 + i][1]) - RANKS) + 2;
        remove_card(deal.remainCards, (deal.first + i) % 4, suit, words[3 + i][1]);
    }
    int code = solve(deal, &cards);
    if (code != 1)
        return printf("dds_answers: %d\n", code), 1;
    printf("%c to play\n", SEATS[(deal.first + count - 3) % 4]);
    print_cards(&cards, "", "\n");
    return 0;
}

/* Declarer's tricks before the first card of a play and after each that counts, alone and in a batch. */
static int print_play(int count, char **words)
{
    static struct boardsPBN boards = {.noOfBoards = 1};
    static struct playTracesPBN plays = {.noOfBoards = 1};
    static struct solvedPlays solved;
    struct solvedPlay play = {0};
    struct dealPBN *deal = &boards.deals[0];
    deal->first = (int)(strchr(SEATS, words[1][0]) - SEATS);
    while (strcmp(DENOMINATIONS[deal->trump], words[2]) != 0)
        deal->trump++;
    strncpy(deal->remainCards, words[0], sizeof deal->remainCards - 1);
    plays.plays[0].number = count - 3;
    for (int i = 0; i + 3 < count; i++)
        memcpy(&plays.plays[0].cards[2 * i], words[3 + i], 2);
    int code = AnalysePlayPBN(*deal, plays.plays[0], &play, 0);
    int other = AnalyseAllPlaysPBN(&boards, &plays, &solved, 1);
    if (code != other || memcmp(&play, &solved.solved[0], sizeof play) != 0)
        return printf("dds_answers: a batch of one play: %d\n", other), 1;
    printf("%d:", code);
    for (int i = 0; i < play.number; i++)
        printf(" %d", play.tricks[i]);
    puts("");
    return 0;
}

int main(int count, char **words)
{
    char text[80];
    if (count >= 5 && strcmp(words[1], "plays") == 0)
        return print_play(count - 2, words + 2);
    if (count >= 5 && strcmp(words[1], "cards") == 0)
        return print_position(count - 2, words + 2);
    if (count != 2)
        return 2;
    while (read_line(text)) {
        if (strcmp(words[1], "leads") == 0)
            for_rows(print_leads, text);
        else if (print_table(text))
            return 1;
    }
    return 0;
}
