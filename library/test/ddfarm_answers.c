/* Prints what the functions of ddfarm.h answer in the form of the program's subcommands, so that both can be compared.
   ddfarm_answers tables: reads Deal values, a line each, and prints the rows of their tables.
   ddfarm_answers evidence: reads the same, and writes their evidence.
   ddfarm_answers cards LAYOUT LEADER TRUMP CARD..: prints what `ddfarm cards` does.
   ddfarm_answers faults: asks what is refused, and prints nothing if each answer is as it should be. */
#include <stdio.h>
#include <stdlib.h>
#include <string.h>

#include "ddfarm.h"

static const char SEATS[] = "NESW", RANKS[] = "23456789TJQKA", SUITS[] = "SHDC";
static const char *const DENOMINATIONS[5] = {"S", "H", "D", "C", "NT"};

static int fail(const char *what) { return printf("ddfarm_answers: %s\n", what), 1; }

/* In the order of the rows: declarers N, S, E and W, each with no-trump first. */
static int print_table(const struct ddfarm_hands *hands)
{
    static const int DECLARERS[4] = {0, 2, 1, 3}, STRAINS[5] = {4, 0, 1, 2, 3};
    int tricks[5][4], one[4];
    if (!ddfarm_table(hands, tricks))
        return fail("no table");
    if (!ddfarm_denomination(hands, 2, one) || memcmp(one, tricks[2], sizeof one) != 0)
        return fail("another row");
    for (int i = 0; i < 20; i++)
        printf("%c %2s %2d\n", SEATS[DECLARERS[i / 5]], DENOMINATIONS[STRAINS[i % 5]],
               tricks[STRAINS[i % 5]][DECLARERS[i / 5]]);
    return 0;
}

/* The length is asked first, with no buffer, and then with one that lacks a byte. */
static int write_evidence(const struct ddfarm_hands *hands)
{
    long length = ddfarm_evidence(hands, NULL, 0);
    if (length <= 0)
        return fail("no evidence");
    char *buffer = malloc((size_t)length);
    if (!buffer || ddfarm_evidence(hands, buffer, (size_t)length - 1) != length)
        return fail("another length");
    if (ddfarm_evidence(hands, buffer, (size_t)length) != length)
        return fail("another length with room");
    fwrite(buffer, 1, (size_t)length, stdout);
    free(buffer);
    return 0;
}

static int for_lines(int (*work)(const struct ddfarm_hands *hands))
{
    char line[200];
    struct ddfarm_hands hands;
    while (fgets(line, sizeof line, stdin)) {
        line[strcspn(line, "\n")] = '\0';
        if (!ddfarm_read(line, &hands) || work(&hands) != 0)
            return fail(line);
    }
    return 0;
}

static int place_in(const char *letters, char letter) { return (int)(strchr(letters, letter) - letters); }

static int denomination_of(const char *word) { return strcmp(word, "NT") == 0 ? 4 : place_in(SUITS, word[0]); }

/* By tricks, suit and rank, as the program prints them. */
static int print_cards(int count, char **words)
{
    struct ddfarm_hands hands;
    struct ddfarm_card played[3], cards[13];
    int leader = place_in(SEATS, words[1][0]), others = count - 3;
    if (!ddfarm_read(words[0], &hands))
        return fail("no layout");
    for (int i = 0; i < others; i++)
        played[i] = (struct ddfarm_card){place_in(SUITS, words[3 + i][0]), 2 + place_in(RANKS, words[3 + i][1]), 0};
    int found = ddfarm_cards(&hands, leader, denomination_of(words[2]), played, others, cards);
    printf("%c to play\n", SEATS[(leader + others) % 4]);
    for (int tricks = 13; tricks >= 0; tricks--) {
        int written = 0;
        for (int suit = 0; suit < 4; suit++)
            for (int rank = 14; rank >= 2; rank--)
                for (int i = 0; i < found; i++)
                    if (cards[i].tricks == tricks && cards[i].suit == suit && cards[i].rank == rank) {
                        if (!written++)
                            printf("%d ", tricks);
                        printf(" %c%c", SUITS[suit], RANKS[rank - 2]);
                    }
        if (written)
            puts("");
    }
    return found == 0;
}

static int try_faults(void)
{
    struct ddfarm_hands hands, empty = {{{0}}};
    struct ddfarm_card cards[13], king = {0, 13, 0};
    int tricks[5][4], one[4];
    if (ddfarm_read(NULL, &hands) || ddfarm_read("N:A... K... Q...", &hands) || ddfarm_read("", NULL))
        return fail("a text is read");
    if (memcmp(&hands, &empty, sizeof hands) != 0)
        return fail("a refused text leaves cards");
    if (ddfarm_table(&empty, tricks) || tricks[3][1] != DDFARM_NOT_KNOWN || ddfarm_table(NULL, tricks))
        return fail("a table without cards");
    if (!ddfarm_read("N:A2... K3... Q4... J5...", &hands) || ddfarm_denomination(&hands, 5, one) || one[0] != -1)
        return fail("a sixth denomination");
    if (ddfarm_denomination(&hands, -1, one) || ddfarm_denomination(NULL, 0, one) || ddfarm_denomination(&hands, 0, NULL))
        return fail("no denomination");
    if (ddfarm_cards(&hands, 0, 4, &king, 1, cards) != 0 || ddfarm_cards(&hands, 4, 4, NULL, 0, cards) != 0)
        return fail("a card that isn't held, or no leader");
    if (ddfarm_cards(&hands, 0, 4, NULL, 1, cards) != 0 || ddfarm_cards(&hands, 0, 4, NULL, 0, cards) != 2)
        return fail("cards");
    if (ddfarm_evidence(&empty, NULL, 0) != DDFARM_NOT_KNOWN || ddfarm_evidence(NULL, NULL, 0) != DDFARM_NOT_KNOWN)
        return fail("evidence without cards");
    return 0;
}

int main(int count, char **words)
{
    if (count == 2 && strcmp(words[1], "tables") == 0)
        return for_lines(print_table);
    if (count == 2 && strcmp(words[1], "evidence") == 0)
        return for_lines(write_evidence);
    if (count == 2 && strcmp(words[1], "faults") == 0)
        return try_faults();
    if (count >= 5 && count <= 8 && strcmp(words[1], "cards") == 0)
        return print_cards(count - 2, words + 2);
    return 2;
}
