/* The functions of ddfarm.h. */
#include "ddfarm.h"

#include <string.h>

#include "inside.h"

bool ddfarm_read(const char *text, struct ddfarm_hands *hands)
{
    struct ddfarm_text padded = {{0}};
    struct ddTableDeal deal;
    if (!hands)
        return false;
    memset(hands, 0, sizeof *hands);
    if (!text || !memchr(text, '\0', sizeof padded.text))
        return false;
    strcpy(padded.text, text);
    if (ddfarm_read_hands(&padded, &deal) != RETURN_NO_FAULT)
        return false;
    memcpy(hands->cards, deal.cards, sizeof hands->cards);
    return true;
}

static struct ddTableDeal deal_of(const struct ddfarm_hands *hands)
{
    struct ddTableDeal deal;
    memcpy(deal.cards, hands->cards, sizeof deal.cards);
    return deal;
}

/* How many cards North has, without the two bits that stand for none. */
static int hand_size(const struct ddTableDeal *deal)
{
    int size = 0;
    for (int suit = 0; suit < DDS_SUITS; suit++)
        for (unsigned int word = deal->cards[0][suit] >> 2; word; word &= word - 1)
            size++;
    return size;
}

/* DDS's numbers of an ending count the tricks that lack to 13 too. */
static bool tell_row(const struct ddTableDeal *deal, int code, const int numbers[4], int tricks[4])
{
    for (int seat = 0; seat < DDS_HANDS; seat++)
        tricks[seat] = code == RETURN_NO_FAULT ? numbers[seat] - 13 + hand_size(deal) : DDFARM_NOT_KNOWN;
    return code == RETURN_NO_FAULT;
}

bool ddfarm_denomination(const struct ddfarm_hands *hands, int denomination, int tricks[4])
{
    struct ddfarm_row row;
    if (!tricks)
        return false;
    if (!hands)
        return tell_row(NULL, RETURN_UNKNOWN_FAULT, NULL, tricks);
    struct ddTableDeal deal = deal_of(hands);
    return tell_row(&deal, ddfarm_table_row(&deal, denomination, &row), row.tricks, tricks);
}

/* A call's work. A task is one denomination. */
struct own_table {
    const struct ddfarm_hands *hands;
    int (*tricks)[DDS_HANDS];
    bool known[DDS_STRAINS];
};

static void find_row(void *given, int task)
{
    struct own_table *work = given;
    int strain = DDS_STRAINS - 1 - task;
    work->known[strain] = ddfarm_denomination(work->hands, strain, work->tricks[strain]);
}

bool ddfarm_table(const struct ddfarm_hands *hands, int tricks[5][4])
{
    struct own_table work = {.hands = hands, .tricks = tricks};
    if (!tricks)
        return false;
    run_tasks(DDS_STRAINS, find_row, &work);
    bool known = true;
    for (int strain = 0; strain < DDS_STRAINS; strain++)
        known = known && work.known[strain];
    return known;
}

/* The position after the cards played, which are taken out of their hands. Answers whether each was there. */
static bool play_cards(struct deal *deal, const struct ddfarm_card *played, int count)
{
    for (int i = 0; i < count; i++) {
        int seat = (deal->first + i) % DDS_HANDS, suit = played[i].suit, rank = played[i].rank;
        if (suit < 0 || suit >= DDS_SUITS || rank < 2 || rank > 14 || !(deal->remainCards[seat][suit] >> rank & 1))
            return false;
        deal->remainCards[seat][suit] &= ~(1u << rank);
        deal->currentTrickSuit[i] = suit;
        deal->currentTrickRank[i] = rank;
    }
    return true;
}

/* Each card of a group, the highest first. */
static int list_cards(const struct futureTricks *groups, struct ddfarm_card cards[13])
{
    int count = 0;
    for (int i = 0; i < groups->cards; i++)
        for (int rank = 14; rank >= 2; rank--)
            if ((rank == groups->rank[i] || groups->equals[i] >> rank & 1) && count < 13)
                cards[count++] = (struct ddfarm_card){groups->suit[i], rank, groups->score[i]};
    return count;
}

int ddfarm_cards(const struct ddfarm_hands *hands, int leader, int denomination, const struct ddfarm_card *played,
                 int count, struct ddfarm_card cards[13])
{
    struct deal deal = {.trump = denomination, .first = leader};
    struct futureTricks groups;
    if (!hands || !cards || leader < 0 || leader >= DDS_HANDS || count < 0 || count > 3 || (count > 0 && !played))
        return 0;
    memcpy(deal.remainCards, hands->cards, sizeof deal.remainCards);
    if (!play_cards(&deal, played, count))
        return 0;
    if (ddfarm_solve_board(&deal, -1, 3, 1, &groups) != RETURN_NO_FAULT)
        return 0;
    return list_cards(&groups, cards);
}

/* The sections of all denominations, in the order in which a table has them. */
long ddfarm_evidence(const struct ddfarm_hands *hands, char *buffer, size_t size)
{
    static const int STRAINS[DDS_STRAINS] = {4, 0, 1, 2, 3};
    size_t length = 0;
    char none;
    if (!hands)
        return DDFARM_NOT_KNOWN;
    struct ddTableDeal deal = deal_of(hands);
    for (int i = 0; i < DDS_STRAINS; i++) {
        size_t room = buffer && length < size ? size - length : 0;
        int64_t section = ddfarm_evidence_section(&deal, STRAINS[i], room ? buffer + length : &none, room);
        if (section < 0)
            return DDFARM_NOT_KNOWN;
        length += (size_t)section;
    }
    return (long)length;
}
