/* Random deals and positions for the programs of this folder. The numbers of a seed are the same everywhere. */
#ifndef BENCH_LIBRARY_DEALS_H
#define BENCH_LIBRARY_DEALS_H

#include <stdint.h>
#include <string.h>

#ifdef OWN
#include "dds.h"
#else
#include <dds/dll.h>
#endif

static uint64_t dice_state = 1;

static inline void seed_dice(unsigned seed)
{
    dice_state = 6364136223846793005u * (2ull * seed + 1) + 1442695040888963407u;
}

/* A number from 0 to below the limit. */
static inline int roll(int limit)
{
    dice_state = 6364136223846793005u * dice_state + 1442695040888963407u;
    return (int)((dice_state >> 33) % (uint64_t)limit);
}

/* Hands of so many cards each, as DDS has them. */
static inline void deal_cards(int cards, unsigned int hands[4][4])
{
    int pack[52];
    for (int i = 0; i < 52; i++)
        pack[i] = i;
    memset(hands, 0, 16 * sizeof(unsigned int));
    for (int i = 0; i < 4 * cards; i++) {
        int other = i + roll(52 - i), card = pack[other];
        pack[other] = pack[i];
        hands[i % 4][card / 13] |= 4u << card % 13;
    }
}

/* A card of the hand that may be played after this lead; -1 is no lead. Gives 16 * suit + rank. */
static inline int choose_card(const unsigned int hand[4], int led)
{
    int cards[13], count = 0;
    for (int suit = 0; suit < 4; suit++)
        for (int rank = 2; rank <= 14; rank++)
            if (hand[suit] >> rank & 1 && (led < 0 || !hand[led] || suit == led))
                cards[count++] = 16 * suit + rank;
    return cards[roll(count)];
}

/* A position with so many cards a hand when the trick began, and some cards of the trick played. */
static inline struct deal position(int cards, int played)
{
    struct deal deal;
    memset(&deal, 0, sizeof deal);
    deal.trump = roll(5);
    deal.first = roll(4);
    deal_cards(cards, deal.remainCards);
    for (int i = 0; i < played; i++) {
        unsigned int *hand = deal.remainCards[(deal.first + i) % 4];
        int card = choose_card(hand, i == 0 ? -1 : deal.currentTrickSuit[0]);
        deal.currentTrickSuit[i] = card / 16;
        deal.currentTrickRank[i] = card % 16;
        hand[card / 16] &= ~(1u << card % 16);
    }
    return deal;
}

/* The place in a trick of the card that wins it. */
static inline int winner_of(const int suits[4], const int ranks[4], int trump)
{
    int best = 0;
    for (int i = 1; i < 4; i++)
        if (suits[i] == suits[best] ? ranks[i] > ranks[best] : suits[i] == trump)
            best = i;
    return best;
}

/* Random cards that are played in turn from a position on, so many at most. The number counts the cards of the trick in
   progress too. */
static inline struct playTraceBin random_play(struct deal deal, int played, int most)
{
    struct playTraceBin play;
    int suits[4] = {0}, ranks[4] = {0}, leader = deal.first;
    memset(&play, 0, sizeof play);
    memcpy(suits, deal.currentTrickSuit, sizeof deal.currentTrickSuit);
    memcpy(ranks, deal.currentTrickRank, sizeof deal.currentTrickRank);
    play.number = played;
    for (int count = 0; count < most; count++) {
        unsigned int *hand = deal.remainCards[(leader + played) % 4];
        if (!(hand[0] | hand[1] | hand[2] | hand[3]))
            break;
        int card = choose_card(hand, played == 0 ? -1 : suits[0]);
        hand[card / 16] &= ~(1u << card % 16);
        play.suit[count] = suits[played] = card / 16;
        play.rank[count] = ranks[played] = card % 16;
        play.number++;
        if (++played == 4) {
            leader = (leader + winner_of(suits, ranks, deal.trump)) % 4;
            played = 0;
        }
    }
    return play;
}

/* The play as text. DDS reads as many cards as its number says, so there are some more than it looks at. */
static inline struct playTracePBN play_text(const struct playTraceBin *play)
{
    struct playTracePBN text;
    memset(&text, 0, sizeof text);
    text.number = play->number;
    for (int i = 0; i < 52; i++) {
        int rank = play->rank[i] < 2 || play->rank[i] > 14 ? 2 : play->rank[i];
        text.cards[2 * i] = "SHDC"[play->suit[i] & 3];
        text.cards[2 * i + 1] = "23456789TJQKA"[rank - 2];
    }
    return text;
}

/* Whether the cards of the trick in progress could be played in turn. DDS goes on if they could not. */
static inline int is_position(const struct deal *deal)
{
    int cards = 0;
    for (int i = 0; i < 16; i++)
        cards += __builtin_popcount(deal->remainCards[i / 4][i % 4] >> 2 & 0x1fff);
    for (int i = 0; i < (52 - cards) % 4; i++) {
        int led = deal->currentTrickSuit[0], suit = deal->currentTrickSuit[i], rank = deal->currentTrickRank[i];
        unsigned seat = ((unsigned)deal->first + (unsigned)i) & 3;
        if (rank < 2 || led < 0 || led > 3 || (suit != led && deal->remainCards[seat][led]))
            return 0;
        for (int j = 0; j < i; j++)
            if (deal->currentTrickSuit[j] == suit && deal->currentTrickRank[j] == rank)
                return 0;
    }
    return 1;
}

/* The hands as a PBN Deal value. */
static inline void write_hands(const unsigned int hands[4][4], char text[80])
{
    static const char RANKS[] = "23456789TJQKA";
    char *at = text;
    memset(text, 0, 80);
    *at++ = 'N';
    for (int seat = 0; seat < 4; seat++) {
        *at++ = seat == 0 ? ':' : ' ';
        for (int suit = 0; suit < 4; suit++) {
            for (int rank = 14; rank >= 2; rank--)
                if (hands[seat][suit] >> rank & 1)
                    *at++ = RANKS[rank - 2];
            if (suit < 3)
                *at++ = '.';
        }
    }
}

static inline struct dealPBN position_text(const struct deal *deal)
{
    struct dealPBN text;
    memset(&text, 0, sizeof text);
    text.trump = deal->trump;
    text.first = deal->first;
    memcpy(text.currentTrickSuit, deal->currentTrickSuit, sizeof text.currentTrickSuit);
    memcpy(text.currentTrickRank, deal->currentTrickRank, sizeof text.currentTrickRank);
    write_hands(deal->remainCards, text.remainCards);
    return text;
}

#endif
