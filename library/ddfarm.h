/* ddfarm's own functions, for programs that are written anew: double-dummy numbers, and the evidence for them.

   Each number of tricks that is answered is proved: a function whose contract says that it is right has checked
   certificates for it (crates/dds_calls). A number that isn't known is DDFARM_NOT_KNOWN. No function guesses.

   Every function may be called from any thread at any time. None keeps memory, prints, or writes a file. If a pointer
   is null, the answer is false, 0 or DDFARM_NOT_KNOWN.

   Numbers: suits are 0 spades, 1 hearts, 2 diamonds, 3 clubs, and a denomination may be 4, no-trump. Seats are 0 North,
   1 East, 2 South, 3 West. Ranks are 2 to 14, the ace. */
#ifndef DDFARM_H
#define DDFARM_H

#include <stdbool.h>
#include <stddef.h>

#if defined(__GNUC__)
#define DDFARM_EXPORT __attribute__((visibility("default")))
#else
#define DDFARM_EXPORT
#endif
#ifdef __cplusplus
#define DDFARM_API extern "C" DDFARM_EXPORT
#else
#define DDFARM_API extern DDFARM_EXPORT
#endif

#define DDFARM_NOT_KNOWN (-1)

/* Four hands. In cards[seat][suit], bit r is the card of rank r. */
struct ddfarm_hands {
    unsigned int cards[4][4];
};

/* A card that may be played, and the tricks of its player's side if both sides play best after it. */
struct ddfarm_card {
    int suit, rank, tricks;
};

/* Reads the value of a Deal tag of PBN 2.1, as "N:Q64.QJ7.K9.AK954 98.43.A7653.QJ83 ..". It names the cards of all four
   hands, and has at most 79 characters. Otherwise the answer is false, and no hand has a card. */
DDFARM_API bool ddfarm_read(const char *text, struct ddfarm_hands *hands);

/* The tricks of each declarer in a denomination, of hands with one to thirteen cards each. Answers whether they are
   known. */
DDFARM_API bool ddfarm_denomination(const struct ddfarm_hands *hands, int denomination, int tricks[4]);

/* The same in all denominations: tricks[denomination][declarer]. As many threads as there are processors search, or as
   many as SetMaxThreads of dds.h says. Answers whether all twenty numbers are known. */
DDFARM_API bool ddfarm_table(const struct ddfarm_hands *hands, int tricks[5][4]);

/* Each card that may be played next to a trick that `leader` leads. The hands are those before the trick. `played` has
   the `count` cards, at most three, that were played to it. Answers the number of cards, better ones first, or 0 if
   nothing is known or a card of `played` may not be played. The tricks count the trick in progress. */
DDFARM_API int ddfarm_cards(const struct ddfarm_hands *hands, int leader, int denomination,
                            const struct ddfarm_card *played, int count, struct ddfarm_card cards[13]);

/* Writes the evidence of the twenty numbers of a deal, as `ddfarm table --evidence` keeps it: `ddfarm audit` proves the
   numbers from it. Answers its length, or DDFARM_NOT_KNOWN if a number isn't known. If it is longer than `size`, the
   buffer has no evidence afterwards; it may be null then. A deal takes a few megabytes. */
DDFARM_API long ddfarm_evidence(const struct ddfarm_hands *hands, char *buffer, size_t size);

#endif
