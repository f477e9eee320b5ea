// The same operations in plain C on the same words, for comparison. The script beside it fills in the layouts.
#include <stdint.h>
#include <stdio.h>
#include <time.h>

#define CALLS 2000000u

static const uint64_t hands[3][8][4] = {
@HANDS@
};

static const int all_depths[3][4] = {{3, 2, 4, 1}, {13, 13, 13, 13}, {13, 13, 13, 13}};

typedef struct { uint64_t words[4]; } Pattern;
typedef struct { uint8_t suit, place; } Card; // place 255 for a low card

static int count_of(uint64_t word) { return word >> 16 & 15; }
static int length_of(uint64_t word, int seat) { return word >> 4 * seat & 15; }

static int holder(const uint64_t *words, int suit, int rank) {
    for (int seat = 0; seat < 4; seat++)
        if (words[seat] >> (13 * suit + rank) & 1) return seat;
    return -1;
}

static Pattern of_layout(const uint64_t *words, const int *depths) {
    Pattern p;
    for (int suit = 0; suit < 4; suit++) {
        uint64_t word = 0;
        int count = 0;
        for (int seat = 0; seat < 4; seat++)
            word |= (uint64_t)__builtin_popcountll(words[seat] >> 13 * suit & 0x1fff) << 4 * seat;
        for (int rank = 12; rank >= 0 && count < depths[suit]; rank--) {
            int seat = holder(words, suit, rank);
            if (seat >= 0) word |= (uint64_t)seat << (20 + 2 * count++);
        }
        p.words[suit] = word | (uint64_t)count << 16;
    }
    return p;
}

__attribute__((noinline)) static int matches(const Pattern *p, const uint64_t *words) {
    for (int suit = 0; suit < 4; suit++) {
        uint64_t word = p->words[suit], owners = word >> 20;
        for (int seat = 0; seat < 4; seat++)
            if (__builtin_popcountll(words[seat] >> 13 * suit & 0x1fff) != length_of(word, seat)) return 0;
        int left = count_of(word);
        for (int rank = 12; rank >= 0 && left; rank--) {
            int seat = holder(words, suit, rank);
            if (seat < 0) continue;
            if (seat != (int)(owners & 3)) return 0;
            owners >>= 2, left--;
        }
        if (left) return 0;
    }
    return 1;
}

__attribute__((noinline)) static int covers(const Pattern *p, const Pattern *r) {
    for (int suit = 0; suit < 4; suit++) {
        uint64_t a = p->words[suit], b = r->words[suit];
        if ((a ^ b) & 0xffff || count_of(a) > count_of(b)) return 0;
        if (a >> 20 != (b >> 20 & ((1ull << 2 * count_of(a)) - 1))) return 0;
    }
    return 1;
}

static int add_suit(uint64_t word, int seat, int suit, Card *cards, int n) {
    uint64_t apart = word >> 20 ^ 0x1555555ull * (uint64_t)seat;
    uint64_t own = ~(apart | apart >> 1) & 0x1555555 & ((1ull << 2 * count_of(word)) - 1);
    int first = n;
    for (; own; own &= own - 1) cards[n++] = (Card){(uint8_t)suit, (uint8_t)(__builtin_ctzll(own) / 2)};
    if (n - first < length_of(word, seat)) cards[n++] = (Card){(uint8_t)suit, 255};
    return n;
}

__attribute__((noinline)) static int legal(const Pattern *p, int seat, int led, Card *cards) {
    if (led >= 0 && length_of(p->words[led], seat)) return add_suit(p->words[led], seat, led, cards, 0);
    int n = 0;
    for (int suit = 0; suit < 4; suit++) n = add_suit(p->words[suit], seat, suit, cards, n);
    return n;
}

__attribute__((noinline)) static int winners(const Pattern *p, int trump, int leader, const Card *cards) {
    int suit = cards[0].suit, least = 255, set = 0;
    for (int i = 0; i < 4; i++) if (cards[i].suit == trump) suit = trump;
    for (int i = 0; i < 4; i++) if (cards[i].suit == suit && cards[i].place < least) least = cards[i].place;
    if (least < 255) return 1 << (p->words[suit] >> (20 + 2 * least) & 3);
    for (int i = 0; i < 4; i++) if (cards[i].suit == suit) set |= 1 << ((leader + i) & 3);
    return set;
}

__attribute__((noinline)) static Pattern rest(const Pattern *p, int leader, const Card *cards) {
    Pattern left = *p;
    uint32_t taken[4] = {0, 0, 0, 0};
    for (int i = 0; i < 4; i++) {
        left.words[cards[i].suit] -= 1ull << 4 * ((leader + i) & 3);
        if (cards[i].place < 13) taken[cards[i].suit] |= 1u << cards[i].place;
    }
    for (int suit = 0; suit < 4; suit++) {
        uint64_t word = left.words[suit];
        for (uint32_t places = taken[suit]; places; places = (places & (places - 1)) >> 1) {
            int bit = 20 + 2 * __builtin_ctz(places);
            uint64_t below = (1ull << bit) - 1;
            word = ((word & below) | (word >> 2 & ~below)) - 0x10000;
        }
        left.words[suit] = word;
    }
    return left;
}

static double now(void) {
    struct timespec t;
    clock_gettime(CLOCK_MONOTONIC, &t);
    return t.tv_sec * 1e6 + t.tv_nsec / 1e3;
}

static void time_group(int group) {
    static const int whole[4] = {13, 13, 13, 13};
    Pattern patterns[8], packed[8], rests[8];
    Card tricks[8][4], list[13];
    for (int i = 0; i < 8; i++) {
        patterns[i] = of_layout(hands[group][i], all_depths[group]);
        packed[i] = of_layout(hands[group][i], whole);
        legal(&patterns[i], 0, -1, list);
        tricks[i][0] = list[0];
        for (int seat = 1; seat < 4; seat++) {
            legal(&patterns[i], seat, tricks[i][0].suit, list);
            tricks[i][seat] = list[0];
        }
    }
    uint64_t sum = 0;
    double start = now();
    for (uint32_t c = 0; c < CALLS; c++) sum += matches(&patterns[c % 8], hands[group][(c + (c / 8 & 1)) % 8]);
    printf("matches %.0f %lu\n", now() - start, sum);
    sum = 0, start = now();
    for (uint32_t c = 0; c < CALLS; c++) sum += covers(&patterns[c % 8], &packed[(c + (c / 8 & 1)) % 8]);
    printf("packed %.0f %lu\n", now() - start, sum);
    sum = 0, start = now();
    for (uint32_t c = 0; c < CALLS; c++) sum += legal(&patterns[c % 8], c / 8 % 4, c & 64 ? 1 : -1, list);
    printf("legal %.0f %lu\n", now() - start, sum);
    sum = 0, start = now();
    for (uint32_t c = 0; c < CALLS; c++) sum += winners(&patterns[c % 8], c & 8 ? 0 : 9, 0, tricks[c % 8]) >> (c / 16 % 4) & 1;
    printf("winners %.0f %lu\n", now() - start, sum);
    sum = 0, start = now();
    for (uint32_t c = 0; c < CALLS; c++) { rests[c % 8] = rest(&patterns[c % 8], 0, tricks[c % 8]); sum++; }
    printf("rest %.0f %lu\n", now() - start, sum);
    sum = 0, start = now();
    for (uint32_t c = 0; c < CALLS; c++) sum += covers(&rests[c % 8], &rests[(c + (c / 8 & 1)) % 8]);
    printf("covers %.0f %lu\n", now() - start, sum);
}

int main(void) {
    for (int group = 0; group < 3; group++) time_group(group);
}
