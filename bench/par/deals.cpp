// Prints the tables of random deals by DDS, one per line: the tricks of N, S, E and W, in no-trump and the suits from
// spades down.
// Usage: deals FIRST END SEED THREADS >tables. The deals of a seed are numbered from 0. It begins with FIRST, and stops
// before END.
#include <dds/dll.h>

#include <algorithm>
#include <cstdio>
#include <cstdlib>
#include <random>
#include <string>
#include <vector>

namespace {

// CalcAllTables takes this number of deals at a time, with all five denominations.
constexpr int kMost = MAXNOOFBOARDS / DDS_STRAINS;

const std::string kSeats = "NESW";

ddTableDeal RandomDeal(std::mt19937& dice) {
  std::vector<int> pack(52);
  for (int card = 0; card < 52; ++card) pack[card] = card;
  for (int card = 51; card > 0; --card) std::swap(pack[card], pack[dice() % (card + 1)]);
  ddTableDeal deal = {};
  // A deuce is bit 2 of its suit, an ace bit 14.
  for (int place = 0; place < 52; ++place) deal.cards[place / 13][pack[place] / 13] |= 4u << pack[place] % 13;
  return deal;
}

// DDS numbers no-trump 4.
void Print(const ddTableResults& table) {
  for (char seat : std::string("NSEW")) {
    for (int denomination : {4, 0, 1, 2, 3}) std::printf("%d ", table.resTable[denomination][kSeats.find(seat)]);
    std::printf(seat == 'W' ? "\n" : " ");
  }
}

}  // namespace

int main(int count, char** words) {
  if (count != 5) return 2;
  const int first = std::atoi(words[1]), end = std::atoi(words[2]);
  std::mt19937 dice(std::atoi(words[3]));
  SetMaxThreads(std::atoi(words[4]));
  for (int board = 0; board < first; ++board) RandomDeal(dice);
  for (int board = first; board < end; board += kMost) {
    static ddTableDeals deals;
    static ddTablesRes tables;
    static allParResults pars;
    int all[DDS_STRAINS] = {};
    deals.noOfTables = std::min(kMost, end - board);
    for (int place = 0; place < deals.noOfTables; ++place) deals.deals[place] = RandomDeal(dice);
    if (CalcAllTables(&deals, -1, all, &tables, &pars) != RETURN_NO_FAULT) return 1;
    for (int place = 0; place < deals.noOfTables; ++place) Print(tables.results[place]);
    std::fflush(stdout);
  }
}
