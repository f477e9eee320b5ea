// Prints random boards with DDS's numbers, a line an entry: LAYOUT|DECLARER|TRUMP|TRICKS. On the error output it tells the
// microseconds of the processor that CalcDDtable took, a line a board.
// Usage: make_boards BOARDS SEED [CARDS]. One thread.
#include <dds/dll.h>

#include <cstdio>
#include <cstdlib>
#include <cstring>
#include <ctime>
#include <random>
#include <string>
#include <utility>
#include <vector>

namespace {

const std::string kRanks = "23456789TJQKA";

// The Deal value of a random layout.
std::string RandomLayout(std::mt19937& dice, int cards) {
  std::vector<int> pack(52);
  for (int i = 0; i < 52; ++i) pack[i] = i;
  for (int i = 51; i > 0; --i) std::swap(pack[i], pack[dice() % (i + 1)]);
  std::string text = "N:";
  for (int seat = 0; seat < 4; ++seat) {
    unsigned suits[4] = {};
    for (int i = 0; i < cards; ++i) {
      int card = pack[seat * cards + i];
      suits[card / 13] |= 1u << (card % 13);
    }
    if (seat) text += ' ';
    for (int suit = 0; suit < 4; ++suit) {
      if (suit) text += '.';
      for (int rank = 12; rank >= 0; --rank)
        if (suits[suit] >> rank & 1) text += kRanks[rank];
    }
  }
  return text;
}

}  // namespace

int main(int count, char** words) {
  if (count < 3) return 2;
  int boards = std::atoi(words[1]);
  std::mt19937 dice(std::atoi(words[2]));
  int cards = count > 3 ? std::atoi(words[3]) : 13;
  SetMaxThreads(1);
  for (int board = 0; board < boards; ++board) {
    std::string layout = RandomLayout(dice, cards);
    ddTableDealPBN deal;
    std::strcpy(deal.cards, layout.c_str());
    ddTableResults results;
    std::clock_t start = std::clock();
    if (CalcDDtablePBN(deal, &results) != RETURN_NO_FAULT) return 1;
    std::fprintf(stderr, "%.0f\n", 1e6 * static_cast<double>(std::clock() - start) / CLOCKS_PER_SEC);
    const char* trumps[5] = {"S", "H", "D", "C", "NT"};
    for (int trump = 0; trump < 5; ++trump)
      for (int seat = 0; seat < 4; ++seat)
        // CalcDDtable takes the defenders' tricks from thirteen, whatever the size of the hands.
        std::printf("%s|%c|%s|%d\n", layout.c_str(), "NESW"[seat], trumps[trump], results.resTable[trump][seat] - (13 - cards));
  }
}
