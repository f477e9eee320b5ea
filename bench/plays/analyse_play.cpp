// Reads lines LAYOUT|LEADER|TRUMP|CARDS and prints for each the tricks of the side that does not lead to the first
// trick, in all, before the first card and after each, by DDS's AnalysePlayPBN. LAYOUT is a PBN Deal value, LEADER one
// of N E S W, TRUMP one of NT S H D C, CARDS are words such as HK. DDS leaves out the last trick, in which there is no
// choice.
#include <dds/dll.h>

#include <cstdio>
#include <cstring>
#include <iostream>
#include <sstream>
#include <string>

namespace {

const std::string kSeats = "NESW";
const std::string kTrumps = "SHDCN";

// The part of a line up to the next bar.
std::string NextField(std::istringstream& line) {
  std::string field;
  std::getline(line, field, '|');
  return field;
}

}  // namespace

int main() {
  SetMaxThreads(1);
  std::string text;
  while (std::getline(std::cin, text)) {
    std::istringstream line(text);
    const std::string layout = NextField(line);
    const std::string leader = NextField(line);
    const std::string trump = NextField(line);
    std::istringstream words(NextField(line));
    dealPBN deal = {};
    deal.trump = static_cast<int>(kTrumps.find(trump[0]));
    deal.first = static_cast<int>(kSeats.find(leader[0]));
    std::strncpy(deal.remainCards, layout.c_str(), sizeof(deal.remainCards) - 1);
    playTracePBN play = {};
    std::string card;
    std::string cards;
    while (words >> card) {
      cards += card;
      ++play.number;
    }
    std::strncpy(play.cards, cards.c_str(), sizeof(play.cards) - 1);
    solvedPlay solved = {};
    const int code = AnalysePlayPBN(deal, play, &solved, 0);
    if (code != 1) {
      std::fprintf(stderr, "DDS answers %d: %s\n", code, text.c_str());
      return 1;
    }
    for (int count = 0; count < solved.number; ++count) std::printf(count ? " %d" : "%d", solved.tricks[count]);
    std::printf("\n");
  }
}
