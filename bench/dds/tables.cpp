// Reads a PBN text with one tag a line and full deals, and prints what `ddfarm table` prints of it, with the numbers of
// DDS's CalcDDtablePBN: of each board its name, its deal from North on and its table.
// Usage: tables <examples/club.pbn
#include <dds/dll.h>

#include <cstdio>
#include <cstdlib>
#include <cstring>
#include <iostream>
#include <sstream>
#include <string>
#include <utility>
#include <vector>

namespace {

const std::string kSeats = "NESW";
// DDS's numbers of the denominations S, H, D, C and NT are 0 to 4.
const std::vector<std::pair<const char*, int>> kTrumps = {{"NT", 4}, {" S", 0}, {" H", 1}, {" D", 2}, {" C", 3}};

// The value of a line `[Name "value"]`.
bool HasTag(const std::string& line, const std::string& name, std::string& value) {
  const std::string front = "[" + name + " \"";
  if (line.compare(0, front.size(), front) != 0) return false;
  value = line.substr(front.size(), line.find('"', front.size()) - front.size());
  return true;
}

// The same deal, its hands from North's on.
std::string FromNorth(const std::string& deal) {
  std::vector<std::string> hands(4);
  std::istringstream words(deal.substr(2));
  for (std::size_t seat = kSeats.find(deal[0]), i = 0; i < 4; ++i) words >> hands[(seat + i) % 4];
  return "N:" + hands[0] + " " + hands[1] + " " + hands[2] + " " + hands[3];
}

void PrintTable(const std::string& deal) {
  ddTableDealPBN table = {};
  std::strncpy(table.cards, deal.c_str(), sizeof table.cards - 1);
  ddTableResults results = {};
  if (CalcDDtablePBN(table, &results) != RETURN_NO_FAULT) {
    std::fprintf(stderr, "tables: DDS refuses %s\n", deal.c_str());
    std::exit(1);
  }
  std::puts("[OptimumResultTable \"Declarer;Denomination\\2R;Result\\2R\"]");
  for (char declarer : std::string("NSEW"))
    for (const auto& trump : kTrumps)
      std::printf("%c %s %2d\n", declarer, trump.first, results.resTable[trump.second][kSeats.find(declarer)]);
}

}  // namespace

int main() {
  SetMaxThreads(1);
  std::puts("% PBN 2.1");
  std::string line, value, board;
  while (std::getline(std::cin, line)) {
    if (HasTag(line, "Board", value)) board = value;
    if (!HasTag(line, "Deal", value)) continue;
    const std::string deal = FromNorth(value);
    std::printf("[Board \"%s\"]\n[Deal \"%s\"]\n", board.c_str(), deal.c_str());
    PrintTable(deal);
    std::puts("");
  }
}
