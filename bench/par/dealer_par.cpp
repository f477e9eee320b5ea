// Answers rows of crates/par_tests that ask for par by DDS's DealerPar, in the words of that crate.
// Usage: dealer_par <rows >answers. It ends with status 1 at a row that DDS refuses.
#include <dds/dll.h>

#include <algorithm>
#include <cstdio>
#include <cstdlib>
#include <iostream>
#include <sstream>
#include <string>
#include <utility>
#include <vector>

namespace {

const std::string kSeats = "NESW";
// Denominations by rank.
const std::string kRanks = "CDHSN";

// DDS's number for the vulnerable sides.
int Vulnerable(const std::string& word) { return word == "All" ? 1 : word == "NS" ? 2 : word == "EW" ? 3 : 0; }

// The place of a contract in the list, and its text.
using Contract = std::pair<int, std::string>;

// Reads a contract of DDS, as `5H*-EW-3` or `3N-N`. In the list, the highest bid comes first. Of two contracts with one
// bid, that of North and South comes first.
Contract Read(const std::string& theirs) {
  const char level = theirs[0], denomination = theirs[1];
  const std::size_t declarer = theirs.find('-') + 1;
  const std::size_t end = std::min(theirs.find_first_of("+-", declarer), theirs.size());
  std::string text = theirs.substr(declarer, end - declarer) + " " + level + denomination;
  if (denomination == 'N') text += 'T';
  if (theirs[2] == '*') text += 'x';
  const int bid = 5 * (level - '1') + static_cast<int>(kRanks.find(denomination));
  const bool east_west = theirs[declarer] == 'E' || theirs[declarer] == 'W';
  return {2 * (34 - bid) + east_west, text + theirs.substr(end)};
}

std::string Answer(const parResultsDealer& par) {
  std::vector<Contract> contracts;
  for (int i = 0; i < par.number; ++i)
    if (std::string(par.contracts[i]) != "pass") contracts.push_back(Read(par.contracts[i]));
  std::sort(contracts.begin(), contracts.end());
  std::string text = (par.score < 0 ? "EW " : "NS ") + std::to_string(std::abs(par.score)) + ": ";
  if (contracts.empty()) text += "Pass";
  for (std::size_t i = 0; i < contracts.size(); ++i) text += (i ? ", " : "") + contracts[i].second;
  return text;
}

}  // namespace

int main() {
  for (std::string row; std::getline(std::cin, row);) {
    std::istringstream words(row);
    std::string kind, dealer, vulnerable;
    words >> kind >> dealer >> vulnerable;
    // A row has the tricks of N, S, E and W, in no-trump and the suits from spades down. DDS numbers no-trump 4.
    ddTableResults table = {};
    for (char seat : std::string("NSEW"))
      for (int denomination : {4, 0, 1, 2, 3}) words >> table.resTable[denomination][kSeats.find(seat)];
    parResultsDealer par = {};
    if (!words || kind != "par" ||
        DealerPar(&table, &par, static_cast<int>(kSeats.find(dealer[0])), Vulnerable(vulnerable)) != RETURN_NO_FAULT) {
      std::fprintf(stderr, "dealer_par: not answered: %s\n", row.c_str());
      return 1;
    }
    std::printf("%s\n= %s\n", row.c_str(), Answer(par).c_str());
  }
}
