// Fills the tables of deals by DDS's CalcAllTables with so many threads, and tells its microseconds by the wall and of all
// processors together.
// Usage: all_tables THREADS <deals, a Deal value from North on a line
#include <dds/dll.h>

#include <algorithm>
#include <chrono>
#include <cstdio>
#include <cstdlib>
#include <cstring>
#include <ctime>
#include <iostream>
#include <string>
#include <vector>

namespace {

// As many tables as CalcAllTables takes at a time, with all five denominations.
constexpr std::size_t kMost = MAXNOOFBOARDS / DDS_STRAINS;

}  // namespace

int main(int count, char** words) {
  if (count != 2) return 2;
  SetMaxThreads(std::atoi(words[1]));
  std::vector<std::string> deals;
  for (std::string line; std::getline(std::cin, line);) deals.push_back(line);
  const auto start = std::chrono::steady_clock::now();
  const std::clock_t ticks = std::clock();
  for (std::size_t first = 0; first < deals.size(); first += kMost) {
    static ddTableDealsPBN given;
    static ddTablesRes results;
    static allParResults par;
    int all[DDS_STRAINS] = {};
    given.noOfTables = static_cast<int>(std::min(kMost, deals.size() - first));
    for (int place = 0; place < given.noOfTables; ++place) std::strcpy(given.deals[place].cards, deals[first + place].c_str());
    if (CalcAllTablesPBN(&given, -1, all, &results, &par) != RETURN_NO_FAULT) return 1;
  }
  const auto wall = std::chrono::steady_clock::now() - start;
  std::printf("%lld %.0f\n", static_cast<long long>(std::chrono::duration_cast<std::chrono::microseconds>(wall).count()),
              1e6 * static_cast<double>(std::clock() - ticks) / CLOCKS_PER_SEC);
}
