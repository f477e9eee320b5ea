// Reads lines LAYOUT|LEADER|TRUMP and prints each with the number of tricks of North and South added,
// by DDS's SolveBoardPBN and, as a second opinion, by a plain search that knows nothing of DDS.
// The two must agree. LAYOUT is a PBN Deal value, LEADER one of N E S W, TRUMP one of NT S H D C.
#include <dds/dll.h>

#include <algorithm>
#include <cstdio>
#include <cstring>
#include <iostream>
#include <sstream>
#include <string>
#include <vector>

namespace {

const std::string kSeats = "NESW";
const std::string kSuits = "SHDC";
const std::string kRanks = "23456789TJQKA";

struct Card {
  int suit;
  int rank;
};

using Hands = std::vector<std::vector<Card>>;

// The four hands of a Deal value, North's first.
Hands ReadHands(const std::string& layout) {
  Hands hands(4);
  int seat = static_cast<int>(kSeats.find(layout[0]));
  std::istringstream words(layout.substr(2));
  std::string hand;
  while (words >> hand) {
    int suit = 0;
    for (char letter : hand) {
      if (letter == '.') {
        ++suit;
      } else {
        hands[seat].push_back({suit, static_cast<int>(kRanks.find(letter))});
      }
    }
    seat = (seat + 1) % 4;
  }
  return hands;
}

// The seat that wins a trick of four cards played from the leader on. A trump of -1 is no-trump.
int WinnerOf(const std::vector<Card>& trick, int leader, int trump) {
  int best = 0;
  for (int i = 1; i < 4; ++i) {
    bool same = trick[i].suit == trick[best].suit;
    if (same ? trick[i].rank > trick[best].rank : trick[i].suit == trump) best = i;
  }
  return (leader + best) % 4;
}

// The tricks that North and South win from here on, with best play by both sides: every legal card is tried.
int PlainTricks(Hands& hands, std::vector<Card>& trick, int leader, int trump) {
  if (trick.size() == 4) {
    std::vector<Card> done;
    done.swap(trick);
    int winner = WinnerOf(done, leader, trump);
    int tricks = (winner % 2 == 0 ? 1 : 0) + PlainTricks(hands, trick, winner, trump);
    trick.swap(done);
    return tricks;
  }
  int turn = (leader + static_cast<int>(trick.size())) % 4;
  if (hands[turn].empty()) return 0;
  bool follows = false;
  if (!trick.empty()) {
    for (const Card& card : hands[turn]) follows = follows || card.suit == trick[0].suit;
  }
  int best = turn % 2 == 0 ? -1 : 14;
  for (size_t i = 0; i < hands[turn].size(); ++i) {
    Card card = hands[turn][i];
    if (follows && card.suit != trick[0].suit) continue;
    hands[turn].erase(hands[turn].begin() + i);
    trick.push_back(card);
    int tricks = PlainTricks(hands, trick, leader, trump);
    trick.pop_back();
    hands[turn].insert(hands[turn].begin() + i, card);
    best = turn % 2 == 0 ? std::max(best, tricks) : std::min(best, tricks);
  }
  return best;
}

// The same number by DDS, which answers the tricks of the leader's side.
int DdsTricks(const std::string& layout, int leader, int trump, int cards) {
  dealPBN deal;
  std::memset(&deal, 0, sizeof deal);
  deal.trump = trump < 0 ? 4 : trump;
  deal.first = leader;
  std::strncpy(deal.remainCards, layout.c_str(), sizeof deal.remainCards - 1);
  futureTricks answer;
  int status = SolveBoardPBN(deal, -1, 1, 1, &answer, 0);
  if (status != RETURN_NO_FAULT) {
    char text[80];
    ErrorMessage(status, text);
    std::cerr << layout << ": " << text << "\n";
    return -1;
  }
  return leader % 2 == 0 ? answer.score[0] : cards - answer.score[0];
}

}  // namespace

int main() {
  SetMaxThreads(1);
  std::string line;
  bool agree = true;
  while (std::getline(std::cin, line)) {
    std::istringstream fields(line);
    std::string layout, leader_word, trump_word;
    std::getline(fields, layout, '|');
    std::getline(fields, leader_word, '|');
    std::getline(fields, trump_word, '|');
    int leader = static_cast<int>(kSeats.find(leader_word));
    int trump = trump_word == "NT" ? -1 : static_cast<int>(kSuits.find(trump_word));
    Hands hands = ReadHands(layout);
    std::vector<Card> trick;
    int by_dds = DdsTricks(layout, leader, trump, static_cast<int>(hands[0].size()));
    int by_search = PlainTricks(hands, trick, leader, trump);
    if (by_dds != by_search) {
      std::cerr << line << ": DDS " << by_dds << ", plain search " << by_search << "\n";
      agree = false;
    }
    std::cout << layout << "|" << leader_word << "|" << trump_word << "|" << by_dds << "\n";
  }
  return agree ? 0 : 1;
}
