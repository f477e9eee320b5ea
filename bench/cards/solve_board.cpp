// Reads positions, one per line, and prints for each the score of every card that may be played, by DDS. At the end it
// prints on the error output the microseconds of the processor that DDS took.
//
// A position is LAYOUT|LEADER|TRUMP|CARDS: a Deal value with the hands when the trick began, the seat that leads to the
// trick, the denomination (NT, S, H, D, C), and the cards played to the trick, with blanks between them. A score is the
// tricks that the side of the seat to play takes, the trick in progress included. A line printed is like
// `HK 3 HQ 3 H5 2`.
//
// Usage: solve_board [BATCH [MODE]] <positions, BATCH the number of positions that one call takes: 0, the default, is
// SolveBoard, and 1 to 200 SolveAllChunksBin. MODE is SolveBoard's, by default 1. In mode 0 DDS doesn't search if all
// cards that may be played are equal, and their score is -2.
#include <dds/dll.h>

#include <algorithm>
#include <cstdio>
#include <cstdlib>
#include <ctime>
#include <iostream>
#include <sstream>
#include <string>
#include <vector>

namespace {

const std::string kSeats = "NESW";
const std::string kSuits = "SHDC";
const std::string kRanks = "23456789TJQKA";
constexpr int kLowest = 2;  // DDS's number of the lowest rank.
constexpr int kNoTrump = 4;
constexpr int kMostTricks = -1;  // The target: the most tricks that can be won.
constexpr int kAllCards = 3;     // The solutions: every card that may be played.

// Takes the cards of a Deal value.
void ReadHands(const std::string& layout, deal& position) {
  std::size_t seat = kSeats.find(layout[0]);
  std::istringstream hands(layout.substr(2));
  for (std::string hand; hands >> hand; seat = (seat + 1) % 4) {
    int suit = 0;
    for (char letter : hand) {
      if (letter == '.')
        ++suit;
      else
        position.remainCards[seat][suit] |= 1u << (kRanks.find(letter) + kLowest);
    }
  }
}

// Moves the cards played from the hands to the trick.
void ReadTrick(const std::string& cards, deal& position) {
  std::istringstream words(cards);
  int place = 0;
  for (std::string card; words >> card; ++place) {
    const int suit = static_cast<int>(kSuits.find(card[0]));
    const int rank = static_cast<int>(kRanks.find(card[1])) + kLowest;
    position.currentTrickSuit[place] = suit;
    position.currentTrickRank[place] = rank;
    position.remainCards[(position.first + place) % 4][suit] &= ~(1u << rank);
  }
}

// The position that a line names.
deal ReadPosition(const std::string& line) {
  std::istringstream fields(line);
  std::string layout, leader, trump, cards;
  std::getline(fields, layout, '|');
  std::getline(fields, leader, '|');
  std::getline(fields, trump, '|');
  std::getline(fields, cards);
  deal position = {};
  position.trump = trump == "NT" ? kNoTrump : static_cast<int>(kSuits.find(trump));
  position.first = static_cast<int>(kSeats.find(leader));
  ReadHands(layout, position);
  ReadTrick(cards, position);
  return position;
}

// Ends the program if a call failed.
void Expect(int status) {
  if (status == RETURN_NO_FAULT) return;
  char text[80];
  ErrorMessage(status, text);
  std::fprintf(stderr, "solve_board: %s\n", text);
  std::exit(1);
}

// Solves each position by a call of its own.
void SolveEach(const std::vector<deal>& positions, int mode, std::vector<futureTricks>& answers) {
  for (const deal& position : positions) {
    futureTricks answer = {};
    Expect(SolveBoard(position, kMostTricks, kAllCards, mode, &answer, 0));
    answers.push_back(answer);
  }
}

// Solves the positions in batches.
void SolveBatches(const std::vector<deal>& positions, std::size_t most, int mode, std::vector<futureTricks>& answers) {
  static boards batch;
  static solvedBoards solved;
  for (std::size_t first = 0; first < positions.size(); first += most) {
    batch.noOfBoards = static_cast<int>(std::min(most, positions.size() - first));
    for (int place = 0; place < batch.noOfBoards; ++place) {
      batch.deals[place] = positions[first + place];
      batch.target[place] = kMostTricks;
      batch.solutions[place] = kAllCards;
      batch.mode[place] = mode;
    }
    Expect(SolveAllChunksBin(&batch, &solved, 1));
    answers.insert(answers.end(), solved.solvedBoard, solved.solvedBoard + batch.noOfBoards);
  }
}

void PrintCard(int suit, int rank, int score) { std::printf("%c%c %d ", kSuits[suit], kRanks[rank - kLowest], score); }

// Prints each card with its score. DDS names the highest of equal cards, and `equals` has a bit for each of the others.
void PrintScores(const futureTricks& answer) {
  for (int place = 0; place < answer.cards; ++place) {
    PrintCard(answer.suit[place], answer.rank[place], answer.score[place]);
    for (int rank = kLowest; rank < kLowest + 13; ++rank)
      if (answer.equals[place] >> rank & 1) PrintCard(answer.suit[place], rank, answer.score[place]);
  }
  std::puts("");
}

}  // namespace

int main(int count, char** words) {
  const int most = count > 1 ? std::atoi(words[1]) : 0;
  const int mode = count > 2 ? std::atoi(words[2]) : 1;
  if (most < 0 || most > MAXNOOFBOARDS) return 2;
  SetMaxThreads(1);
  std::vector<deal> positions;
  for (std::string line; std::getline(std::cin, line);) positions.push_back(ReadPosition(line));
  std::vector<futureTricks> answers;
  const std::clock_t start = std::clock();
  if (most == 0)
    SolveEach(positions, mode, answers);
  else
    SolveBatches(positions, static_cast<std::size_t>(most), mode, answers);
  const std::clock_t taken = std::clock() - start;
  for (const futureTricks& answer : answers) PrintScores(answer);
  std::fprintf(stderr, "%.0f\n", 1e6 * static_cast<double>(taken) / CLOCKS_PER_SEC);
}
