// Reads plays, one per line, and prints for each the tricks of declarer's side before its first card and after each, by
// DDS. At the end it prints on the error output the microseconds of the processor that DDS took.
//
// A play is LAYOUT|LEADER|TRUMP|CARDS: a Deal value, the seat that leads, the denomination (NT, S, H, D, C), and the
// cards played, with blanks between them. DDS has no number after a card of the last trick.
//
// Usage: analyse_plays [BATCH] <plays, BATCH the number of plays that one call takes: 0, the default, is
// AnalysePlayBin, and 1 to 200 AnalyseAllPlaysBin.
#include <dds/dll.h>

#include <algorithm>
#include <cstdio>
#include <cstdlib>
#include <ctime>
#include <iostream>
#include <sstream>
#include <string>
#include <vector>

namespace {

const std::string kSeats = "NESW";
const std::string kSuits = "SHDC";
const std::string kRanks = "23456789TJQKA";
constexpr int kLowest = 2;  // DDS's number of the lowest rank.
constexpr int kNoTrump = 4;
constexpr int kMostTricks = -1;  // The target: the most tricks that can be won.

struct Play {
  deal start = {};
  playTraceBin cards = {};
};

// Takes the cards of a Deal value.
void ReadHands(const std::string& layout, deal& start) {
  std::size_t seat = kSeats.find(layout[0]);
  std::istringstream hands(layout.substr(2));
  for (std::string hand; hands >> hand; seat = (seat + 1) % 4) {
    int suit = 0;
    for (char letter : hand) {
      if (letter == '.')
        ++suit;
      else
        start.remainCards[seat][suit] |= 1u << (kRanks.find(letter) + kLowest);
    }
  }
}

// The play that a line names.
Play ReadPlay(const std::string& line) {
  std::istringstream fields(line);
  std::string layout, leader, trump, cards;
  std::getline(fields, layout, '|');
  std::getline(fields, leader, '|');
  std::getline(fields, trump, '|');
  std::getline(fields, cards);
  Play play;
  play.start.trump = trump == "NT" ? kNoTrump : static_cast<int>(kSuits.find(trump));
  play.start.first = static_cast<int>(kSeats.find(leader));
  ReadHands(layout, play.start);
  std::istringstream words(cards);
  for (std::string card; words >> card; ++play.cards.number) {
    play.cards.suit[play.cards.number] = static_cast<int>(kSuits.find(card[0]));
    play.cards.rank[play.cards.number] = static_cast<int>(kRanks.find(card[1])) + kLowest;
  }
  return play;
}

// Ends the program if a call failed.
void Expect(int status) {
  if (status == RETURN_NO_FAULT) return;
  char text[80];
  ErrorMessage(status, text);
  std::fprintf(stderr, "analyse_plays: %s\n", text);
  std::exit(1);
}

// Analyses each play by a call of its own.
void AnalyseEach(const std::vector<Play>& plays, std::vector<solvedPlay>& answers) {
  for (const Play& play : plays) {
    solvedPlay answer = {};
    Expect(AnalysePlayBin(play.start, play.cards, &answer, 0));
    answers.push_back(answer);
  }
}

// Analyses the plays in batches.
void AnalyseBatches(const std::vector<Play>& plays, std::size_t most, std::vector<solvedPlay>& answers) {
  static boards batch;
  static playTracesBin traces;
  static solvedPlays solved;
  for (std::size_t first = 0; first < plays.size(); first += most) {
    batch.noOfBoards = traces.noOfBoards = static_cast<int>(std::min(most, plays.size() - first));
    for (int place = 0; place < batch.noOfBoards; ++place) {
      batch.deals[place] = plays[first + place].start;
      batch.target[place] = kMostTricks;
      batch.solutions[place] = batch.mode[place] = 1;
      traces.plays[place] = plays[first + place].cards;
    }
    Expect(AnalyseAllPlaysBin(&batch, &traces, &solved, 1));
    answers.insert(answers.end(), solved.solved, solved.solved + batch.noOfBoards);
  }
}

}  // namespace

int main(int count, char** words) {
  const int most = count > 1 ? std::atoi(words[1]) : 0;
  if (most < 0 || most > MAXNOOFBOARDS) return 2;
  SetMaxThreads(1);
  std::vector<Play> plays;
  for (std::string line; std::getline(std::cin, line);) plays.push_back(ReadPlay(line));
  std::vector<solvedPlay> answers;
  const std::clock_t start = std::clock();
  if (most == 0)
    AnalyseEach(plays, answers);
  else
    AnalyseBatches(plays, static_cast<std::size_t>(most), answers);
  const std::clock_t taken = std::clock() - start;
  for (const solvedPlay& answer : answers) {
    for (int place = 0; place < answer.number; ++place)
      std::printf("%s%d", place ? " " : "", answer.tricks[place]);
    std::puts("");
  }
  std::fprintf(stderr, "%.0f\n", 1e6 * static_cast<double>(taken) / CLOCKS_PER_SEC);
}
