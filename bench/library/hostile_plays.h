/* The calls of hostile.c that analyse plays. It includes this file behind its own functions. */
#ifndef BENCH_LIBRARY_HOSTILE_PLAYS_H
#define BENCH_LIBRARY_HOSTILE_PLAYS_H

/* Some numbers changed, or a card played twice, which nobody holds by then. */
static void spoil_play(struct playTraceBin *play)
{
    int place = 1 + roll(51);
    if (roll(3) == 0) {
        play->suit[place] = play->suit[place - 1];
        play->rank[place] = play->rank[place - 1];
    }
    if (roll(8))
        return;
    mark = " lax"; /* DDS looks numbers up that no card has, and goes on after a revoke */
    play->number = number(0, 52);
    play->suit[place] = number(0, 3);
    play->rank[place] = number(2, 14);
}

static struct deal hostile_play(struct playTraceBin *play)
{
    int cards = 2 + roll(3), played = roll(4);
    struct deal deal = position(cards, played);
    *play = random_play(deal, played, roll(2) ? 52 : roll(4 * cards));
    spoil_play(play);
    if (roll(4) == 0) {
        deal = hostile_position();
        mark = " lax"; /* the play is of other cards */
    }
    return deal;
}

static void say_play(int code, const struct solvedPlay *solved)
{
    say_code(code, solved, sizeof *solved);
    for (int i = 0; code == 1 && i < solved->number; i++)
        say(" %d", solved->tricks[i]);
}

static void call_analyse_play(void)
{
    struct playTraceBin play;
    struct solvedPlay solved = {0};
    struct deal deal = hostile_play(&play);
    say_play(AnalysePlayBin(deal, play, &solved, number(0, 0)), &solved);
}

static void call_analyse_play_pbn(void)
{
    struct playTraceBin play;
    struct solvedPlay solved = {0};
    struct deal deal = hostile_play(&play);
    struct playTracePBN text = play_text(&play);
    if (roll(6) == 0)
        text.cards[roll(2 * 52)] = "SHDCshdcxX09tT\377"[roll(15)], mark = " lax";
    say_play(AnalysePlayPBN(position_text(&deal), text, &solved, 0), &solved);
}

/* Counts that differ, or that are too many or none. Two plays are there. */
static void all_plays(int with_text)
{
    static struct boards boards;
    static struct boardsPBN texts;
    static struct playTracesBin plays;
    static struct playTracesPBN play_texts;
    static struct solvedPlays solved;
    for (int i = 0; i < 2; i++) {
        boards.deals[i] = hostile_play(&plays.plays[i]);
        texts.deals[i] = position_text(&boards.deals[i]);
        play_texts.plays[i] = play_text(&plays.plays[i]);
    }
    boards.noOfBoards = texts.noOfBoards = roll(8) ? 2 : roll(2) ? 201 : -1;
    plays.noOfBoards = play_texts.noOfBoards = roll(8) ? boards.noOfBoards : roll(3);
    if (boards.noOfBoards != 2)
        mark = " lax"; /* DDS reads boards that aren't there */
    memset(&solved, 0, sizeof solved);
    int code = with_text ? AnalyseAllPlaysPBN(&texts, &play_texts, &solved, number(0, 9))
                         : AnalyseAllPlaysBin(&boards, &plays, &solved, number(0, 9));
    say(" %d", code);
    for (int i = 0; code == 1 && i < boards.noOfBoards; i++)
        say_play(code, &solved.solved[i]);
}

static void call_all_plays(void) { all_plays(0); }
static void call_all_plays_pbn(void) { all_plays(1); }

#endif
