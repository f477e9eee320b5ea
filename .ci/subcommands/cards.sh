# A part of .ci/program: `cards`, the tricks after each card, and its evidence.
cards=("${FINESSE[@]:1}")
kept="$(mktemp -d)"
run cards "${cards[@]}"
expect "the cards of a finesse before the lead" 0 $'S to play\n2  S3 S2'
run cards "${cards[@]}" S2 4s
expect "the cards of a finesse" 0 $'N to play\n2  SQ\n1  SA'
run cards "${cards[@]}" S2 SK sA
expect "the cards of a last hand" 0 $'E to play\n0  S6 S5'
run cards "${cards[@]}" SA
expect "a card that isn't held" 2 $'ddfarm: card 1: 2 NotHeld\n  the seat to play does not hold this card'
run cards "N:A... 2... 3... 4..." N NT SA h10x
expect "a word that names no card" 2 $'ddfarm: card 2: 1 NoCard\n  a card is its suit and its rank, as SQ, h10 or 9d'
run cards "N:A2... K.K.. 43... 65..." N NT SA HK
expect "a card that doesn't follow suit" 2 \
    $'ddfarm: card 2: 3 MustFollow\n  the seat to play has a card of the suit led, and must follow suit'
run cards --budget 1 "${cards[@]}"
expect "cards in too few steps" 3 "$NO_ANSWER"
run cards --evidence "$kept/a.ddp" --audit "$kept/a.ddp" "${cards[@]}"
expect "two files of evidence of cards" 2 "error: the argument '--evidence' cannot be used with '--audit'

Usage: ddfarm <COMMAND>

For more information, try '--help'."
run cards --evidence "$kept/a.ddp" "${cards[@]}" S2 S4
expect "cards whose evidence is kept" 0 $'N to play\n2  SQ\n1  SA'
run cards --evidence "$kept/a.ddp" "${cards[@]}" S2 S4
expect "a file of evidence that is there" 1 "$(unopened evidence "$kept/a.ddp" "the file is there already")"
run cards --audit "$kept/a.ddp" "${cards[@]}" S2 S4
expect "cards by their evidence" 0 $'N to play\n2  SQ\n1  SA'
run cards --audit "$kept/a.ddp" "${cards[@]}" S2
expect "evidence of other cards played" 4 "refused 2 Position"
run cards --audit <(sed 's/^SQ 2$/SQ 1/' "$kept/a.ddp") "${cards[@]}" S2 S4
expect "evidence of a trick too few" 4 "refused 5 Player SQ RootNeed"
run cards --audit <(sed '/^SA 1$/,+2d; s/^claims 2$/claims 1/' "$kept/a.ddp") "${cards[@]}" S2 S4
expect "evidence without a card" 4 "refused 3 ClaimMissing SA"
run cards --audit <(tail -n +2 "$kept/a.ddp") "${cards[@]}" S2 S4
expect "a text that is no evidence of cards" 4 "refused 1 Text"
run cards --audit "$kept/b.ddp" "${cards[@]}"
expect "evidence of cards that isn't there" 1 "$(unopened evidence "$kept/b.ddp" "no such file")"
ended=0; said="$("$program" cards "${cards[@]}" 2>&1 >/dev/full)" || ended=$?
expect "a full output of cards" 1 "$WRITING"
rm -r "$kept"
