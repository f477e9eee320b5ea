# A part of .ci/program: `audit`, by evidence that was written by hand and may come from a pipe.
ended=0
said="$("$program" audit "$EVIDENCE" <examples/suits.pbn | cmp - examples/suits-tables.pbn 2>&1)" || ended=$?
expect "an audit" 0 ""
ended=0
said="$("$program" audit <(tac -s $'DDE 1\n' -b "$EVIDENCE" | cat - <(echo "$FOREIGN")) <examples/suits.pbn |
    cmp - examples/suits-tables.pbn 2>&1)" || ended=$?
expect "an audit from a pipe" 0 ""
ended=0; said="$(two_boards | "$program" audit "$EVIDENCE" | cmp - <(two_tables) 2>&1)" || ended=$?
expect "an audit of two boards of one deal" 0 ""
ended=0
said="$("$program" audit --whole "$EVIDENCE" <examples/suits.pbn | cmp - <(whole_of suits) 2>&1)" || ended=$?
expect "an audit as a whole" 0 ""
run audit "$EVIDENCE" <<<"$BOARD"
expect "an audit of a board without a deal" 3 $'% PBN 2.1\n'"$BOARD"$'\n; table incomplete: 0 of 20\n\n'"$UNDEALT"
run audit <(echo "$FOREIGN") <examples/suits.pbn
expect "an audit by foreign evidence" 3 $'% PBN 2.1\n'"$(
    cat examples/suits.pbn)"$'\n; table incomplete: 0 of 20\n\n'"$UNSHOWN"
# The page is handed on before anything is said of it.
run audit <(echo "$FOREIGN"; echo "DDE 1"; head -n 3 "$EVIDENCE") </dev/null
expect "an audit by damaged evidence" 0 \
    $'% PBN 2.1\nddfarm: evidence: 2 sections are damaged, the first at byte 254\n'"$NO_BOARD"
last="$(grep -b '^DDE 1$' "$EVIDENCE" | tail -n 1 | cut -d : -f 1)"
run audit <(head -c -1 "$EVIDENCE") <examples/suits.pbn
expect "an audit by evidence that was cut off" 3 "$(
    echo "% PBN 2.1"; cat examples/suits.pbn; echo "; table incomplete: 16 of 20"; echo
    echo "ddfarm: evidence: 1 section is damaged, at byte $last"; echo "$UNSHOWN")"
run audit . <examples/suits.pbn
expect "an audit by a directory" 1 "ddfarm: evidence: $UNREAD"
run audit "$EVIDENCE/suits" <examples/suits.pbn
expect "an audit by a file that isn't there" 1 "$(unopened evidence "$EVIDENCE/suits" "no such file")"
run audit "" <<<"{"
expect "an audit by a file without a name" 1 "$(unopened evidence "" "no such file")"
said="$({ "$program" audit "$EVIDENCE/suits" 2>&1 || cat; } <<<"the next line")" && ended=$? || ended=$?
expect "an input left where the file can't be opened" 0 "$(
    unopened evidence "$EVIDENCE/suits" "no such file"; echo "the next line")"
run audit "$EVIDENCE" <<<"{"
expect "an audit of a refused text" 2 "ddfarm: line 1: $OPEN_COMMENT"
ended=0; said="$("$program" audit "$EVIDENCE" <examples/suits.pbn 2>&1 >/dev/full)" || ended=$?
expect "a full output of an audit" 1 "$WRITING"
ended=0; said="$("$program" audit <(echo x) </dev/null 2>/dev/full)" || ended=$?
expect "a full error output of an audit" 0 "% PBN 2.1"

run audit --par "$EVIDENCE" examples/suits.pbn
expect "an audit with pars" 0 "$(sed '/^\[Deal/a [Dealer "N"]\n[Vulnerable "None"]\n[OptimumScore "NS 1510"]\
[ParContract "NS 7S"]' examples/suits-tables.pbn)"
for lacks in dealer vulnerability; do
    said="$(sed "s/^\[Board.*/[Dealer \"${lacks/dealer/?}\"]/; s/\"vulnerability\"/\"E\"/" examples/suits.pbn |
        "$program" audit --par "$EVIDENCE" 2>&1)" && ended=0 || ended=$?
    expect "no $lacks" 0 "$(sed "s/^\[Board.*/[Board \"\"]/; /^\[Deal/a ; par unknown: no $lacks" \
        examples/suits-tables.pbn)"
done
