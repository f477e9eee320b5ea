# A part of .ci/program: `line`, lines of play.
run line "${FINESSE[1]}" E NT < <(finesse_answer)
expect "a line" 0 "$FOLLOWED"
run line "${ACE[@]}" < <("$program" solve "${ACE[@]}")
expect "a line of an answer that was found" 0 $'accepted 1\n1 E: SK SQ SJ SA N\ndeclarer 1, defenders 0'
run line "${FINESSE[1]}" E NT < <(finesse_answer | sed '1s/0/1/')
expect "a line of a wrong answer" 4 "refused declarer 1 RootMissing"
run line "${FINESSE[1]}" E NT <<<"result"
expect "a line of a text that is no answer" 2 "$NO_RESULT"
run line "${ACE[0]/K/A}" N NT </dev/null
expect "a line of a refused layout" 2 "$CARD_TWICE"
ended=0; said="$(finesse_answer | "$program" line "${FINESSE[1]}" E NT 2>&1 >/dev/full)" || ended=$?
expect "a full output of a line" 1 "$WRITING"
