# A part of .ci/program: `check`.
run check "${ACE[@]}" <<<"$ANSWER"
expect "a right answer" 0 "accepted 1"
run check "${ACE[@]}" <<<"result 1"
expect "a wrong answer" 4 "refused declarer 10 Text 1 Head line 1"
run check "${ACE[@]}" <<<"result"
expect "a text that is no answer" 2 "$NO_RESULT"
run check "${ACE[@]}" < <("$program" solve "${ACE[@]}")
expect "an answer that was found" 0 "accepted 1"
