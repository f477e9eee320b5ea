# A part of .ci/program: `solve`.
run solve "${ACE[@]}" --budget 3
expect "too few steps" 3 "$NO_ANSWER"
run solve "${ACE[@]}" --budget 1
expect "one step" 3 "$NO_ANSWER"
run solve "${ACE[@]}" --budget 1000000000
expect "the most steps" 0 "$ANSWER"
run solve "${ACE[@]}" --budget 1000000001
expect "more than the most steps" 2 "$(out_of_range budget STEPS 1 1000000001 1000000000)"
run solve "${ACE[@]}" --budget 0
expect "steps out of their range" 2 "$NO_STEPS"
run solve "N:A... A... Q... J..." N NT
expect "a refused layout to solve" 2 "$CARD_TWICE"
ended=0; said="$("$program" solve "${ACE[@]}" 2>&1 >/dev/full)" || ended=$?
expect "a full output of an answer" 1 "$WRITING"
