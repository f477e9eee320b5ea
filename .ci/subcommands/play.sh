# A part of .ci/program: `play`, against the certificate of an answer, which may come from a pipe.
ended=0
said="$(printf '\n\n' | "$program" play "${ACE[@]}" <("$program" solve "${ACE[@]}") 2>&1)" || ended=$?
expect "a play to its end" 0 "$ACE_PLAYED"
# Each text is there before the next line is typed.
coproc PLAY { timeout 60 "$program" play "${ACE[@]}" <(echo "$ANSWER") 2>&1; }
player="$PLAY_PID"
exec {heard}<&"${PLAY[0]}" {typed}>&"${PLAY[1]}"
said=""
while read -rt 20 line <&"$heard"; do
    said+="$line"$'\n'
    [[ "$line" != *" to play" ]] || echo >&"$typed"
done
ended=0; wait "$player" || ended=$?
exec {heard}<&- {typed}>&-
said="${said%$'\n'}"
expect "a play line by line" 0 "$ACE_PLAYED"
ended=0; said="$("$program" play "${ACE[@]}" <(echo "$ANSWER") <<<"quit" 2>&1 | tail -n 3)" || ended=$?
expect "a play that is ended" 0 $'played\nNS 0, EW 0\nNS promised 1'
ended=0; said="$("$program" play "${ACE[@]}" <(echo "$ANSWER") 2>&1 <<<"SK" >/dev/null)" || ended=$?
expect "a play whose input ends" 3 ""
run play "${ACE[@]}" <(echo "$ANSWER") --side defenders </dev/null
expect "a play for the other side" 3 "$DEFENDERS_BEGIN"
run play "${ACE[@]}" <(sed '1s/1/0/' <<<"$ANSWER") </dev/null
expect "a play by a wrong answer" 4 "refused declarer 2 RootNeedless"
run play "${ACE[@]}" "$EVIDENCE/suits" </dev/null
expect "a play by a file that isn't there" 1 "$(unopened answer "$EVIDENCE/suits" "no such file")"
run play "${ACE[@]}" . </dev/null
expect "a play by a directory" 1 "ddfarm: answer: $UNREAD"
run play "${ACE[@]}" <(echo result) </dev/null
expect "a play by a text that is no answer" 2 "$NO_RESULT"
ended=0; said="$("$program" play "${ACE[@]}" <(echo "$ANSWER") 2>&1 </dev/null >/dev/full)" || ended=$?
expect "a full output of a play" 1 "$WRITING"
ended=0; said="$("$program" play "${ACE[@]}" <(echo "$ANSWER") 2>&1 </dev/null >&-)" || ended=$?
expect "a closed output of a play" 1 "$WRITING"
