# A part of .ci/program: `plays`. The page that is wanted has DDS's numbers (bench/plays/expected.py).
PLAYS_NOTES="ddfarm: note: 2 games have no play
ddfarm: note: 3 games lack their deal, their contract or their declarer
ddfarm: note: 3 plays end at a card that is not legal
ddfarm: note: 1 play ends at an irregularity, or at a word that is no card"
run plays examples/plays.pbn
expect "plays of each kind" 3 "$(cat examples/plays.txt)"$'\n\n'"$PLAYS_NOTES"
ended=0
said="$("$program" plays --solvers 1 --mistakes - <examples/plays.pbn 2>&1)" || ended=$?
expect "the mistakes of plays, by one solver" 3 "$(
    grep -v '^start\|^end\|^[0-9]* [NESW] [SHDC]. [0-9]*$' examples/plays.txt)"$'\n\n'"$PLAYS_NOTES"
# The sheet, read by its elements, shows the same.
ended=0
said="$("$program" plays --sheet examples/plays.pbn 2>/dev/null | bench/sheet/play_reading.py - |
    cmp - examples/plays.txt 2>&1)" || ended=$?
expect "a sheet of plays" 3 ""
run plays --sheet --mistakes </dev/null
expect "a sheet of mistakes" 2 "${TWO_PAGES/whole/mistakes}"
ended=0; said="$("$program" plays --sheet <<<"$BOARD" 2>&1 >/dev/full)" || ended=$?
expect "a full output of a sheet of plays" 1 "$WRITING"
ended=0; said="$(bench/sheet/play_hostile.py "$program" 2>&1 >/dev/null)" || ended=$?
expect "values of plays that look like markup" 0 ""
if [[ -n "$(type -P chromium)" ]]; then
    page="$(mktemp --suffix .html)"
    "$program" plays --sheet examples/plays.pbn >"$page" 2>/dev/null || true
    ended=0
    said="$(timeout 100 chromium --headless --no-sandbox --disable-gpu --dump-dom "file://$page" 2>/dev/null |
        bench/sheet/play_reading.py --any - | cmp - examples/plays.txt 2>&1)" || ended=$?
    expect "a sheet of plays in Chromium" 0 ""
    ended=0; said="$(bench/sheet/places.py "$page" 2>&1)" || ended=$?
    expect "places on a sheet of plays" 0 ""
    "$program" plays --sheet --budget 1 examples/plays.pbn >"$page" 2>/dev/null || true
    ended=0; said="$(bench/sheet/places.py "$page" 2>&1)" || ended=$?
    expect "places on a sheet of plays without numbers" 0 ""
    rm "$page"
fi
# Evidence of plays: what is kept shows the same numbers without a search, and changed evidence shows no other.
kept="$(mktemp -d)"
run plays --evidence "$kept/all.dpp" examples/plays.pbn
expect "plays whose evidence is kept" 3 "$(cat examples/plays.txt)"$'\n\n'"$PLAYS_NOTES"
run plays --audit "$kept/all.dpp" examples/plays.pbn
expect "plays by their evidence" 3 "$(cat examples/plays.txt)"$'\n\n'"$PLAYS_NOTES"
run plays --evidence "$kept/all.dpp" </dev/null
expect "a file of evidence of plays that is there" 1 \
    "% ddfarm plays 1"$'\n'"$NO_BOARD"$'\n'"$(unopened evidence "$kept/all.dpp" "the file is there already")"
run plays --audit "$kept/none.dpp" </dev/null
expect "evidence of plays that isn't there" 1 "$(unopened evidence "$kept/none.dpp" "no such file")"
run plays --audit "$kept/all.dpp" --evidence "$kept/none.dpp" </dev/null
expect "two files of evidence of plays" 2 "error: the argument '--evidence' cannot be used with '--audit'

Usage: ddfarm <COMMAND>

For more information, try '--help'."
# The second game, its block on a page, and its section.
awk 'BEGIN { RS = "" } NR == 3' examples/plays.pbn >"$kept/one.pbn"
page="% ddfarm plays 1"$'\n'"$(awk 'BEGIN { RS = "" } NR == 2' examples/plays.txt)"
awk '/^DPP 1$/ { sections++ } sections == 2' "$kept/all.dpp" >"$kept/one.dpp"
run plays --audit "$kept/one.dpp" "$kept/one.pbn"
expect "a play by its section" 0 "$page"
run plays --audit <(sed '0,/^10 /s//11 /' "$kept/one.dpp") "$kept/one.pbn"
expect "evidence of a trick too many" 3 "$(sed 's/^start 10/start unknown/
    s/^lost N 0 E 0 S 0 W 0/lost N 0 E 0 S 0 W unknown/' <<<"$page")

ddfarm: note: 1 number is unknown: the evidence does not show it"
unshown="$(head -n 4 <<<"$page")
lost N unknown E unknown S unknown W unknown"
run plays --mistakes --audit <(sed 's/^trump S/trump  S/' "$kept/one.dpp") "$kept/one.pbn"
expect "a damaged section of a play" 3 "$unshown

ddfarm: evidence: 1 section is damaged, at byte 0
ddfarm: note: 13 numbers are unknown: the evidence does not show them"
for change in 's/^leader W/leader N/' '/^played/s/ ..$//' '/^deal/{s/T/X/; s/9/T/; s/X/9/}'; do
    run plays --mistakes --audit <(sed "$change" "$kept/one.dpp") "$kept/one.pbn"
    expect "evidence of another play ($change)" 3 "$unshown

ddfarm: note: 13 numbers are unknown: the evidence does not show them"
done
rm -r "$kept"
# A LIN file, by the script that reads it. The numbers that are wanted are DDS's, as above.
ended=0
said="$(./ddfarm-lin <examples/bbo.lin | "$program" plays 2>/dev/null)" || ended=$?
expect "plays of a LIN file" 0 "$(cat examples/bbo.txt)"
