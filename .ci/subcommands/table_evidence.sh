# A part of .ci/program: `table --evidence`. The tables are the same with nothing in the file, with all, behind a run
# that was killed, and by two runs at one file.
room="$(mktemp -d)"
kept="$room/club.dde"
run table --evidence "$kept" examples/none.pbn </dev/null
expect "boards that aren't there" 1 "$(unopened boards examples/none.pbn "no such file")"
run audit "$kept" examples/suits.pbn </dev/null
expect "no file is made before the boards are opened" 1 "$(unopened evidence "$kept" "no such file")"
ended=0
said="$("$program" table --evidence "$kept" <examples/suits.pbn | cmp - examples/suits-tables.pbn 2>&1)" || ended=$?
expect "tables whose evidence is kept" 0 ""
ended=0; said="$("$program" audit "$kept" <examples/suits.pbn | cmp - examples/suits-tables.pbn 2>&1)" || ended=$?
expect "an audit of what was kept" 0 ""
size="$(stat -c %s "$kept")"
ended=0
said="$("$program" table --evidence "$kept" --tries 1 --budget 1 <examples/suits.pbn |
    cmp - examples/suits-tables.pbn 2>&1; stat -c %s "$kept")" || ended=$?
expect "tables of what was kept, without a search" 0 "$size"
ended=0
said="$("$program" table --progress --evidence "$kept" <examples/suits.pbn 2>&1 >/dev/null | last_line)" || ended=$?
expect "progress by what was kept" 0 "ddfarm: 20 of 20 results, 1 of 1 boards, t s, 0 tables incomplete"
for turn in 1 2 3; do
    ended=0
    said="$("$program" table --solvers 2 --evidence "$room/two.dde" <examples/suits.pbn |
        cmp - examples/suits-tables.pbn 2>&1)" || ended=$?
    expect "tables of what two solvers kept, turn $turn" 0 ""
done
head -c -2 "$kept" >"$room/cut.dde"
run table --evidence "$room/cut.dde" <examples/suits.pbn
expect "tables by evidence that was cut off" 0 "$(
    cat examples/suits-tables.pbn
    echo "ddfarm: evidence: 1 section is damaged, at byte $(grep -b '^DDE 1$' "$kept" | tail -n 1 | cut -d : -f 1)")"
ended=0
said="$("$program" audit "$room/cut.dde" <examples/suits.pbn 2>/dev/null |
    cmp - examples/suits-tables.pbn 2>&1)" || ended=$?
expect "an audit of what was added behind it" 0 ""
for turn in 1 2 3 4 5 6 7 8 9 0; do
    (timeout -s KILL "0.${turn}5" "$program" table --evidence "$room/killed.dde" <examples/club.pbn) \
        >/dev/null 2>&1 || true
done
ended=0
said="$("$program" table --solvers 4 --evidence "$room/killed.dde" <examples/club.pbn 2>/dev/null |
    cmp - examples/club-tables.pbn 2>&1)" || ended=$?
expect "tables behind ten runs that were killed" 0 ""
ended=0
said="$("$program" audit "$room/killed.dde" <examples/club.pbn 2>/dev/null |
    cmp - examples/club-tables.pbn 2>&1)" || ended=$?
expect "an audit of what they kept" 0 ""
"$program" table --evidence "$room/both.dde" <examples/club.pbn >/dev/null &
"$program" table --evidence "$room/both.dde" <examples/club.pbn >/dev/null
wait
run audit "$room/both.dde" <examples/club.pbn
expect "an audit of what two runs kept in one file" 0 "$(cat examples/club-tables.pbn)"
# Claims that are false take nothing away, were they in front of true ones more often than an entry is tried.
awk '/^[NESW] [0-9]+ [-0-9]+ [-0-9]+$/ { $2++ } 1' "$room/both.dde" >"$room/raised.dde"
cat "$room"/raised.dde{,,,} "$room/both.dde" >"$room/behind.dde"
sed '$s/[0-8]/9/' "$room/both.dde" >"$room/digit.dde"
for false in raised behind digit; do
    for solvers in 1 2 4 8; do
        cp "$room/$false.dde" "$room/false.dde"
        ended=0
        said="$("$program" table --solvers "$solvers" --evidence "$room/false.dde" <examples/club.pbn 2>/dev/null |
            cmp - examples/club-tables.pbn 2>&1)" || ended=$?
        expect "tables beside false evidence, $false, $solvers solvers" 0 ""
    done
done
run table --evidence "$room" <examples/suits.pbn
expect "evidence that is a directory" 1 "$(unopened evidence "$room" "not a regular file")"
run table --evidence /dev/full <examples/suits.pbn
expect "evidence that is a device" 1 "$(unopened evidence /dev/full "not a regular file")"
run table --evidence "$room/none/club.dde" <examples/suits.pbn
expect "evidence in a folder that isn't there" 1 "$(unopened evidence "$room/none/club.dde" "no such file")"
printf '[Event "Club"]' >"$room/own.pbn"
run table --evidence "$room/own.pbn" <examples/suits.pbn
expect "a PBN file for evidence" 1 "$(unopened evidence "$room/own.pbn" "a PBN file, not a file of evidence")"
ended=0
said="$(<"$room/own.pbn")"
expect "a PBN file that stays as it was" 0 '[Event "Club"]'
chmod a-w "$kept"
run_bound table --evidence "$kept" <examples/suits.pbn
expect "evidence that can only be read" 0 "$(cat examples/suits-tables.pbn)"$'\n\n'"$READ_ONLY"
run_bound table --evidence "$kept" <examples/club.pbn
expect "evidence that can't be added to" 1 "$(cat examples/club-tables.pbn)"$'\n\n'"$READ_ONLY"$'\n'"$UNWRITTEN"
chmod 0 "$kept"
run_bound table --evidence "$kept" <examples/suits.pbn
expect "evidence that may not be read" 1 "$(unopened evidence "$kept" "permission denied")"
ended=0
said="$(trap '' XFSZ; ulimit -f 1; exec "$program" table --evidence "$room/full.dde" <examples/suits.pbn 2>&1)" ||
    ended=$?
expect "evidence that finds no room" 1 "$(cat examples/suits-tables.pbn)"$'\n\n'"$UNWRITTEN"
rm -rf "$room"
