# A part of .ci/program: the sheets of `table --sheet` and `audit --sheet`, read by their elements, and by Chromium if
# it is installed.
ended=0; said="$(bench/sheet/hash.py --check 2>&1)" || ended=$?
expect "the hash of the style" 0 ""
ended=0
said="$("$program" audit --sheet "$EVIDENCE" examples/suits.pbn | bench/sheet/reading.py - |
    cmp - examples/suits-tables.pbn 2>&1)" || ended=$?
expect "the sheet of an audit" 0 ""
ended=0
said="$("$program" table --sheet <examples/club.pbn | bench/sheet/reading.py --par - |
    cmp - examples/club-pars.pbn 2>&1)" || ended=$?
expect "a sheet with pars" 0 ""
ended=0
said="$("$program" audit --sheet --par "$EVIDENCE" examples/suits.pbn |
    cmp - <("$program" audit --sheet "$EVIDENCE" examples/suits.pbn) 2>&1)" || ended=$?
expect "a sheet for which pars are asked" 0 ""
ended=0; said="$({ "$program" table --sheet <<<"$BOARD" | bench/sheet/reading.py -; } 2>&1)" || ended=$?
expect "a board without a deal on a sheet" 0 \
    "$UNDEALT"$'\n% PBN 2.1\n'"$BOARD"$'\n; table incomplete: 0 of 20'
ended=0
said="$({ "$program" audit --sheet <(echo "$FOREIGN") examples/suits.pbn | bench/sheet/reading.py -; } 2>&1)" ||
    ended=$?
expect "an incomplete table on a sheet" 3 "$UNSHOWN"$'\n% PBN 2.1\n'"$(
    cat examples/suits.pbn)"$'\n; table incomplete: 0 of 20'
for words in table "audit $EVIDENCE"; do
    run $words --whole --sheet </dev/null
    expect "two pages: $words" 2 "$TWO_PAGES"
done
run table --sheet <<<"{"
expect "a refused text on a sheet" 2 "ddfarm: line 1: $OPEN_COMMENT"
ended=0; said="$("$program" table --sheet <<<"$BOARD" 2>&1 >/dev/full)" || ended=$?
expect "a full output of a sheet" 1 "$WRITING"
ended=0; said="$(bench/sheet/hostile.py "$program" 2>&1 >/dev/null)" || ended=$?
expect "values that look like markup" 0 ""
if [[ -n "$(type -P chromium)" ]]; then
    page="$(mktemp --suffix .html)"
    "$program" audit --sheet "$EVIDENCE" examples/suits.pbn >"$page"
    ended=0
    said="$(timeout 100 chromium --headless --no-sandbox --disable-gpu --dump-dom "file://$page" 2>/dev/null |
        bench/sheet/reading.py --any - | cmp - examples/suits-tables.pbn 2>&1)" || ended=$?
    expect "a sheet in Chromium" 0 ""
    # Where Chromium puts hands, marks and numbers, on screens and as for print, and whether they are seen.
    ended=0; said="$(bench/sheet/places.py "$page" 2>&1)" || ended=$?
    expect "places on a sheet" 0 ""
    "$program" table --sheet <examples/club.pbn >"$page"
    ended=0; said="$(bench/sheet/places.py "$page" 2>&1)" || ended=$?
    expect "places on a sheet with pars" 0 ""
    rm "$page"
else
    echo "program: no sheet is tried in Chromium: chromium is not installed" >&2
fi
