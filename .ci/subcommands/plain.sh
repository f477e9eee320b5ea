# A part of .ci/program: `plain`, and 100 endings with the numbers of DDS (bench/dds/README.md).
run "${FINESSE[@]}"
expect "an ending" 0 "NS 2"
run plain "N:A... A... Q... J..." E NT
expect "a refused layout" 2 "$CARD_TWICE"
ended=0; said="$("$program" "${FINESSE[@]}" 2>&1 >/dev/full)" || ended=$?
expect "a full output" 1 "$WRITING"
ended=0; said="$("$program" "${FINESSE[@]}" 2>&1 >&-)" || ended=$?
expect "a closed output" 1 "$WRITING"
said="$({ "$program" "${FINESSE[@]}"; cat; } <<<"the next line")" && ended=$? || ended=$?
expect "an input left for the next program" 0 $'NS 2\nthe next line'

while IFS='|' read -r -u 3 layout leader trump tricks; do
    run plain "$layout" "$leader" "$trump"
    expect "$layout, $leader leads at $trump" 0 "NS $tricks"
done 3<bench/dds/endings.txt
