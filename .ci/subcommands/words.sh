# A part of .ci/program: the words of the command line, which are not of one subcommand alone.
run table --budget 0 <examples/club.pbn
expect "steps out of their range for tables" 2 "$NO_STEPS"
said="$("$program" table --help | sed -nE 's/^ +--([a-z-]+) <([A-Z]+)>.*\[default: .*\]$/\1|\2/p' | sort)"
ended=0
expect "the options with a number" 0 "$(cut -d '|' -f 1,2 <<<"$OPTIONS" | sort)"
while IFS='|' read -r -u 3 option value first last; do
    for number in "$first" "$last"; do
        run table "--$option" "$number" </dev/null
        expect "--$option $number" 0 $'% PBN 2.1\n'"$NO_BOARD"
    done
    for number in $([[ "$first" == 0 ]] || echo $((first - 1))) $((last + 1)) 9223372036854775807; do
        run table "--$option=$number" </dev/null
        expect "--$option=$number" 2 "$(out_of_range "$option" "$value" "$first" "$number" "$last")"
    done
done 3<<<"$OPTIONS"
run table --term=9223372036854775808 </dev/null
expect "a term that is too large to be read" 2 "$TOO_LARGE"
run table --tries=-1 </dev/null
expect "tries below 0" 2 "$(out_of_range tries TRIES 1 -1 1000)"
run table --term=-1 </dev/null
expect "a term below 0" 2 "$(out_of_range term SECONDS 0 -1 1000000000)"
run --version
expect "the version" 0 "$VERSION"
run table --term -1 </dev/null
expect "a term that looks like an option" 2 "$NO_TERM"
run table --term x </dev/null
expect "a term that is no number" 2 "$NO_NUMBER"
run table --batch x </dev/null
expect "a batch that is no number" 2 "${NO_NUMBER/--term <SECONDS>/--batch <ENTRIES>}"
run plain $'\xff' E NT
expect "a word that is not UTF-8" 2 "ddfarm: a word of the command line is not UTF-8"
ended=0; said="$("$program" --help 2>&1 >/dev/full)" || ended=$?
expect "a full output of help" 1 "$WRITING"
