# A part of .ci/program: `table`.
run table </dev/null
expect "an empty input" 0 $'% PBN 2.1\n'"$NO_BOARD"
for threads in 1 2 64; do
    for options in "--batch 1" "--batch 7" "--batch 20"; do
        fill suits "$threads" 0 $options
        fill partners "$threads" 0 $options
        fill windows "$threads" 3 $options
    done
done
for threads in 1 4; do
    fill club "$threads" 0
done
fill club 4 0 --batch 1
run table --budget 1 --tries 1 --term 0 <<<"$BOARD"
expect "a board and a step" 3 $'% PBN 2.1\n'"$BOARD"$'\n; table incomplete: 0 of 20\n\n'"$UNDEALT"
run table --budget 3 <examples/suits.pbn
expect "too few steps for tables" 3 $'% PBN 2.1\n'"$(cat examples/suits.pbn)
; table incomplete: 0 of 20

ddfarm: note: 1 table is incomplete: 60 $OUT_OF_STEPS"
run table <<<"$BOARD"
expect "a board" 3 $'% PBN 2.1\n'"$BOARD"$'\n; table incomplete: 0 of 20\n\n'"$UNDEALT"
run table <<<"{"
expect "a refused text" 2 "ddfarm: line 1: $OPEN_COMMENT"
run table <.
expect "a directory as the input" 1 "ddfarm: reading failed"

# Redirections of the program alone, since the shell's own pipes would take the place of a closed stream.
ended=0; said="$("$program" table 2>&1 <&-)" || ended=$?
expect "a closed input" 1 "ddfarm: reading failed"
ended=0; said="$("$program" table <<<"$BOARD" 2>&1 >/dev/full)" || ended=$?
expect "a full output of tables" 1 "$WRITING"
ended=0; said="$("$program" table 2>/dev/full <<<"{")" || ended=$?
expect "a full error output" 2 ""

# What is told of the work, where it is asked for: the last line, but for its seconds.
ended=0; said="$("$program" table --progress <examples/suits.pbn 2>&1 >/dev/null | last_line)" || ended=$?
expect "progress" 0 "ddfarm: 20 of 20 results, 1 of 1 boards, t s, 0 tables incomplete"
ended=0; said="$("$program" table <examples/suits.pbn 2>&1 >/dev/null)" || ended=$?
expect "no progress" 0 ""
ended=0
said="$("$program" table --progress <examples/suits.pbn 2>/dev/null | cmp - examples/suits-tables.pbn 2>&1)" ||
    ended=$?
expect "tables beside progress" 0 ""

# The file itself with its tables in it, and that once more.
for name in suits club; do
    ended=0; said="$("$program" table --whole <"examples/$name.pbn" | cmp - <(whole_of "$name") 2>&1)" || ended=$?
    expect "$name as a whole" 0 ""
    ended=0
    said="$(whole_of "$name" | "$program" table --whole --progress 2>/dev/null | cmp - <(whole_of "$name") 2>&1)" ||
        ended=$?
    expect "$name with its tables as a whole" 0 ""
done
run table --whole <<<"$BOARD"
expect "a board without a deal as a whole" 0 "$BOARD"$'\n'"$UNDEALT"
run table --whole <<<"{"
expect "a refused text as a whole" 2 "ddfarm: line 1: $OPEN_COMMENT"
ended=0; said="$("$program" table --whole <<<"$BOARD" 2>&1 >/dev/full)" || ended=$?
expect "a full output of a whole text" 1 "$WRITING"

# Pars: DDS's for the example. A second run changes nothing, and without --par old ones stay.
ended=0; said="$("$program" table --par <examples/club.pbn | cmp - examples/club-pars.pbn 2>&1)" || ended=$?
expect "tables with pars" 0 ""
for options in "--whole --par" "--whole"; do
    ended=0
    said="$(whole_of club pars | "$program" table $options | cmp - <(whole_of club pars) 2>&1)" || ended=$?
    expect "table $options of a text with pars" 0 ""
done
ended=0
said="$("$program" table --whole --par <examples/club.pbn | cmp - <(whole_of club pars) 2>&1)" || ended=$?
expect "a whole text with pars" 0 ""

# Boards of a file that is named, or of a pipe, which leaves the input as it is.
for words in "table examples/suits.pbn" "audit $EVIDENCE examples/suits.pbn" "audit $EVIDENCE -" "table -"; do
    ended=0
    said="$({ "$program" $words && cat; } <examples/suits.pbn | cmp - <(cat examples/suits-tables.pbn
        [[ "$words" == *- ]] || cat examples/suits.pbn) 2>&1)" || ended=$?
    expect "named boards: $words" 0 ""
done
said="$("$program" table --whole <(cat examples/suits.pbn) </dev/null | cmp - <(whole_of suits) 2>&1)" && ended=0 ||
    ended=$?
expect "boards from a pipe" 0 ""
run table examples </dev/null
expect "a directory with boards" 1 "ddfarm: boards: $UNREAD"

# Two boards with one deal, which is solved once: each has its table, and each of its results is told.
ended=0; said="$(two_boards | "$program" table | cmp - <(two_tables) 2>&1 && two_tables | wc -c)" || ended=$?
expect "two boards of one deal" 0 "630"
ended=0; said="$(two_boards | "$program" table --progress 2>&1 >/dev/null | last_line)" || ended=$?
expect "progress of two boards of one deal" 0 "ddfarm: 40 of 40 results, 2 of 2 boards, t s, 0 tables incomplete"

# Room for the program, but not for the stacks of all threads.
ended=0; said="$(ulimit -v 40000; timeout 60 "$program" table --solvers 64 <<<"$BOARD" 2>&1)" || ended=$?
expect "a thread that can't be started" 1 "ddfarm: a thread could not be started"
# Memory for a search, which malloc takes at the start, but not for the stacks of all clerks. The solver, which was
# started before them, has two thousand searches before it, and makes one.
ended=0; said="$(ulimit -v 170000; GLIBC_TUNABLES=glibc.malloc.arena_max=1:glibc.malloc.top_pad=80000000 \
    timeout 10 "$program" table --solvers 1 --checkers 64 --batch 1 < <(many_boards) 2>&1)" || ended=$?
expect "a clerk that can't be started" 1 "ddfarm: a thread could not be started"
