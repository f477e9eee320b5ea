# A part of .ci/program: `leads`. The best lead of each contract leaves declarer the number in the table.
leads_rows() { awk '/^[NESW] +(NT|[SHDC])  / { printf "%s %2s %2d\n", $1, $2, 13 - $3 }'; }
for name in suits partners club; do
    ended=0
    said="$("$program" leads <"examples/$name.pbn" | leads_rows |
        cmp - <(grep '^[NESW] ' "examples/$name-tables.pbn") 2>&1)" || ended=$?
    expect "leads of $name" 0 ""
done
ended=0
said="$("$program" leads --solvers 1 examples/suits.pbn |
    cmp - <("$program" leads <examples/suits.pbn) 2>&1)" || ended=$?
expect "leads of a named file by one solver" 0 ""
run leads --budget 1 examples/suits.pbn
expect "leads in too few steps" 3 "$(head -n 3 examples/suits-tables.pbn)
[OpeningLeads \"Declarer;Denomination\\2R;Leads\"]
; leads incomplete: 0 of 20

ddfarm: note: 20 rows are missing: 20 searches ran out of steps, 0 out of memory, 0 answers were refused
  --budget gives a search more steps"
run leads </dev/null
expect "leads of no board" 0 $'% PBN 2.1\n'"$NO_BOARD"
ended=0; said="$("$program" leads --progress <examples/suits.pbn 2>&1 >/dev/null | last_line)" || ended=$?
expect "progress of leads" 0 "ddfarm: 20 of 20 results, 1 of 1 boards, t s, 0 tables incomplete"
