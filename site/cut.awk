# Cuts from evidence the sections that claim numbers: `into=.. awk [-v each=1] -f cut.awk NUMBERS - <EVIDENCE`, NUMBERS
# as boards.awk prints them. A section that claims a number which none before it claims goes to `room/N.dde`, N being
# the first board of its deal. With `each`, each section that claims a number goes to its own file, `room/1` and so on,
# and how many these are is printed.
BEGIN {
    FS = "\t"
    room = ENVIRON["into"] # since -v would read escapes in it
}
FNR == NR {
    if (!($2 in board)) board[$2] = $1
    tricks[$2, $3, $4] = $5
    next
}
# The lines before the certificates are kept until it is known whether the section is wanted.
/^DDE 1$/ { begin(); next }
lines == 1 && /^deal / { deal = substr($0, 6); keep(); next }
lines == 2 && /^trump / { trump = substr($0, 7); keep(); next }
lines == 3 && /^claims [1-4]$/ { keep(); next }
lines > 3 && /^[NESW] [0-9]+ [-0-9]+ [-0-9]+$/ { claim(); keep(); next }
lines > 3 { if (is_wanted) open_file(); lines = 0 }
file != "" { print >file }
{ lines = 0 }
END { if (each) print sections + 0 }

function begin() {
    if (file != "") close(file)
    file = head = ""
    lines = is_wanted = 0
    keep()
}

function keep() {
    head = head $0 "\n"
    lines++
}

function claim(    word, key) {
    split($0, word, " ")
    key = deal SUBSEP trump SUBSEP word[1]
    if (!(key in tricks) || tricks[key] != word[2]) return
    if (!(key in claimed) || each) is_wanted = 1
    claimed[key] = 1
}

function open_file() {
    file = room "/" (each ? ++sections : board[deal] ".dde")
    printf "%s", head >>file
}
