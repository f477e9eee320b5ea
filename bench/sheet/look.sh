#!/usr/bin/env bash
# Looks at sheets with Chromium: of examples/club.pbn, of long.pbn, and of 36 random boards in two and three sections.
# Usage: bench/sheet/look.sh PROGRAM [FOLDER], which keeps the sheets in FOLDER, as HTML, PDF and PNG. It needs Debian's
# chromium and poppler-utils, and without them only says so. If tidy is installed, it must find no fault in the HTML.
# - A sheet read by its elements (reading.py) has to show the tables and pars of `table --par`. So does the tree that
#   Chromium makes of it (`--dump-dom`).
# - Each page of A4 and of Letter has to have its number of boards: 36 boards take four pages, and one more if sections
#   begin within a row. No board may be cut, and no word may be beyond its page. Each page has to have the key.
# - Hands, marks and numbers have to be in their places and be seen, on screens and as for print (places.py).
set -euo pipefail
program="$(realpath "$1")"
kept="$(realpath "${2:-.}")"
cd "$(dirname "${BASH_SOURCE[0]}")/../.."
failed=0

fail() { echo "look: $*"; failed=1; }

# Chromium's headless mode, which has 100 seconds and whose messages are left out.
browse() { timeout 100 chromium --headless --no-sandbox --disable-gpu --hide-scrollbars "$@" 2>/dev/null; }

# Of the pages of a PDF, how many times each has the word or the sign.
counts_of() {
    local page
    for page in $(seq "$(pages_of "$1")"); do
        pdftotext -f "$page" -l "$page" "$1" - | grep -o "$2" | wc -l
    done
}

pages_of() { pdfinfo "$1" | sed -n 's/^Pages: *//p'; }

# Each page has its number of boards, as many ends of boards as beginnings, and for each five spades: of four hands and
# of a table.
look_at_pages() {
    local pdf="$1" boards="$2" begun
    begun="$(counts_of "$pdf" '\<Dealer\>')"
    [[ "$(echo $begun)" == "$boards" ]] || fail "$pdf has" $begun "boards on its pages, not $boards"
    [[ "$(counts_of "$pdf" '\<Par\>')" == "$begun" ]] || fail "$pdf: a page has a part of a board"
    [[ "$(counts_of "$pdf" ♠)" == "$(awk '{ print 5 * $1 }' <<<"$begun")" ]] || fail "$pdf: a page has a part of a hand"
    [[ "$(counts_of "$pdf" 'Double-dummy results' | sort -u)" == 1 ]] || fail "$pdf: a page has no key"
    bench/sheet/places.py "$pdf" || fail "$pdf: words are in other places"
}

# Chromium prints on Letter if the page doesn't name its size. The policy refuses a style with another size.
print_sheet() {
    browse --no-pdf-header-footer --print-to-pdf="$1-letter.pdf" "file://$1.html"
    sed '/Content-Security-Policy/,/>$/d; s/@page {/@page { size: A4;/' "$1.html" >"$1-a4.html"
    browse --no-pdf-header-footer --print-to-pdf="$1-a4.pdf" "file://$1-a4.html"
    rm "$1-a4.html"
    pdftoppm -r 75 -png "$1-letter.pdf" "$1-letter"
    pdftoppm -r 75 -png "$1-a4.pdf" "$1-a4"
    browse --screenshot="$1-telephone.png" --window-size=360,1200 "file://$1.html"
}

# The sheet of a file of boards, with so many boards on its pages.
look() {
    local sheet="$1" boards="$2" size
    "$program" table --par --evidence "$sheet.dde" "$sheet.pbn" >"$sheet-pars.pbn"
    "$program" audit --sheet "$sheet.dde" "$sheet.pbn" >"$sheet.html"
    bench/sheet/reading.py --par "$sheet.html" | cmp - "$sheet-pars.pbn" || fail "$sheet.html has other numbers"
    browse --dump-dom "file://$sheet.html" | bench/sheet/reading.py --par --any - | cmp - "$sheet-pars.pbn" ||
        fail "Chromium shows other numbers of $sheet.html"
    bench/sheet/places.py "$sheet.html" || fail "$sheet.html is laid out otherwise"
    ! command -v tidy >/dev/null || tidy -q -e --drop-empty-elements no "$sheet.html" || fail "$sheet.html has faults"
    print_sheet "$sheet"
    for size in a4 letter; do
        look_at_pages "$sheet-$size.pdf" "$boards"
    done
}

for needed in chromium pdftotext; do
    if ! command -v "$needed" >/dev/null; then
        echo "look: passed over, since $needed is not installed"
        exit 0
    fi
done
room="$(mktemp -d)"
trap 'rm -rf "$room"' EXIT
cp examples/club.pbn "$room/club.pbn"
cp bench/sheet/long.pbn "$room/long.pbn"
bench/sheet/boards.py 36 1 19 >"$room/random.pbn"
bench/sheet/boards.py 36 1 11 19 >"$room/sections.pbn"
look "$room/club" 5
look "$room/long" 2
look "$room/random" "9 9 9 9"
cp "$room/random.dde" "$room/sections.dde"
look "$room/sections" "9 7 8 9 3"
if [[ $# -gt 1 ]]; then
    cp "$room"/*.html "$room"/*.pdf "$room"/*.png "$kept"
fi
[[ "$failed" == 0 ]] || exit 1
echo "look: 36 boards take 4 pages of A4 and of Letter, none is cut, and hands are round their compass"
echo "look: Chromium shows the numbers of table"
